#!/usr/bin/env bash
# Builds the examples for C and Rust over the library for hosts, runs each on examples/melt.f and compares what it writes.
set -euo pipefail
cd "$(dirname "$0")/.."
for tool in cc rustc; do command -v $tool >/dev/null || { echo "examples: $tool isn't found; they need a C compiler and rustc" >&2; exit 1; }; done
archive=$(tests/emulated/library.sh)
built=target/examples
mkdir -p "$built"
cc -O2 -Wall -Wextra -Iinclude -o "$built/first_day_c" examples/first_day.c "$archive"
cc -O2 -Wall -Wextra -Iinclude -o "$built/two_files" examples/two_files.c "$archive"
rustc --edition 2021 -O -C link-arg="$archive" -o "$built/first_day_rust" examples/first_day.rs
for example in first_day_c first_day_rust two_files; do
  "$built/$example" examples/melt.f >"$built/$example.out" || { echo "examples: $example failed"; exit 1; }
  diff -u "examples/expected/$example" "$built/$example.out" || { echo "examples: $example wrote something else"; exit 1; }
done
echo "examples: first_day in C and in Rust and two_files write what they should"
