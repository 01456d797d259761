#!/bin/sh
# Builds the host's test against a static library: tests/host/build.sh ARCHIVE PROGRAM
set -e
here=$(dirname "$0")
rustc --edition 2024 -O --crate-name host "$here/host.rs" -C link-arg="$(realpath "$1")" -o "$2"
