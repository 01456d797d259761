#!/usr/bin/env bash
# Prints the path of a file that runs a program of this repository here: the program itself on x86-64, elsewhere a script that runs it
# under the kit's emulator. tests/emulated/program.sh target/bin/NAME
set -euo pipefail
program=$(realpath -m "$1")
[ -x "$program" ] || { echo "$program isn't there; make it with: make" >&2; exit 1; }
if [ "$(uname -m)" = x86_64 ]; then
  echo "$program"
  exit
fi
kit=$(dirname "$(dirname "$(readlink -f "$(command -v rt)")")")/on/$(uname -m)/toolchain
[ -x "$kit/bin/qemu-x86_64" ] || { echo "this Rattle kit has no emulator for $(uname -m)" >&2; exit 1; }
out=$(cd "$(dirname "$0")/../.." && pwd)/target/emulated
mkdir -p "$out"
script=$out/$(basename "$program")
printf '#!/bin/sh\nexec "%s" "%s" --library-path "%s" "%s" "$@"\n' "$kit/bin/qemu-x86_64" "$kit/lib/ld-linux-x86-64.so.2" "$kit/lib" "$program" >"$script"
chmod +x "$script"
echo "$script"
