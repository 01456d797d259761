#!/usr/bin/env bash
# Prints the path of an archive that this machine's programs can link: the library's own on x86-64, elsewhere one whose calls run it
# under the kit's emulator. tests/emulated/library.sh [ARCHIVE]
set -euo pipefail
here=$(cd "$(dirname "$0")" && pwd)
archive=$(realpath -m "${1:-$here/../../target/staticlib/libforfochry.a}")
[ -f "$archive" ] || { echo "$archive isn't there; make the library with: make" >&2; exit 1; }
if [ "$(uname -m)" = x86_64 ]; then
  echo "$archive"
  exit
fi
kit=$(dirname "$(dirname "$(readlink -f "$(command -v rt)")")")/on/$(uname -m)/toolchain/bin
[ -x "$kit/qemu-x86_64" ] || { echo "this Rattle kit has no emulator for $(uname -m)" >&2; exit 1; }
out=$here/../../target/emulated
mkdir -p "$out"
out=$(realpath "$out")
"$kit/clang" --target=x86_64-unknown-linux-gnu -O2 -ffreestanding -fno-stack-protector -fno-builtin -mno-red-zone -c "$here/server.c" -o "$out/server.o"
"$kit/ld.lld" -static -e _start -o "$out/server" "$out/server.o" "$archive"
cc -O2 -Wall -Wextra -DEMULATOR="\"$kit/qemu-x86_64\"" -DSERVER="\"$out/server\"" -c "$here/bridge.c" -o "$out/bridge.o"
rm -f "$out/libforfochry.a"
ar rcs "$out/libforfochry.a" "$out/bridge.o"
echo "$out/libforfochry.a"
