#!/usr/bin/env bash
# Prints the path of what is to be measured, the library or a program: tests/benchmark/here.sh forfochry|answers|marks
# On x86-64 that is what rt makes. Elsewhere times of it would be the emulator's, so its LLVM module is compiled for this machine's
# processor by the same compiler: the same code, but not the file that users run.
set -euo pipefail
cd "$(dirname "$0")/../.."
name=$1
case $name in
forfochry) crate=forfochry_c made=target/staticlib/libforfochry.a root=lib kind="--crate-type staticlib" ;;
*) crate=$name made=target/bin/$name root=main kind="" ;;
esac
tools/build.sh "$name" >/dev/null 2>&1 || { echo "benchmark: $name isn't proved; tools/build.sh $name says why" >&2; exit 1; }
if [ "$(uname -m)" = x86_64 ]; then
  echo "$PWD/$made"
  exit
fi
kit=$(dirname "$(dirname "$(readlink -f "$(command -v rt)")")")
own=$kit/on/$(uname -m)
[ -d "$own" ] || { echo "benchmark: this Rattle kit has no compiler for $(uname -m)" >&2; exit 1; }
out=$PWD/target/benchmark/$name
rm -rf "$out"
mkdir -p "$out/tools/bin"
ln -s "$own/toolchain/lib/" "$out/tools/lib"
ln -s "$own"/toolchain/bin/* "$out/tools/bin/"
rm "$out/tools/bin/clang"
# a compiler that keeps the module it is handed
printf '#!/bin/sh\nfor word in "$@"; do case $word in *.bc) cp "$word" "%s/module.bc" ;; esac; done\nexec "%s/toolchain/bin/clang" "$@"\n' \
  "$out" "$own" >"$out/tools/bin/clang"
chmod +x "$out/tools/bin/clang"
words=(--extern "std=$kit/rlibs/std.rlib" -L "dependency=$kit/rlibs")
for needed in $(sed -nE "s/^$crate( staticlib)?://p" crates.txt); do
  words+=(--extern "$needed=crates/$needed/out/rlib/$needed.rlib")
done
for rlibs in crates/*/out/rlib; do
  words+=(-L "dependency=$rlibs")
done
# shellcheck disable=SC2086
"$own/bin/rattle" build --crate-name "$crate" "crates/$crate/src/$root.rt" "${words[@]}" \
  --antt-project "$kit/rattle/logic/antt-project.json" --logic-built "$kit/logic_built" $kind --toolchain "$out/tools" \
  -o "$out/made" >"$out/log" 2>&1 || { cat "$out/log" >&2; exit 1; }
"$own/toolchain/bin/clang" --target="$(uname -m)-unknown-linux-gnu" -O3 -fPIC -Wno-override-module -c -x ir "$out/module.bc" -o "$out/native.o" 2>/dev/null
if [ "$name" = forfochry ]; then
  ar rcs "$out/libforfochry.a" "$out/native.o"
  echo "$out/libforfochry.a"
else
  cc -o "$out/$name" "$out/native.o" "$own"/c/libos_c.a "$own"/c/liblibc_c.a
  echo "$out/$name"
fi
