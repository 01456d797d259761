#!/usr/bin/env bash
# Installs what `make` has built into a folder, builds the first day in C by what the pkg-config file says, runs it and a program, and takes
# all of it out again: no file may be left. With DESTDIR the same files stand below that and tell the same prefix.
set -euo pipefail
cd "$(dirname "$0")/.."
unset MAKEFLAGS MFLAGS DESTDIR # what a make that runs this was told
fail() { echo "install: $1"; exit 1; }
room=$(mktemp -d)
trap 'rm -rf "$room"' EXIT
usr=$room/usr
pc=lib/pkgconfig/forfochry.pc
wanted="bin/answers bin/marks include/forfochry.h lib/libforfochry.a $pc"
made() { make -s "$@" >"$room/log" 2>&1 || fail "make $* failed: $(cat "$room/log")"; }
holds() {
  local files
  files=$(cd "$1" && find . -type f -printf '%P\n' | sort | paste -sd' ')
  [ "$files" = "$2" ] || fail "there should be the files '$2', and there are '$files'"
}

made install PREFIX="$usr"
holds "$usr" "$wanted"
if command -v pkg-config >/dev/null; then
  export PKG_CONFIG_PATH=$usr/lib/pkgconfig
  version=$(pkg-config --modversion forfochry)
  flags=$(pkg-config --cflags --libs forfochry)
else # its variables are written as a shell's are
  version=$(sed -n 's/^Version: //p' "$usr/$pc")
  flags=$(eval "$(sed -n '/^[a-z]*=/p' "$usr/$pc")"; eval "echo $(sed -n 's/^\(Cflags\|Libs\): //p' "$usr/$pc" | paste -sd' ')")
fi
[ "$version" = "$(cat VERSION)" ] || fail "$pc says that the release is '$version'"
# where the machine isn't x86-64 the archive's stand-in is linked
[ "$(uname -m)" = x86_64 ] || cp "$(tests/emulated/library.sh "$usr/lib/libforfochry.a")" "$usr/lib/libforfochry.a"
# shellcheck disable=SC2086
cc -O2 -o "$room/first_day" examples/first_day.c $flags
"$room/first_day" examples/melt.f | diff -u examples/expected/first_day_c - || fail "the first day in C writes something else"
marks=$(tests/emulated/program.sh "$usr/bin/marks")
frames=$("$marks" <examples/melt.f | wc -l)
[ "$frames" -eq 141 ] || fail "marks writes $frames frames for 141 lines"
made uninstall PREFIX="$usr"
holds "$usr" ""

made install PREFIX=/usr DESTDIR="$room/stage"
holds "$room/stage" "usr/${wanted// / usr/}"
grep -qx 'prefix=/usr' "$room/stage/usr/$pc" || fail "with DESTDIR $pc has another prefix"
made uninstall PREFIX=/usr DESTDIR="$room/stage"
holds "$room/stage" ""
echo "install: $version installed, linked, run and taken out again"
