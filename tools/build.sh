#!/usr/bin/env bash
# Proves and builds what users run and link, and puts it where they look for it: tools/build.sh NAME ..
#   marks, answers         the programs, target/bin/NAME
#   forfochry              the library for hosts, target/staticlib/libforfochry.a, which the crate forfochry_c makes
#   pool_check_archive     the check alone, target/staticlib/libpool_check_archive.a
# rt knows by itself what is unchanged since it was proved. It runs a program that it has built, here on no input.
set -euo pipefail
cd "$(dirname "$0")/.."
command -v rt >/dev/null || { echo "build: rt isn't found; put the Rattle kit's command on the PATH" >&2; exit 1; }

# Another file takes the old one's place at once, so that a program that runs goes on.
put() {
  mkdir -p "$(dirname "$2")"
  cp "$1" "$2.new"
  mv "$2.new" "$2"
}
in_crate() { (cd "crates/$1" && shift && "$@" </dev/null); }

for name in "$@"; do
  case $name in
  marks | answers)
    in_crate "$name" rt run
    put "crates/$name/out/$name" "target/bin/$name"
    ;;
  forfochry)
    in_crate forfochry_c rt lib
    put crates/forfochry_c/out/libforfochry_c.a target/staticlib/libforfochry.a
    ;;
  pool_check_archive)
    in_crate "$name" rt lib
    put "crates/$name/out/lib$name.a" "target/staticlib/lib$name.a"
    ;;
  *)
    echo "build: there is no $name; the head of tools/build.sh has what there is" >&2
    exit 1
    ;;
  esac
done
