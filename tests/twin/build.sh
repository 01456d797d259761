#!/bin/sh
# Builds the twin as a static library: tests/twin/build.sh ARCHIVE [FAULT | --renamed]
# With --renamed its calls are twin_format, twin_run and twin_mark, to stand beside the library's.
set -e
here=$(dirname "$0")
mkdir -p "$(dirname "$1")"
case "${2:-}" in
    '') set -- "$1" ;;
    --renamed) set -- "$1" --cfg renamed -C metadata=renamed ;;
    *) set -- "$1" --cfg "fault=\"$2\"" ;;
esac
archive=$1
shift
rustc --edition 2024 -C opt-level=3 -C codegen-units=1 -C panic=abort -C strip=debuginfo --crate-name twin --crate-type staticlib \
    --check-cfg 'cfg(fault, values(any()))' --check-cfg 'cfg(renamed)' "$@" "$here/twin.rs" -o "$archive"
