#!/bin/sh
# Builds and runs the benchmark of the check: proved, in plain C, and a plain sum of the held bytes. The archive is code for x86-64.
set -e
[ "$(uname -m)" = x86_64 ] || { echo "the archive links into x86-64 programs alone, and an emulator's times say nothing"; exit 1; }
cd "$(dirname "$0")"
../../tools/build.sh pool_check_archive >/dev/null
gcc -O3 -o ../../target/check_benchmark benchmark.c ../../target/staticlib/libpool_check_archive.a
../../target/check_benchmark
