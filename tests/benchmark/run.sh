#!/usr/bin/env bash
# Compares the library with the twin, a flat array and a rope, and times the programs: tests/benchmark/run.sh [ARCHIVE [BEFORE]]
# BEFORE is another archive of the library, in the last columns. Writes target/benchmark/table.txt and plot.svg.
set -euo pipefail
here=$(cd "$(dirname "$0")" && pwd)
archive=$(realpath "${1:-$("$here/here.sh" forfochry)}")
out=$here/../../target/benchmark
# The least and the greatest ratio to BEFORE of each command, from the table's last column.
ratios() {
  awk '$NF + 0 > 0 { if (!low[$1] || $NF < low[$1]) low[$1] = $NF; if ($NF > high[$1]) high[$1] = $NF }
    END { for (command in low) print "library over before:", command, low[command], "to", high[command] }' "$1" | sort
}
mkdir -p "$out"
"$here/../twin/build.sh" "$out/libtwin.a" --renamed
g++ -O3 -c "$here/rope.cpp" -o "$out/rope.o"
also=()
if [ -n "${2:-}" ]; then
  # every name that it defines, so that nothing of the other is taken for it
  nm --quiet -g --defined-only "$2" | awk 'NF == 3 { print $3, "before_" $3 }' | sort -u >"$out/before.names"
  objcopy --redefine-syms="$out/before.names" "$2" "$out/libbefore.a"
  also=(--cfg before -C link-arg="$out/libbefore.a")
fi
rustc --edition 2024 -C opt-level=3 --check-cfg 'cfg(before)' --crate-name benchmark "$here/benchmark.rs" -C link-arg="$archive" \
    -C link-arg="$out/libtwin.a" -C link-arg="$out/rope.o" -C link-arg=-lstdc++ "${also[@]}" -o "$out/benchmark"
"$out/benchmark" | tee "$out/table.txt"
[ -z "${2:-}" ] || ratios "$out/table.txt" | tee -a "$out/table.txt"
python3 "$here/plot.py" "$out/table.txt" "$out/plot.svg"
answers=$("$here/here.sh" answers)
marks=$("$here/here.sh" marks)
python3 "$here/programs.py" "$answers" "$marks" | tee -a "$out/table.txt"
