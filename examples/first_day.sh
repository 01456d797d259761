#!/usr/bin/env bash
# The first session: which lines of a Fortran file carry EQUIVALENCE? Takes a file, or examples/melt.f.
set -euo pipefail
top=$(cd "$(dirname "$0")/.." && pwd)
file=$(realpath -m "${1:-$top/examples/melt.f}")
cd "$top"
fail() { echo "first_day: $1" >&2; exit 1; }
[ -f "$file" ] && [ -r "$file" ] || fail "$file can't be read; give the path of a fixed-form Fortran file"
command -v rt >/dev/null || fail "rt isn't found; put the Rattle kit's command on the PATH"
mkdir -p target
[ -x target/bin/answers ] || echo "first_day: the two programs are proved first, which takes some minutes" >&2
tools/build.sh marks answers >target/first_day.log 2>&1 || { tail -n 40 target/first_day.log >&2; fail "the programs aren't proved, and the lines above say why"; }
marks=$(tests/emulated/program.sh target/bin/marks)
answers=$(tests/emulated/program.sh target/bin/answers)

lines=$("$marks" <"$file" | wc -l)
shares=$(((lines + 23) / 24 + 1))
[ "$shares" -le 124 ] || fail "$file has $lines lines or more, and the program's pool has room for 2,952; take a shorter file"

# One frame: code, name, symbol, a zero byte, number.
frame() { printf '%02X%02X%02X00%08X\n' "$@"; }
# The value of an answer, whose status must be 0.
value() { [ "${1:0:2}" = 00 ] || fail "the answer $1 has status ${1:0:2}, where 00 was to come"; echo $((16#${1:8:8})); }

coproc INDEX { "$answers"; }
ask() { frame "$@" >&"${INDEX[1]}"; read -r answer <&"${INDEX[0]}"; }

ask 1 0 16 "$shares"
echo "open name 0 with $shares shares, room for $((24 * shares)) lines      -> $answer"
"$marks" <"$file" >target/first_day.frames
while read -r line; do
  echo "$line" >&"${INDEX[1]}"
  read -r answer <&"${INDEX[0]}"
done <target/first_day.frames
echo "insert the mark of each of $lines lines; the last answer       -> $answer"
ask 6 0 3 "$lines"
found=$(value "$answer")
echo "rank: how many lines up to line $lines carry mark 3?           -> $answer, so $found"
for ((j = 1; j <= found; j++)); do
  ask 7 0 3 "$j"
  place=$(value "$answer")
  echo "select: where is line $j of these?                           -> $answer, so line $place:"
  sed -n "${place}p" "$file"
  ask 5 0 0 "$place"
  echo "access: what is line $place, and how deep does it stand?      -> $answer, so mark $((16#${answer:4:2})) in block $((16#${answer:6:2})) of the way down"
done
