#!/usr/bin/env bash
# Shows that the gate notices whatever fails in it. Runs .ci/run over stand-ins for the tools that it calls: once where all goes well, once
# for every call where that one fails, and for verdicts, bad edits, axioms and crates that it must refuse. Each failure has to end it with
# another status than 0 and without rt's last line.
set -euo pipefail
cd "$(dirname "$0")/.."
fail() { echo "gate: $1"; exit 1; }
room=$(mktemp -d)
trap 'rm -rf "$room"' EXIT
cp -r .ci crates.txt tests examples "$room"
mkdir "$room/tools"
cat >"$room/tools/rt" <<'STAND_IN'
#!/bin/sh
call="${0##*/} $*"
echo "$call" >>"$CALLS"
case $call in
'rt ci') printf 'some line\n%s\n%s\n' "${OK-rt: ok; must-fail edits: 3 refused, 1 of them only by a limit; some}" "${VERDICT-7 passed, 0 failed}" ;;
'make all') printf 'logic=proved functions=6 axioms=3\n%s\nsome line\n' "${LOGIC-logic=proved functions=3}" ;;
'bash examples/first_day.sh') cat "${FIRST_DAY-examples/expected/first_day}" ;;
esac
[ "$call" != "${FAILS:-}" ]
STAND_IN
chmod +x "$room/tools/rt"
for tool in python3 bash cc rustc make; do ln -s rt "$room/tools/$tool"; done
bash=$(command -v bash)
tried=0
verdicts() { grep -cx '[0-9]* passed, 0 failed' "$room/out" || true; }
gate() { (cd "$room" && env "$@" CALLS="$room/calls" PATH="$room/tools:$PATH" "$bash" .ci/run >"$room/out" 2>&1); }
refused() {
  tried=$((tried + 1))
  if gate "$@"; then fail "it passes with $*"; fi
  [ "$(verdicts)" -eq 0 ] || fail "rt's last line is shown with $*"
}

gate || fail "it doesn't pass: $(tail -n 1 "$room/out")"
[ "$(tail -n 1 "$room/out")" = "7 passed, 0 failed" ] || fail "rt's last line isn't the last"
[ "$(verdicts)" -eq 1 ] || fail "rt's last line is shown more than once"
grep -qx 'some line' "$room/out" || fail "rt's other lines aren't shown"
sort -u "$room/calls" >"$room/all"
while IFS= read -r call; do refused FAILS="$call"; done <"$room/all"
for verdict in '3 passed, 1 failed' '0 passed, 0 failed' 'proved' ''; do refused VERDICT="$verdict"; done
for ok in 'rt: ok; must-fail edits: 2 refused, 1 bad; some' 'rt: ok; must-fail edits: 0 refused, 10 bad' 'rt: some' ''; do refused OK="$ok"; done
for logic in 'logic=proved functions=3 axioms=1' 'logic=not-proved' ''; do refused LOGIC="$logic"; done
refused FIRST_DAY=examples/melt.f
for line in 'sequence: io' 'answers: lists libc' 'forfochry_c staticlib: os # the system'; do
  cp crates.txt "$room"
  echo "$line" >>"$room/crates.txt"
  refused NOTHING=planted
done
echo "gate: $tried faults planted in it, $(wc -l <"$room/all") of them in the calls that it makes, and each ends it"
