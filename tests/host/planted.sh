#!/usr/bin/env bash
# Plants each fault in the twin, and shows which trials of the host's test find it, each run by itself, and whether the independent
# program does.
#   tests/host/planted.sh [FAULT ...]     all faults if none is named
# Exits with 1 if a fault isn't found, if a line of the table below doesn't hold, or if the twin without a fault doesn't pass. What can't
# be built is no fault found.
set -uo pipefail
here=$(cd "$(dirname "$0")" && pwd)
work=$(mktemp -d)
trap 'rm -rf "$work"' EXIT

# Every trial can fail: a fault that it finds alone. 'only': no other trial finds it. 'itself': the trial finds it where answers and pools
# aren't compared with the model, by what it compares itself. 'model': the model is all that it has to compare with.
table='
edges of the rules                   | numbers_cut_to_sixteen_bits     | itself
pools of allowed lengths             | format_leaves_blocks            | only itself
pools of other lengths               | format_takes_longer_pools       | only itself
empty buffers anywhere               | refuses_null                    | only itself
lengths of commands and answer rooms | clears_the_whole_room           | only itself
the order of refusals                | commands_looked_at_first        | only itself
calls without frames                 | empty_call_leaves_a_trace       | only itself
calls without frames                 | no_check_without_frames         | itself
marks of lines                       | line_of_73_columns              | only itself
no block free                        | full_when_ten_names_hold_all    | only model
random sessions                      | split_leaves_a_count            | model
the largest name                     | check_refuses_height_6          | only itself
one call or several                  | remembers_an_empty_call         | only itself
one call or several                  | pretends_after_the_first_frame  | itself
saved pools                          | pool_bears_its_address          | only itself
other names untouched                | scribbles_on_another_name       | only itself
one name'\''s answers in two runs       | crowded_depth                   | only itself
one name'\''s answers in two runs       | depth_counts_open_names         | itself
damaged pools                        | check_skips_counts              | only itself
'
rows=$(sed -E '/^$/d; s/ +\| +/|/g' <<<"$table")

planted=$(grep -rhoE 'fault = "[a-z0-9_]+"' "$here/../twin" --include='*.rs' | cut -d'"' -f2 | sort -u)
for fault in "$@" $(cut -d'|' -f2 <<<"$rows"); do
    grep -qxF -e "$fault" <<<"$planted" || { echo "planted.sh: the twin has no fault called '$fault'; it has:" $planted; exit 1; }
done

# Compiles the host's test or the first program without a library: compile CRATE SOURCE
compile() {
    rustc --edition 2024 -O --crate-type rlib --crate-name "$1" "$2" -o "$work/lib$1.rlib" || exit 1
}

# Links one of them with the twin as it was built last.
link() {
    echo "fn main() -> impl std::process::Termination { $1::main() }" |
        rustc --edition 2024 --extern "$1=$work/lib$1.rlib" -C link-arg="$work/libforfochry.a" -o "$work/$1" - || exit 1
}

# The twin, with a fault if one is named, and over it the host's test and the first program.
build() {
    "$here/../twin/build.sh" "$work/libforfochry.a" "$@" || exit 1
    link host
    link first_program
}

# What the host's test says against the twin, with these words; nothing only if it ends well and has passed.
host_says() {
    timeout 10 "$work/host" "$@" >"$work/host.out" 2>"$work/host.err"
    local status=$?
    if grep -q '^FAILED' "$work/host.out"; then
        grep -m1 '^FAILED' "$work/host.out" | cut -c9-
    elif [ $status -eq 124 ]; then
        echo "${*: -1}: the call doesn't end"
    elif [ $status -ne 0 ] || ! grep -q ' passed, 0 failed$' "$work/host.out"; then
        echo "${*: -1}: the call breaks off (status $status): $(grep -A1 -m1 'panicked at' "$work/host.err" | tail -1)"
    fi
}

# What the independent program says against the first program over the twin; nothing only if it ends well.
independent_says() {
    "$here/../independent/first_program.py" against "$work/first_program" >"$work/independent.out" 2>&1 ||
        tail -1 "$work/independent.out" | sed "s|^$work/first_program: ||"
}

# Whether a line of the table holds, where the trials in $work/found have found the fault that is built: holds TRIAL FAULT WORDS
holds() {
    grep -qxF "$1" "$work/found" || { echo "     $1 doesn't find it"; return 1; }
    case $3 in *only*) [ "$(wc -l <"$work/found")" -eq 1 ] || { echo "     $1 isn't the only one to find it"; return 1; } ;; esac
    case $3 in
        *itself*) says=$(host_says --without-model "$1"); [ -n "$says" ] || { echo "     $1 doesn't find it without the model"; return 1; } ;;
        *) says="$1" ;;
    esac
    echo "     $3: $(cut -c1-140 <<<"$says")"
}

compile host "$here/host.rs"
compile first_program "$here/../twin/first_program.rs"
build
"$work/host" --list >"$work/trials"
cut -d'|' -f1 <<<"$rows" | sort -u | diff <(sort "$work/trials") - >"$work/differ" || { echo "the table and the trials differ:"; cat "$work/differ"; exit 1; }
host=$(host_says)
independent=$(independent_says)
[ -z "$host$independent" ] || { echo "the twin without a fault doesn't pass: $host $independent"; exit 1; }
printf '%-31s | %6s | %-11s | %s\n' fault trials independent 'first message' '(none)' 0 '' "$(tail -1 "$work/host.out")"
wrong=0
for fault in ${*:-$planted}; do
    build "$fault"
    : >"$work/found"
    first=
    while read -r trial; do
        says=$(host_says "$trial")
        [ -z "$says" ] || echo "$trial" >>"$work/found"
        first=${first:-$says}
    done <"$work/trials"
    independent=$(independent_says)
    [ -n "$first$independent" ] || wrong=1
    printf '%-31s | %6s | %-11s | %s\n' "$fault" "$(wc -l <"$work/found")" "${independent:+finds it}" "$(cut -c1-140 <<<"${first:-${independent:-NOBODY FINDS IT}}")"
    while IFS='|' read -r trial of words; do
        [ "$of" != "$fault" ] || holds "$trial" "$fault" "$words" || wrong=1
    done <<<"$rows"
done
exit $wrong
