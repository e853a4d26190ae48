#!/usr/bin/env bash
# Counts the instructions that the plain program and the program `runsheet` take for the same run files, once both have printed
# the same bytes. A ratio is ours over plain; the last column takes from both what an empty file costs them.
#
#     bench/count.sh [RUNSHEET]      the path of the built program; without one, only the plain program is counted
#
# Wanted: rustc, python3, valgrind. Everything made here is made in a temporary folder.
set -eu
ours=${1:+$(realpath "$1")}
top=$(cd "$(dirname "$0")/.." && pwd)
scratch=$(mktemp -d)
trap 'rm -rf "$scratch"' EXIT

rustc -O --edition 2021 -o "$scratch/plain" "$top/bench/plain.rs"
PYTHONDONTWRITEBYTECODE=1 python3 "$top/tools/run_files.py" "$scratch/files" bench

# The instructions that a program ($1) takes for a file ($2); what it prints goes to $3.
count() {
    valgrind --tool=callgrind --callgrind-out-file=/dev/null "$1" < "$2" > "$3" 2> "$scratch/told" || {
        echo "$1 failed on $2" >&2
        exit 1
    }
    sed -n 's/.*Collected : \([0-9]*\).*/\1/p' "$scratch/told"
}

ratio() {
    awk "BEGIN { if ($2 == 0) print \"\"; else printf \"%.2f\", $1 / $2 }"
}

printf '| %-9s | %6s | %10s |' file bytes plain
[ -z "$ours" ] || printf ' %10s | %5s | %6s |' ours ratio beyond
echo
for name in empty example eighth quarter half largest stops speeds masses unasked long_line; do
    file=$scratch/files/$name.run
    plain=$(count "$scratch/plain" "$file" "$scratch/plain.out")
    [ "$name" != empty ] || plain_start=$plain
    printf '| %-9s | %6d | %10d |' "${name/_/ }" "$(wc -c < "$file")" "$plain"
    if [ -n "$ours" ]; then
        taken=$(count "$ours" "$file" "$scratch/ours.out")
        [ "$name" != empty ] || start=$taken
        beyond=$(ratio $((taken - start)) $((plain - plain_start)))
        printf ' %10d | %5s | %6s |' "$taken" "$(ratio "$taken" "$plain")" "$beyond"
        cmp -s "$scratch/plain.out" "$scratch/ours.out" || { echo " printed otherwise"; exit 1; }
    fi
    echo
done
