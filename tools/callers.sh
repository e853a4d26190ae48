#!/usr/bin/env bash
# Builds the static library `zetampuy` and, over it, the examples in C and in Rust and a program that tries every call. They have
# to print what the programs `runsheet` and `cases` print. The compilers are those of CC and RUSTC, else cc and rustc. Everything
# but the library is made in a temporary folder.
set -eu
top=$(cd "$(dirname "$0")/.." && pwd)
kit=$(dirname "$(rt doc)")
scratch=$(mktemp -d)
trap 'rm -rf "$scratch"' EXIT

library=$top/crates/zetampuy
(cd "$library" && rt lib > "$scratch/told" 2>&1) || { cat "$scratch/told"; exit 1; }

# The library calls the heap of the C library through a file of the toolchain.
for program in examples/c/answer.c tools/callers/calls.c; do
    "${CC:-cc}" -std=c99 -O2 -Wall -Wextra -Werror -pedantic -I "$library/include" -o "$scratch/$(basename "$program" .c)" \
        "$top/$program" "$library/out/libzetampuy.a" "$kit/c/liblibc_c.a"
done
mv "$scratch/answer" "$scratch/c"
"${RUSTC:-rustc}" --edition 2021 -O -D warnings -L "native=$library/out" -L "native=$kit/c" -l static=zetampuy -l static=libc_c \
    -o "$scratch/rust" "$top/examples/rust/answer.rs"

failed=0
# A program ($1) prints for a text ($2) what it has to ($3).
try() {
    "$scratch/$1" < "$2" > "$scratch/printed" && cmp -s "$scratch/printed" "$3" || { echo "$1 prints otherwise for $2"; failed=1; }
}

example=$top/crates/runsheet/stdin
sed 's/^SEC 2$/SEC/' "$example" > "$scratch/no_count"
echo "FAULT TEXT 9 15" > "$scratch/no_count.told"
sed 's/^0 40000$/1 40000/' "$example" > "$scratch/no_table"
echo "FAULT LAW 4 14" > "$scratch/no_table.told"
sed '12,$d' "$example" > "$scratch/no_questions"
echo "FAULT TEXT 12 16" > "$scratch/no_questions.told"
: > "$scratch/no_text"
echo "FAULT TEXT 1 16" > "$scratch/no_text.told"
head -c 65537 /dev/zero > "$scratch/too_long"
echo "FAULT TEXT 1 16" > "$scratch/too_long.told"
for program in c rust; do
    try $program "$example" "$top/crates/runsheet/stdout"
    for text in no_count no_table no_questions no_text too_long; do
        try $program "$scratch/$text" "$scratch/$text.told"
    done
done
# Memory for less than a fifth of the reckoners that it makes.
ulimit -v 400000
try calls "$top/crates/cases/stdin" "$top/crates/cases/stdout"
[ "$failed" -eq 0 ] || exit 1
echo "called from C and from Rust: every call, 6 texts twice and $(grep -c '^[^:]*: ' "$top/crates/cases/stdout") run files print what they should"
