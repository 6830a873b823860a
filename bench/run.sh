#!/bin/sh
# Builds the proved library and the plain C, both by clang at -O3 for the same processor, compares what they give, and prints
# times and counts of instructions with their ratios, the stack of a seal, and what the libraries call outside themselves.
set -e
cd "$(dirname "$0")"
for crate in saturnin_c sheet_stack; do (cd ../crates/$crate && rt lib > /dev/null); done
folder=$(mktemp -d)
trap 'rm -r "$folder"' EXIT
flags='-std=gnu11 -O3 -march=x86-64-v2 -Wall -Wextra -Werror'
clang $flags -o "$folder/bench" bench.c plain.c ../crates/saturnin_c/out/libsaturnin_c.a
clang $flags -o "$folder/stack" stack.c ../crates/sheet_stack/out/libsheet_stack.a

echo 'times'
"$folder/bench"

echo 'instructions'
counted() {
    valgrind --tool=callgrind --callgrind-out-file=/dev/null "$folder/bench" "$@" 2>&1 | sed -n 's/.*Collected : *//p'
}
# Of one call: what some more calls add.
of_one() {
    few=$(counted "$1" "$2" "$3" 1)
    more=$(counted "$1" "$2" "$3" 5)
    echo $(((more - few) / 4))
}
for operation in hash seal open; do
    for size in 64 928 65536; do
        library=$(of_one $operation $size library)
        plain=$(of_one $operation $size c)
        printf '%-5s %6d bytes: library %10d, plain C %10d, ratio %s\n' $operation $size $library $plain \
            "$(echo "scale=2; $plain / $library" | bc)"
    done
done

echo 'memory'
"$folder/stack"
for crate in saturnin_c sheet_stack; do
    echo "$crate calls only:" $(nm ../crates/$crate/out/lib$crate.a | sed -n 's/^ *U //p' | sort -u)
done
