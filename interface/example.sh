#!/bin/sh
# Proves and builds the static library, builds the example in C on it, runs it, and compares what it prints.
set -e
cd "$(dirname "$0")"
(cd ../crates/saturnin_c && rt lib > /dev/null)
folder=$(mktemp -d)
trap 'rm -r "$folder"' EXIT
${CC:-cc} -std=c99 -Wall -Wextra -Werror -O2 -o "$folder/example" example.c ../crates/saturnin_c/out/libsaturnin_c.a
"$folder/example" > "$folder/printed"
cat "$folder/printed"
diff example.out "$folder/printed" > /dev/null || { echo 'example.sh: not what example.out has' >&2; exit 1; }
