#!/bin/sh
# Uses of chains, numbers and viewings that no program may be built with: the compiler refuses them, or the prover. It tries
# - data for a text chain, or for one that is closed; a chain from a key that may have another length;
# - a number used twice, let go, copied, or made up outside its crate;
# - the same once more where the number's own crate would allow it: by a derive, or by a public field;
# - a viewing that does not wipe.
# Each change is made in a copy of the crates, which is checked, and then taken back. The crates as they are have to pass first, so
# that what is refused is refused for its change. Run from the repository's folder; it takes two minutes where `rt check` has
# proved the crates on this machine.
set -u
home=$PWD
folder=$(mktemp -d)
trap 'rm -rf "$folder"' EXIT
copy=$folder/copy
mkdir "$copy"
tar c -C "$home" --exclude=out crates crates.txt | tar x -C "$copy"
failed=0
changed=
untouched=

fail() {
    echo "FAILED: $1"
    failed=1
}

# check CRATE ARGUMENT...: what is said stands in the file `said`
check() {
    (cd "$copy/crates/$1" && shift && rt check "$@") > "$folder/said" 2>&1
}

# change FILE CHANGE: the file, below crates/, is changed in the copy by a sed script
change() {
    sed -i "$2" "$copy/crates/$1"
    cmp -s "$copy/crates/$1" "$home/crates/$1" && untouched=$1
    changed="$changed $1"
}

# refused NAME ERROR CRATE ARGUMENT...: the crate, as it is changed now, is not proved, and the error is said; the changes are taken back
refused() {
    name=$1
    error=$2
    shift 2
    if [ -n "$untouched" ]; then
        fail "$name: nothing in $untouched was changed"
    elif check "$@"; then
        fail "$name: it passed"
    elif grep -q "$error" "$folder/said"; then
        echo "ok: $name"
    else
        fail "$name: refused for another reason"
        tail -5 "$folder/said"
    fi
    for file in $changed; do
        cp "$home/crates/$file" "$copy/crates/$file"
    done
    changed=
    untouched=
}

for crate in modes archive_box box_desk; do
    check $crate || {
        fail "$crate as it is"
        tail -5 "$folder/said"
        exit 1
    }
done

# chain NAME ERROR LINE: the call that feeds the text in `tag` becomes this line
chain() {
    change modes/src/cascade.rt "s|^        text_chain.feed(text);\$|$3|"
    refused "$1" "cascade.rt.*$2" modes
}

chain 'a data block for a text chain' 'unknown-method.*data_block' '    let _ = text_chain.data_block(text);'
chain 'a tail of data for a text chain' 'unknown-method.*data_tail' '    let _ = text_chain.data_tail(text);'
chain 'data for a data chain that is closed' 'moved' '    let _ = data_chain.data_block(text);'
chain 'a chain from a key that may not have 32 bytes' 'type-mismatch\|mismatch' '    let _ = DataChain::start(self.cipher, text, \&self.nonce.counted(0));'

# number NAME ERROR BODY: a function that takes a box `b` and a number `n` of it, with this body
number() {
    change archive_box/src/draws.rt "\$a fn misuse<C: TwoWayCipher, S: Shelf>(b: \&mut ArchiveBox<C, S>, n: Number) { $3 }"
    refused "$1" "draws.rt.*$2" archive_box
}

number 'a number used twice' 'borrow-e0382' 'let _ = b.void(n); let _ = b.void(n);'
number 'a number let go' 'linear-value-let-go' 'let _ = b.shelf();'
number 'a number copied' 'unknown-method.*clone\|unsatisfied-bound' 'let m = n.clone(); let _ = b.void(n); let _ = b.void(m);'

# made_up: a function that makes a number up, outside its crate
made_up() {
    change box_desk/src/asks.rt '$a fn made_up() -> Number { Number { value: 7 } }'
}

made_up
refused 'a number made up' 'asks.rt' box_desk

# Numbers as their own crate must not have them. The place in the source is said, of the compiler's error or of the prover's.
place='src/.*\.rt:[0-9]'
change archive_box/src/number.rt 's|^pub struct Number|#[derive(Drop)]\n&|'
refused 'numbers that may be let go' "$place" archive_box
change archive_box/src/number.rt 's|^pub struct Number|#[derive(Clone, Copy)]\n&|'
refused 'numbers that may be copied' "$place" archive_box
change archive_box/src/number.rt 's|^    pub(crate) value: u64|    pub value: u64|'
made_up
refused 'numbers that may be made up' "$place" box_desk

change archive_box/src/viewing.rt '/^impl Drop for Viewing/,/^}/d'
refused 'a viewing that does not wipe' 'linear-value-let-go' archive_box --test

exit $failed
