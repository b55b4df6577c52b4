#!/bin/sh
# usage: must_not_compile.sh
# A token that is kept after its source is gone must not compile, and neither must a node of a book that is kept after
# the book's bytes. Makes each edit of a test in a copy, and wants the borrow checker's refusal. Needs no proof, and
# takes a minute.
set -eu
usage() { sed -n '2,/^set /{/^# /s/^# //p}' "$0"; exit "$1"; }
case ${1-} in --help | -h) usage 0 ;; ?*) usage 2 >&2 ;; esac
top=$(cd "$(dirname "$0")/.." && pwd)
copy=$(mktemp -d)
trap 'rm -rf "$copy"' EXIT
trap 'exit 130' HUP INT TERM
mkdir "$copy/crates"
cp "$top/crates.txt" "$copy/"
[ ! -e "$top/HANDLES" ] || cp "$top/HANDLES" "$copy/"
for crate in "$top"/crates/*; do
    mkdir "$copy/crates/$(basename "$crate")"
    for part in src specs proofs; do
        [ ! -d "$crate/$part" ] || cp -r "$crate/$part" "$copy/crates/$(basename "$crate")/"
    done
done
cd "$copy/crates/atomic_cli"

# refused FILE LINE LINES: with these lines in the place of that line of the file the tests aren't compiled.
refused() {
    cp "src/$1" "$copy/kept"
    sed -i "s/^    $2\$/    $3/" "src/$1"
    if cmp -s "src/$1" "$copy/kept"; then
        echo "the edit of $1 found no place"
        exit 1
    fi
    rt try --test > "$copy/said" 2>&1 || true
    cp "$copy/kept" "src/$1"
    if grep -q 'error\[borrow-e0505\]' "$copy/said"; then
        grep 'error\[borrow-e0505\]' "$copy/said"
    else
        tail -5 "$copy/said"
        echo "the edit of $1 is not refused by the borrow checker"
        exit 1
    fi
}
refused source_tests.rt 'drop(tokens);' 'drop(source);'
refused library_tests.rt 'let node = line.node;' 'let node = line.node;\n    drop(bytes);'
