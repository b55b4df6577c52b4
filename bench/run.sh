#!/bin/sh
# usage: run.sh PROGRAM [--only WORD]
# Times and counts the instructions of the built `atomic` and of the plain program on the same sources, of an eighth, a
# quarter, a half and the whole of the greatest size; with `--only` those of one command or kind.
set -eu
usage() { sed -n '2,/^set /{/^# /s/^# //p}' "$0"; exit "$1"; }
case ${1-} in --help | -h) usage 0 ;; '' | -*) usage 2 >&2 ;; esac
here=$(cd "$(dirname "$0")" && pwd)
program=$(realpath "$1")
shift
work=$(mktemp -d)
trap 'rm -rf "$work"' EXIT
trap 'exit 130' HUP INT TERM
cd "$work"
rustc --edition 2024 -O -o plain "$here/plain/main.rs"
for share in 8 4 2 1; do
    mkdir $share
    python3 "$here/make_source.py" $((262144 / share)) > $share/full
    for kind in classes methods statements locks paths calls chain chain_back cycle line heirs inherited pairs; do
        python3 "$here/make_checked.py" "$kind" --share $share > "$share/$kind"
    done
    for kind in workers objects deep prints; do
        python3 "$here/make_schedule.py" "$kind" "$share/$kind" "$share/$kind.schedule" --share $share
    done
done
python3 -c "print('class Main { void main() {' + '{' * 100000, end='')" > 1/braces
python3 -c "print('a' * 262144, end='')" > 1/letters
python3 -c "import sys; sys.stdout.buffer.write(b'class ' + bytes([128]) * 200000)" > 1/not_text
python3 -c "print('class Main { void main() { boolean a = ' + '(' * 100000, end='')" > 1/parentheses
python3 -c "print('class Main { void main() { boolean a = ' + '!' * 100000, end='')" > 1/nots
python3 -c "print('class Main { void main() { a' + '.f' * 100000, end='')" > 1/dots
python3 "$here/measure.py" "$program" ./plain "$@"
