#!/bin/sh
# usage: try_edits.sh [NAME..]
# Tries the edits in crates/NAME/edits, which the gate leaves out; without a name, those of every crate that has some. A
# copy of the files as they stand, outside this checkout, gets them where the tool looks (must-fail/), and there
# `rt must-fail` tries them, over what checks on this machine have proved. One line for each edit: NAME/EDIT and
#   refused     the edited crate isn't proved, as it should be
#   PROVES      the edited crate is proved: no contract says that the edit is wrong
#   BAD EDIT    it can't be applied or compiled, so nothing was tried
#   NOT TRIED   its check was killed, or is missing: run this again
# What the tool says of each stands behind the name. The exit status is 0 where all were refused.
set -u
top=$(cd "$(dirname "$0")/.." && pwd) && cd "$top" || exit 2
usage() { sed -n '2,/^set /{/^# /s/^# //p}' "$0"; exit "$1"; }
case ${1-} in --help | -h) usage 0 ;; -*) usage 2 >&2 ;; esac
[ $# -gt 0 ] || set -- $(for folder in crates/*/edits; do basename "${folder%/edits}"; done)
for name do
    [ -d "crates/$name/edits" ] || { echo "$name: there is no folder crates/$name/edits" >&2; exit 2; }
done
copy=$(mktemp -d) || exit 2
trap 'rm -rf "$copy"' EXIT
trap 'exit 130' HUP INT TERM
git ls-files -z --cached --others --exclude-standard | tar -c --null --ignore-failed-read -T - 2>/dev/null \
    | tar -x -C "$copy"
cd "$copy" || exit 2
for name do
    rm -rf "crates/$name/must-fail"
    mv "crates/$name/edits" "crates/$name/must-fail"
    rt must-fail "$name" > said 2>&1
    for edit in "crates/$name/must-fail"/*.edit; do
        label=$name/$(basename "$edit")
        line=$(grep -F "must-fail $label: " said | head -n 1)
        case $line in
            *": refused, "*) word=refused ;;
            *": NOT REFUSED: "*) word=PROVES ;;
            *": BAD EDIT: "*) word="BAD EDIT" ;;
            *) word="NOT TRIED" ;;
        esac
        echo "$word" >> words
        printf '%-10s %s%s\n' "$word" "${label%.edit}" "${line#*"must-fail $label"}"
    done
    grep -qF "must-fail $name/" said || cat said
    rm -rf "crates/$name/must-fail"
done
sort words | uniq -c | sort -rn \
    | awk '{ n = $1; $1 = ""; printf "%s%d%s", (NR > 1 ? ", " : ""), n, $0 } END { print "" }'
! grep -qv '^refused$' words
