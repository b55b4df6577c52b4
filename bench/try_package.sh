#!/bin/sh
# usage: try_package.sh PACKAGE.deb
# Installs the package into an empty root in which there is nothing but the C library, runs it there, and takes it away
# again. Nothing outside of that root is changed. The commands of tools/ need Python, which the root hasn't: they run
# from there with this machine's.
set -eu
usage() { sed -n '2,/^set /{/^# /s/^# //p}' "$0"; exit "$1"; }
case ${1-} in --help | -h) usage 0 ;; esac
[ -f "${1-}" ] || usage 2 >&2
if [ "$(id -u)" != 0 ]; then exec unshare --user --map-root-user "$0" "$@"; fi
root=$(mktemp -d)
trap 'rm -rf "$root" "$root.before" "$root.said"' EXIT
trap 'exit 130' HUP INT TERM
wrong() { echo "try_package.sh: $*" >&2; exit 1; }

# An empty root: dpkg's own folder, which knows of the C library alone, and that library.
mkdir -p "$root/var/lib/dpkg/info" "$root/var/lib/dpkg/updates"
alone='s/^Multi-Arch:.*/Multi-Arch: no/; /^Conffiles:/,/^[A-Z]/{/^Conffiles:/d; /^ /d}; /^Depends:/d; /^Recommends:/d'
dpkg-query --status libc6 | sed "$alone" > "$root/var/lib/dpkg/status"
echo >> "$root/var/lib/dpkg/status"
# A JDK is said to be there: atomic-java runs with this machine's.
cat >> "$root/var/lib/dpkg/status" << 'END'
Package: java17-sdk-headless
Status: install ok installed
Maintainer: nobody <nobody@localhost>
Architecture: all
Version: 17
Description: none

END
ldd /bin/true | grep -o '/[^ ]*' | while read -r library; do
    mkdir -p "$root$(dirname "$library")"
    cp -L "$library" "$root$library"
done
find "$root" -path "$root/var" -prune -o -type f -print | sort > "$root.before"
packages() {
    dpkg --root="$root" --log=/dev/null "$@" > "$root.said" 2>&1 && return
    cat "$root.said" >&2
    wrong "dpkg $1 ends with an error"
}
packages --install "$1"

# The programs, in the root.
examples=/usr/share/doc/atomic/examples
said=$(chroot "$root" /usr/bin/atomic check $examples/repaired.java) || wrong "atomic check ended with $?"
[ "$said" = "Main.main this ? mover : atomic" ] || wrong "atomic check says $said"
status=0
said=$(chroot "$root" /usr/bin/atomic_why $examples/unguarded.java) || status=$?
[ $status = 2 ] || wrong "atomic_why ended with $status"
case $said in
"$examples/unguarded.java:4:17: error: Main.main is declared atomic, found cmpd"*) ;;
*) wrong "atomic_why says $said" ;;
esac
status=0
said=$(chroot "$root" /usr/bin/atomic_witness $examples/tickets_race.java $examples/tickets_race.witness) || status=$?
[ $status = 2 ] || wrong "atomic_witness ended with $status"
[ "$said" = "broken: no schedule that interrupts no atomic call prints this" ] || wrong "atomic_witness says $said"
printf 'a begin B\na end\n' > "$root/run.log"
said=$(chroot "$root" /usr/bin/atomic_trace /run.log) || wrong "atomic_trace ended with $?"
[ "$said" = serial ] || wrong "atomic_trace says $said"
rm "$root/run.log"

# The scripts, the manual page, the completion: from the root, with this machine's programs.
ATOMIC=$root/usr/bin/atomic ATOMIC_WHY=$root/usr/bin/atomic_why
export ATOMIC ATOMIC_WHY
"$root/usr/bin/atomic-page" "$root$examples/account.java" | grep -q '</html>' || wrong "atomic-page writes no page"
said=$("$root/usr/bin/atomic-witness" "$root$examples/tickets_race.java" | tail -n 1)
[ "$said" = "0*10 1*7 2*15 1*8" ] || wrong "atomic-witness says $said"
"$root/usr/bin/atomic-sarif" "$root$examples/account.java" | grep -q '"ruleId": "two-steps"' || wrong "atomic-sarif"
status=0
said=$("$root/usr/bin/atomic-java" "$root$examples/account_java.java" 2> "$root.said") || status=$?
[ $status = 0 ] || wrong "atomic-java ended with $status: $said"
gzip -dc "$root/usr/share/man/man1/atomic.1.gz" | grep -q '^.TH ATOMIC 1' || wrong "the manual page"
gzip -dc "$root/usr/share/man/man1/atomic-witness.1.gz" | grep -q '^.TH ATOMIC-PAGE 1' \
    || wrong "the manual page of the scripts"
bash -c '. "$1"; COMP_WORDS=(atomic se); COMP_CWORD=1; _atomic; [ "${COMPREPLY[*]}" = "serialise serialise-open" ]' - \
    "$root/usr/share/bash-completion/completions/atomic" || wrong "the completion"
version=$(dpkg-deb --field "$1" Version)
for tool in page witness sarif; do
    [ "$("$root/usr/bin/atomic-$tool" --version)" = "atomic-$tool $version" ] || wrong "atomic-$tool --version"
done
# The root has no shell for the package's own script.
sh -c "$(sed "s|/usr/share|$root/usr/share|g" "$root/var/lib/dpkg/info/atomic.prerm")"
rm "$root/var/lib/dpkg/info/atomic.prerm"

# Nothing stays.
packages --purge atomic
find "$root" -path "$root/var" -prune -o -type f -print | sort | cmp -s "$root.before" - || wrong "files stay behind"
