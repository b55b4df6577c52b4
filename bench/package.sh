#!/bin/sh
# usage: package.sh [--unproved] FOLDER
# Makes FOLDER/atomic_VERSION_amd64.deb of the proved programs (crates/NAME/out/NAME, where NAME is atomic_cli,
# atomic_why, atomic_witness or atomic_trace): the programs, the commands of tools/, manual pages, completion for bash,
# examples and documents. It then installs the package into an empty root and runs it there. docs/formats.md says how
# the version is made.
#
# With --unproved it takes what quick.sh builds, or what ATOMIC, ATOMIC_WHY, ATOMIC_WITNESS and ATOMIC_TRACE name; the
# version says so. A proved program that is older than a file of the crates is refused. The package gets its name when
# it is whole and was tried.
set -eu
top=$(cd "$(dirname "$0")/.." && pwd)
here=$(cd "$(dirname "$0")" && pwd)
proved=yes
usage() { sed -n '2,/^set /{/^# /s/^# //p; /^#$/s/^#//p}' "$0"; exit "$1"; }
case ${1-} in --help | -h) usage 0 ;; esac
if [ "${1-}" = --unproved ]; then proved=no; shift; fi
case ${1--} in -*) usage 2 >&2 ;; esac
mkdir -p "$1"
to=$(cd "$1" && pwd)
work=$(mktemp -d)
trap 'rm -rf "$work"' EXIT
trap 'exit 130' HUP INT TERM
umask 022

# The programs.
if [ $proved = yes ]; then
    atomic=$top/crates/atomic_cli/out/atomic_cli why=$top/crates/atomic_why/out/atomic_why
    witness=$top/crates/atomic_witness/out/atomic_witness trace=$top/crates/atomic_trace/out/atomic_trace
else
    atomic=${ATOMIC-$top/crates/atomic_cli/out/atomic-unproved}
    why=${ATOMIC_WHY-$top/crates/atomic_why/out/atomic-why-unproved}
    witness=${ATOMIC_WITNESS-$top/crates/atomic_witness/out/atomic-witness-unproved}
    trace=${ATOMIC_TRACE-$top/crates/atomic_trace/out/atomic-trace-unproved}
fi
for program in "$atomic" "$why" "$witness" "$trace"; do
    [ -x "$program" ] || { echo "package.sh: there is no $program" >&2; exit 1; }
    newer=$(find "$top/crates" -path '*/out' -prune -o -type f -newer "$program" -print | head -n 1)
    if [ $proved = yes ] && [ -n "$newer" ]; then
        echo "package.sh: $program is older than its crates" >&2
        exit 1
    fi
done

# The version, and the time of all files: those of the commit.
version=0.$(git -C "$top" rev-list --count HEAD)+g$(git -C "$top" rev-parse --short=12 HEAD)
[ -z "$(git -C "$top" status --porcelain)" ] || version=$version.changed
[ $proved = yes ] || version=$version~unproved
SOURCE_DATE_EPOCH=$(git -C "$top" log -1 --format=%ct)
export SOURCE_DATE_EPOCH

# The files.
root=$work/package
share=$root/usr/share
mkdir -p "$root/DEBIAN" "$root/usr/bin" "$share/atomic" "$share/man/man1" "$share/bash-completion/completions" \
    "$share/doc/atomic/docs" "$share/doc/atomic/examples"
install -m 755 -s "$atomic" "$root/usr/bin/atomic"
install -m 755 -s "$why" "$root/usr/bin/atomic_why"
install -m 755 -s "$witness" "$root/usr/bin/atomic_witness"
install -m 755 -s "$trace" "$root/usr/bin/atomic_trace"
git -C "$top" ls-files tools/atomic_tools | while read -r file; do
    install -D -m 644 "$top/$file" "$share/atomic/$file"
done
echo "$version" > "$share/atomic/tools/atomic_tools/VERSION"
install -m 644 "$top/tools/pre-commit" "$share/atomic/tools"
for tool in atomic-page atomic-witness atomic-sarif; do
    install -m 755 "$top/tools/$tool" "$share/atomic/tools"
    ln -s "../share/atomic/tools/$tool" "$root/usr/bin/$tool"
done
install -m 644 "$top/tools/atomic.bash" "$share/bash-completion/completions/atomic"
for name in atomic_why atomic_witness atomic_trace atomic-java atomic-page atomic-witness atomic-sarif; do
    ln -s atomic "$share/bash-completion/completions/$name"
done
for name in witness sarif; do ln -s atomic-page.1.gz "$share/man/man1/atomic-$name.1.gz"; done
for page in "$top"/docs/*.1; do gzip -9n < "$page" > "$share/man/man1/$(basename "$page").gz"; done
"$here/java.sh" "$work/java" > /dev/null
install -m 755 "$work/java/atomic-java" "$root/usr/bin/atomic-java"
install -m 644 "$work/java/atomic-java.jar" "$share/atomic/atomic-java.jar"
install -m 644 "$top"/README.md "$share/doc/atomic"
install -m 644 "$top"/docs/* "$share/doc/atomic/docs"
install -m 644 "$top"/examples/* "$share/doc/atomic/examples"
cat > "$share/doc/atomic/copyright" << 'END'
The repository that this package was made of has no licence file, and nothing in it says under which licence it stands.
END

# What dpkg wants to know.
size=$(du -sk --apparent-size "$root/usr" | cut -f 1)
cat > "$root/DEBIAN/control" <<END
Package: atomic
Version: $version
Architecture: amd64
Maintainer: nobody <nobody@localhost>
Installed-Size: $size
Depends: libc6 (>= 2.34), default-jdk-headless (>= 2:1.17) | java17-sdk-headless
Recommends: python3 (>= 3.9)
Section: devel
Priority: optional
Description: static checker for atomicity in a small Java-like language
 atomic says whether the locking of a source keeps what its methods promise,
 atomic_why which statements are why not, atomic_witness whether a schedule
 shows that a promise is broken, atomic_trace whether the log of a run is
 serial. atomic-page, atomic-witness and atomic-sarif show it. atomic-java
 judges Java sources as they are.
END
# What Python keeps of the modules beside them goes with the package.
cat > "$root/DEBIAN/prerm" <<'END'
#!/bin/sh
set -e
[ ! -d /usr/share/atomic ] || find /usr/share/atomic -name __pycache__ -prune -exec rm -rf {} +
END
chmod 755 "$root/DEBIAN/prerm"
(cd "$root" && find usr -type f -print0 | sort -z | xargs -0 md5sum > DEBIAN/md5sums)
find "$root" -exec touch -h -d "@$SOURCE_DATE_EPOCH" {} +
name=atomic_${version}_amd64.deb
dpkg-deb --root-owner-group --build "$root" "$work/$name" > /dev/null
"$here/try_package.sh" "$work/$name"
# Beside its place first: a full disk leaves nothing under the name that is cut off.
beside=$(mktemp "$to/.atomic-XXXXXX")
trap 'rm -rf "$work" "$beside"' EXIT
cp "$work/$name" "$beside"
chmod 644 "$beside"
mv "$beside" "$to/$name"
echo "$to/$name"
