#!/bin/sh
# usage: java.sh [OUT]
# Builds `atomic-java`, which judges Java sources, with javac alone: OUT (java/out) gets atomic-java.jar and the
# launcher atomic-java. The launcher wants `atomic_why`: named by ATOMIC_WHY, or beside it, or in the path; a checkout's
# own is found too. Where there is none, `bench/quick.sh why` builds one.
set -eu
top=$(cd "$(dirname "$0")/.." && pwd)
case ${1-} in -*) sed -n '2,5s/^# \{0,1\}//p' "$0"; exit 2 ;; esac
out=${1-$top/java/out}
for tool in javac jar java; do
    command -v $tool > /dev/null && continue
    echo "java.sh: there is no $tool: install a JDK, version 17 or later" >&2
    exit 1
done
mkdir -p "$out"
out=$(cd "$out" && pwd)
work=$(mktemp -d)
trap 'rm -rf "$work"' EXIT
find "$top/java/src" "$top/java/annotations" -name '*.java' > "$work/sources"
javac -J-XX:TieredStopAtLevel=1 -J-XX:+UseSerialGC --release 17 -Xlint:all -Werror -encoding UTF-8 \
    -d "$work/classes" "@$work/sources"
(cd "$top/java/src" && find . -type f ! -name '*.java') | while read -r file; do
    cp "$top/java/src/$file" "$work/classes/$file"
done
count=$(git -C "$top" rev-list --count HEAD 2>/dev/null || echo 0)
commit=$(git -C "$top" rev-parse --short=12 HEAD 2>/dev/null || echo unknown)
printf 'Main-Class: atomic.java.Main\nImplementation-Version: 0.%s+g%s\n' "$count" "$commit" > "$work/manifest"
date=$(date -u -d "@${SOURCE_DATE_EPOCH-$(date +%s)}" +%Y-%m-%dT%H:%M:%SZ)
(cd "$work/classes" && find . -type f | sort > "$work/names" \
    && jar --create --file "$work/atomic-java.jar" --manifest "$work/manifest" --date "$date" "@$work/names")
mv "$work/atomic-java.jar" "$out/atomic-java.jar"
install -m 755 "$top/java/atomic-java" "$out/atomic-java"
# What Java keeps of a first run, so that the next ones begin in half the time. A launcher without it only begins later.
rm -f "$out/atomic-java.jsa"
ATOMIC_WHY=/bin/true java -XX:ArchiveClassesAtExit="$out/atomic-java.jsa" -XX:TieredStopAtLevel=1 -XX:+UseSerialGC \
    -Datomic.annotations="$out/atomic-java.jar" -cp "$out/atomic-java.jar" atomic.java.Main --public --infer \
    "$top/examples/account_java.java" "$top"/java/tests/larger/*.java > /dev/null 2>&1 || rm -f "$out/atomic-java.jsa"
made=$top/crates/atomic_why/out
if [ -z "${ATOMIC_WHY-}" ] && [ ! -x "$made/atomic_why" ] && [ ! -x "$made/atomic-why-unproved" ] \
    && [ ! -x "$out/atomic_why" ] && ! command -v atomic_why > /dev/null; then
    "$top/bench/quick.sh" why
fi
echo "$out/atomic-java is built"
