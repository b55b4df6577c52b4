#!/bin/sh
# usage: jdk.sh [--sample COUNT] [CLASS..]
#        jdk.sh --traces PROGRAM [DRIVER..]
# Judges classes of the JDK by atomic-java and writes the table of docs/jdk.md to standard output; with names, those
# classes alone (java/util/Vector). Each class is judged by itself, as it stands: each public method is asked to be
# atomic (--public), and fields are guarded by the lock that each access of them holds (--infer). The JDK's sources come
# from the distribution's package openjdk-17-source, which is installed where that may be done; nothing of them is
# copied into the repository. With --sample, so many of the certain refusals are drawn, to be read by hand. With
# --traces, logs of such classes are judged by PROGRAM, a built `atomic_trace` (jdk_traces.py).
# ATOMIC_JAVA names another launcher than java/out/atomic-java, ATOMIC_ANSWERS a folder that keeps what is told of each
# class.
set -eu
top=$(cd "$(dirname "$0")/.." && pwd)
case ${1-} in --sample | --traces) ;; -*) sed -n '2,12s/^# \{0,1\}//p' "$0"; exit 2 ;; esac
archive=
for each in /usr/lib/jvm/openjdk-17/lib/src.zip /usr/lib/jvm/*17*/lib/src.zip; do
    [ -f "$each" ] && archive=$each && break
done
if [ -z "$archive" ]; then
    if [ "$(id -u)" = 0 ] && command -v apt-get > /dev/null; then
        { apt-get update && apt-get install -y openjdk-17-source; } >&2
        archive=/usr/lib/jvm/openjdk-17/lib/src.zip
    fi
    if [ ! -f "$archive" ]; then
        echo "jdk.sh: there are no sources of the JDK: install the package openjdk-17-source" >&2
        exit 3
    fi
fi
program=${ATOMIC_JAVA:-$top/java/out/atomic-java}
if [ "${1-}" = --traces ]; then
    shift
    exec python3 "$top/bench/jdk_traces.py" --sources "$archive" --java "$program" "$@"
fi
work=$(mktemp -d)
trap 'rm -rf "$work"' EXIT
set -- --sources "$archive" --folder "$work" --program "$program" ${ATOMIC_ANSWERS:+--answers "$ATOMIC_ANSWERS"} "$@"
python3 "$top/bench/jdk_table.py" "$@"
