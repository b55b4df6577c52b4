#!/bin/sh
# usage: test.sh [NAME..]
# Tests all that isn't Rattle, on the built programs: those of crates/*/out that are no older than the crates, proved or
# not; else it builds them by quick.sh. Each NAME is one of the tests below; without one all of them run, one after the
# other, and what fails doesn't keep the others from running. The exit status is 0 where all of them hold.
#
#     types       tools/, bench/ and examples/ by mypy --strict (tools/pyproject.toml, bench/mypy.ini); needs no program
#     house       what check_house.py measures; needs no program
#     unittest    the commands of tools/ (tools/tests)
#     documents   every source and command that the documents and examples show (check_docs.py)
#     jvm         random programs beside a real JVM (jvm.py), where that script is there
#     java        atomic-java on sources whose verdicts are known (test_java.py), where that script is there; a sample
#                 of random sources (java_random.py), and of logged runs (java_traces.py)
#
# What a test needs and isn't there is installed from the distribution, where this runs as root and apt-get reaches its
# packages. Else that test fails, and a line says what is missing.
set -u
usage() { sed -n '2,/^set /{/^# /s/^# //p; /^#$/s/^#//p}' "$0"; exit "$1"; }
top=$(cd "$(dirname "$0")/.." && pwd) && cd "$top" || exit 2
case ${1-} in --help | -h) usage 0 ;; -*) usage 2 >&2 ;; esac
[ $# -gt 0 ] || set -- types house unittest documents jvm java

# needs COMMAND PACKAGE ..: installs what is missing; 1 where something still is.
needs() {
    lacking=''
    while [ $# -gt 0 ]; do
        command -v "$1" > /dev/null || lacking="$lacking $2"
        shift 2
    done
    [ -n "$lacking" ] || return 0
    if [ "$(id -u)" = 0 ] && command -v apt-get > /dev/null; then
        echo "test.sh: installs$lacking"
        export DEBIAN_FRONTEND=noninteractive
        # shellcheck disable=SC2086 # these are several words
        timeout 600 sh -c 'apt-get install -y "$@" || { apt-get update && apt-get install -y "$@"; }' - $lacking \
            > /dev/null 2>&1 && return 0
    fi
    echo "test.sh: missing, and not to be installed from here:$lacking" >&2
    return 1
}

# newest CRATE PROVED UNPROVED: the program of a crate that is no older than the crates; nothing where there is none.
newest() {
    for made in "crates/$1/out/$2" "crates/$1/out/$3"; do
        [ -x "$made" ] || continue
        [ -z "$(find crates -path '*/out' -prune -o -type f -newer "$made" -print | head -n 1)" ] || continue
        echo "$top/$made"
        return
    done
}

programs() {
    ATOMIC=${ATOMIC-$(newest atomic_cli atomic_cli atomic-unproved)}
    ATOMIC_WHY=${ATOMIC_WHY-$(newest atomic_why atomic_why atomic-why-unproved)}
    ATOMIC_WITNESS=${ATOMIC_WITNESS-$(newest atomic_witness atomic_witness atomic-witness-unproved)}
    if [ -z "$ATOMIC" ] || [ -z "$ATOMIC_WHY" ] || [ -z "$ATOMIC_WITNESS" ]; then
        bench/quick.sh atomic why witness || return 1
        ATOMIC=$top/crates/atomic_cli/out/atomic-unproved ATOMIC_WHY=$top/crates/atomic_why/out/atomic-why-unproved
        ATOMIC_WITNESS=$top/crates/atomic_witness/out/atomic-witness-unproved
    fi
    export ATOMIC ATOMIC_WHY ATOMIC_WITNESS
}

run_unittest() {
    needs python3 python3 git git make make bash bash awk mawk || return 1
    python3 -m unittest discover -s tools/tests -t tools
}

run_types() {
    needs python3 python3 mypy mypy || return 1
    (cd tools && mypy .) && (cd bench && mypy . ../examples/*.py)
}

run_house() {
    needs python3 python3 || return 1
    python3 bench/check_house.py
}

run_documents() {
    needs python3 python3 git git make make bash bash parallel parallel vim vim || return 1
    needs javac openjdk-17-jdk-headless || return 1
    bench/java.sh && python3 bench/check_docs.py "$ATOMIC"
}

run_jvm() {
    [ -e bench/jvm.py ] || return 0
    needs python3 python3 javac openjdk-17-jdk-headless || return 1
    python3 bench/jvm.py sample "$ATOMIC"
}

run_java() {
    [ -e bench/test_java.py ] || return 0
    needs python3 python3 javac openjdk-17-jdk-headless || return 1
    bench/java.sh && python3 bench/test_java.py && python3 bench/java_random.py --count 40 --batch 20 \
        && python3 bench/java_traces.py --runs 4 java/tests/larger/RingBuffer.java java/tests/larger/TicketOffice.java \
            java/tests/users/Bank.java java/tests/users/RecentCache.java java/tests/users/Branch.java \
            java/tests/users/first/LatencyMetrics.java java/tests/users/first/UndoableText.java \
            java/tests/users/second/TextLog.java java/tests/users/eighth/TransferDesk.java \
            java/tests/users/tenth/LinePad.java
}

asks=''
for name do
    case $name in
    types | house) ;;
    unittest | documents | jvm | java) asks=1 ;;
    *) echo "test.sh: there is no test $name" >&2; exit 2 ;;
    esac
done
needs python3 python3 || exit 1
if [ -n "$asks" ] && ! programs; then
    echo "test.sh: there are no programs to test" >&2
    exit 1
fi
failed='' said=''
for name do
    begun=$(date +%s)
    word=held
    "run_$name" || { word=FAILED; failed="$failed $name"; }
    said="$said$name $word, $(($(date +%s) - begun)) s
"
done
printf '\n%s' "$said"
[ -z "$failed" ]
