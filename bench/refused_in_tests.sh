#!/usr/bin/env bash
# Refuses each allocation of each test of a crate in turn, and says how the tests end. Each must pass, or end for
# want of memory. It wants the crate's tests as `rt test` builds them, and a C compiler (cc), for a library that
# stands before the system's allocator.
#
# usage: bench/refused_in_tests.sh CRATE [TESTS [PATTERN]]      (default: crates/CRATE/out/CRATE_tests)
#
# With a PATTERN, as `grep -E` takes it, only those tests whose names have it. STRIDE=N refuses each N-th allocation of a
# test alone, from the first one on: those over SQLite make ten thousands, and schedules by chance a million.
set -eu
top=$(cd "$(dirname "$0")/.." && pwd)
crate=$1
stride=${STRIDE:-1}
tests=${2:-$top/crates/$crate/out/${crate}_tests}
pattern=${3:-.}
folder=$(mktemp -d)
trap 'rm -rf "$folder"' EXIT
cc -shared -fPIC -O1 -o "$folder/refuse.so" "$top/bench/refuse.c" -ldl

# Runs a test with one allocation refused, and leaves the number of its allocations in `calls`.
run() {
    status=0
    { (REFUSE=$2 LD_PRELOAD=$folder/refuse.so exec "$tests" "$1" 9> "$folder/calls" > "$folder/said" 2>&1); } 2> /dev/null || status=$?
    calls=$(cat "$folder/calls")
}

all_wrong=0
for name in $("$tests" --list | sed -n 's/: test$//p' | grep -E "$pattern"); do
    run "$name" 0
    [ "$status" = 0 ] || { echo "$name: status $status with ample memory"; exit 1; }
    last=$calls number=1 passed=0 ended=0 wrong=0 tries=0
    while [ "$number" -le "$last" ]; do
        run "$name" "$number"
        tries=$((tries + 1))
        if [ "$status" = 0 ]; then
            passed=$((passed + 1))
        elif grep -Eq 'AllocError|AllocFailed|[Mm]emory' "$folder/said"; then
            ended=$((ended + 1))
        else
            wrong=$((wrong + 1))
            echo "$name: allocation $number: status $status: $(head -1 "$folder/said")"
        fi
        number=$((number + stride))
    done
    echo "$name: $last allocations, $tries refused in turn: $passed passed, $ended ended for want of memory, $wrong wrong"
    all_wrong=$((all_wrong + wrong))
done
[ "$all_wrong" = 0 ]
