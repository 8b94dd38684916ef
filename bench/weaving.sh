#!/usr/bin/env bash
# Times the weaving of records: a program (bench/weave/timed.rt.in, over bench/weave/played.rt.in) has one session execute
# commands by key over the recorded cells of a coordinator and two sites over lists, alone and in transactions of two
# statements, until 25,000 and until 100,000 calls are recorded, and times `weave` of these records alone. Fails where the least
# of five times is two seconds or more for 100,000 calls, or where a call of these takes more than twice what one of 25,000
# does: to find the letter that a call took, no search through all of them is made.
# It proves and builds the program in a copy of the crates below it with the work that earlier checks kept, so check these
# first. That the program is proved was not seen yet; with a PROGRAM that was built so, or without proof, it times that.
#
# usage: bench/weaving.sh [PROGRAM]      (default: built anew)
set -eu
top=$(cd "$(dirname "$0")/.." && pwd)
. "$top/bench/copied.sh"
room=$(mktemp -d)
trap 'rm -rf "$room"' EXIT
program=${1:-}
if [ -z "$program" ]; then
    crates="terms meaning catalog reader plan answers store protocol site desk world history"
    copied "$room/it" $crates
    mkdir -p "$room/it/crates/bench_weave/src" "$room/it/crates/bench_weave/proofs/played/desk_cell"
    cp "$top/bench/weave/timed.rt.in" "$room/it/crates/bench_weave/src/main.rt"
    cp "$top/bench/weave/played.rt.in" "$room/it/crates/bench_weave/src/played.rt"
    cp "$top/bench/weave/desk_cell.antt.in" "$room/it/crates/bench_weave/proofs/played/desk_cell/Answers.antt"
    echo "bench_weave: $crates" >> "$room/it/crates.txt"
    (cd "$room/it/crates/bench_weave" && rt run --jobs 1 -- 1000 > "$room/log" 2>&1) || true
    program=$room/it/crates/bench_weave/out/bench_weave
    [ -x "$program" ] || { tail -20 "$room/log"; exit 1; }
fi
python3 - "$program" <<'PYTHON'
import subprocess
import sys

PROGRAM, ROUNDS, SIZES, MOST_SECONDS, MOST_GROWTH = sys.argv[1], 5, (25_000, 100_000), 2, 2


def woven(wanted):
    """The calls, the letters and the events, and the least microseconds."""
    ran = [subprocess.run([PROGRAM, str(wanted)], stdout=subprocess.PIPE, check=True, text=True).stdout for _ in range(ROUNDS)]
    return min(([int(word) for word in line.split()] for line in ran), key=lambda it: it[3])


costs = []
for wanted in SIZES:
    calls, letters, events, took = woven(wanted)
    costs.append(took / calls)
    is_long = took >= MOST_SECONDS * 1e6
    print(f"{calls} calls that put out {letters} letters, woven into {events} events in {took / 1e6:.2f} s{': TOO LONG' if is_long else ''}", flush=True)
growth = costs[1] / costs[0]
print(f"a call takes {growth:.2f} times as long{': TOO LONG' if growth > MOST_GROWTH else ''}")
sys.exit(1 if is_long or growth > MOST_GROWTH else 0)
PYTHON
