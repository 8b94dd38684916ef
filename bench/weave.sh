#!/usr/bin/env bash
# Refuses each allocation of a program (bench/weave/main.rt.in, over bench/weave/played.rt.in) that plays a session's script over the recorded cells of a
# coordinator and two sites, and weaves what they recorded. Where memory runs out for `weave`, it is asked for once more with
# the same records: that has to give the events that come without a refusal, and the records have to show what they showed.
# Anywhere else the program ends for want of memory.
# It proves and builds the program in a copy of the crates below it with the work that earlier checks kept, so check these first.
#
# usage: bench/weave.sh [PROGRAM]      (default: built anew)
set -eu
top=$(cd "$(dirname "$0")/.." && pwd)
. "$top/bench/copied.sh"
room=$(mktemp -d)
trap 'rm -rf "$room"' EXIT
program=${1:-}
if [ -z "$program" ]; then
    crates="terms meaning catalog reader plan answers store protocol site desk world history"
    copied "$room/it" $crates
    mkdir -p "$room/it/crates/bench_weave/src" "$room/it/crates/bench_weave/proofs/played/desk_cell"
    cp "$top/bench/weave/main.rt.in" "$room/it/crates/bench_weave/src/main.rt"
    cp "$top/bench/weave/played.rt.in" "$room/it/crates/bench_weave/src/played.rt"
    cp "$top/bench/weave/desk_cell.antt.in" "$room/it/crates/bench_weave/proofs/played/desk_cell/Answers.antt"
    echo "bench_weave: $crates" >> "$room/it/crates.txt"
    (cd "$room/it/crates/bench_weave" && rt run --jobs 1 > "$room/log" 2>&1) || true
    program=$room/it/crates/bench_weave/out/bench_weave
    [ -x "$program" ] || { tail -20 "$room/log"; exit 1; }
fi
"$top/bench/refused_memory.sh" "$program" weave
