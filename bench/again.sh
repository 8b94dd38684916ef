#!/usr/bin/env bash
# Runs the rows of `fragdb run` (tests/rows/run.rows) over and over, by tests/run, held to one processor, to two and to four:
# what their threads come to must not hang on which of them goes first. It prints the rows that came wrong, and for each number
# of processors how often the file was run and how many rows passed. It ends with 1 where a row failed.
#
# usage: bench/again.sh [TIMES]      (default: 200)
#
# The program is crates/fragdb/out/fragdb, or the one that FRAGDB names. More processors than there are count as those that are.
set -eu
cd "$(dirname "$0")/.."
exec python3 - "${1:-200}" <<'PYTHON'
import os
import subprocess
import sys
import time

TIMES, FILE = int(sys.argv[1]), "run.rows"
# The processors that this script may run on itself.
OWN = sorted(os.sched_getaffinity(0))


def once(processors):
    """How many rows passed on these processors and how many failed; what was printed of those is printed."""
    held = ["taskset", "-c", ",".join(map(str, processors))]
    ran = subprocess.run([*held, "tests/run", FILE], stdout=subprocess.PIPE, stderr=subprocess.STDOUT, text=True)
    *told, counts = ran.stdout.splitlines() or [""]
    words = counts.split()
    if words[1::2] != ["passed,", "failed"] or (ran.returncode != 0) != (words[2] != "0"):
        raise SystemExit(f"tests/run: status {ran.returncode}\n{ran.stdout}")
    print("".join(f"{line}\n" for line in told), end="", flush=True)
    return int(words[0]), int(words[2])


wrong = 0
for many in (1, 2, 4):
    processors, began = OWN[:many], time.monotonic()
    counts = [once(processors) for _ in range(TIMES)]
    passed, failed = (sum(it) for it in zip(*counts))
    wrong += failed
    print(f"{TIMES} times on {len(processors)} of {many} processors: {passed} rows passed, {failed} wrong, {time.monotonic() - began:.0f} s", flush=True)
sys.exit(1 if wrong else 0)
PYTHON
