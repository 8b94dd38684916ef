#!/usr/bin/env bash
# Times a site over lists: a fetch by key, and preparing and applying one write, with 2,500 and with 20,000 parts in
# the leaf, for all its keys in turn, with 10 and with 1,000 visits that have locks on another leaf, and with 2 and with
# 1,024 leaves at the site; and a fetch of a whole leaf of 10 parts, by a visit that intends one write there, with none
# and with 10,000 intentions on another leaf. Fails where the larger number costs more than 1.3 times the smaller, in time or, where valgrind is at hand, in instructions. How much
# of a leaf a processor's nearer caches hold is in these times: on another processor they can be others. So two more
# loads are told, without a limit: 500 keys from all over the leaf, whose parts stay in the caches at both sizes, and
# all keys with something else in the nearer caches before each fetch and each write.
# Works on a copy of the repository with the work that earlier checks kept, so check the crate `site` first; the program
# that it times is bench/site/main.rt.in. With a PROGRAM that was built so, it times that.
#
# usage: bench/site.sh [PROGRAM]
set -eu
top=$(cd "$(dirname "$0")/.." && pwd)
exec python3 - "$top" "$@" <<'PYTHON'
import os
import re
import shutil
import subprocess
import sys
import tempfile

TOP, MOST = sys.argv[1], 1.3
# How often each load is timed, the least time counting, since other work on the machine only adds to it.
ROUNDS, ROUNDS_TOLD = 100, 10
# Parts, visits, keys and leaves, before and after; cold: the nearer caches are emptied before each fetch and each write.
ALL_KEYS = {
    "20,000 parts for 2,500": ((2500, 10, 2500, 2), (20000, 10, 20000, 2)),
    "1,024 leaves for 2": ((2500, 10, 500, 2), (2500, 10, 500, 1024)),
}
PAIRS = {**ALL_KEYS, "1,000 visits for 10": ((2500, 10, 500, 2), (2500, 1000, 500, 2))}
SCANS = {"10,000 intentions on another leaf for none": ((10, 0, 10, 2, "scan", 0), (10, 0, 10, 2, "scan", 10000))}
TOLD = {
    "20,000 parts for 2,500, 500 keys": ((2500, 10, 500, 2), (20000, 10, 500, 2)),
    "20,000 parts for 2,500, cold": ((2500, 10, 2500, 2, "cold"), (20000, 10, 20000, 2, "cold")),
}


def built(room):
    """The program, built in a copy of the repository in which it is one crate more."""
    it = f"{room}/it"
    shutil.copytree(TOP, it, symlinks=True, ignore=shutil.ignore_patterns(".git"))
    os.mkdir(f"{it}/.git")
    os.makedirs(f"{it}/crates/timed/src")
    shutil.copy(f"{TOP}/bench/site/main.rt.in", f"{it}/crates/timed/src/main.rt")
    with open(f"{it}/crates.txt", "a") as crates:
        crates.write("timed: terms store protocol site anyhow\n")
    ran = subprocess.run(["rt", "run", "--jobs", "1", "--", "10", "10", "10", "2"], cwd=f"{it}/crates/timed", stdout=subprocess.PIPE, stderr=subprocess.STDOUT, text=True)
    if ran.returncode:
        sys.exit(f"rt run: status {ran.returncode}:\n{ran.stdout[-3000:]}")
    return f"{it}/crates/timed/out/timed"


def nanoseconds(program):
    """A fetch and a write at each size: the least of several runs on one processor, taken in turns, so that other work on the machine counts little."""
    os.sched_setaffinity(0, {max(os.sched_getaffinity(0))})
    best = {}
    for pairs, rounds in ((PAIRS, ROUNDS), (SCANS, ROUNDS), (TOLD, ROUNDS_TOLD)):
        sizes = [size for pair in pairs.values() for size in pair]
        for size in sizes * rounds:
            ran = subprocess.check_output([program, *map(str, size)], text=True)
            best[size] = [min(pair) for pair in zip(best.get(size, (1e9, 1e9)), map(int, ran.split()))]
    return best


def instructions(program):
    """How many instructions all fetches and all writes take, each write with its Open and its Put, by valgrind's count."""
    counts = {}
    for size in [size for pair in (ALL_KEYS | SCANS).values() for size in pair]:
        for work in ("timed::scans",) if "scan" in size else ("timed::fetches", "timed::writes"):
            words = ["valgrind", "--tool=callgrind", "--callgrind-out-file=/dev/null", f"--toggle-collect={work}", program, *map(str, size)]
            ran = subprocess.run(words, stdout=subprocess.DEVNULL, stderr=subprocess.PIPE, text=True, check=True)
            counts.setdefault(size, []).append(int(re.search(r"Collected : (\d+)", ran.stderr).group(1)))
    return counts


def is_too_much(best, pairs):
    """Whether one of these ratios is past the limit."""
    return any(then > MOST * first for before, after in pairs.values() for first, then in zip(best[before], best[after]))


def tell(best, pairs, unit, most):
    """Tells the ratios, and which of them are greater than they may be."""
    for name, (before, after) in pairs.items():
        works = ("a fetch of a leaf",) if "scan" in before else ("a fetch by key", "a write prepared and applied")
        for what, first, then in zip(works, best[before], best[after]):
            print(f"{name}: {what}: {then} {unit} after {first}, ratio {then / first:.2f}{' TOO MUCH' if then > most * first else ''}")


def timed(program):
    """Tells all times, and the instructions if they can be counted. Answers whether something is too much."""
    best = nanoseconds(program)
    tell(best, PAIRS | SCANS, "ns", MOST)
    tell(best, TOLD, "ns", float("inf"))
    if not shutil.which("valgrind"):
        return is_too_much(best, PAIRS | SCANS)
    counts = instructions(program)
    tell(counts, ALL_KEYS | SCANS, "instructions in all", MOST)
    return is_too_much(best, PAIRS | SCANS) or is_too_much(counts, ALL_KEYS | SCANS)


room = tempfile.mkdtemp(prefix="site-")
try:
    too_much = timed(sys.argv[2] if len(sys.argv) > 2 else built(room))
finally:
    shutil.rmtree(room, ignore_errors=True)
sys.exit(1 if too_much else 0)
PYTHON
