#!/usr/bin/env bash
# A REFRAGMENT of a relation with many rows, from two leaves to four, against an UPDATE that moves all its rows to the other
# leaf: in both every part goes, and comes elsewhere. Each stands behind the same load, in `fragdb solo` over lists.
#
# usage: bench/refragment.sh [ROWS]      (default: 20,000, the most for which a script is short enough)
#
# A time is the processor's, of the whole run less that of the load alone, each the least of three. A peak is that of the
# resident memory, in sessions with half, with all and with twice the rows. It fails where the REFRAGMENT takes more than three
# times as long as the UPDATE, where the second step takes more than 2.4 times the memory of the first, which has half the
# rows, or where an answer is another one than worked out here.
#
# The program is crates/fragdb/out/fragdb, or the one that FRAGDB names.
set -eu
cd "$(dirname "$0")/.."
exec python3 - "${1:-20000}" <<'PYTHON'
import os
import subprocess
import sys
import tempfile

PROGRAM = os.path.abspath(os.environ.get("FRAGDB", "crates/fragdb/out/fragdb"))
ROWS, TIMES, MOST, MOST_GROWTH = int(sys.argv[1]), 3, 3.0, 2.4
HEAD = 'sites = ["west", "east"]\n\n[relations.item]\ncolumns = ["id int", "zone int"]\n'
# All rows have a zone below 50: they are in the first of two leaves. Of four leaves each is at the other site than the two
# leaves before it had these rows, or has another number.
TWO = [("zone < 50", "west"), ("zone >= 50", "east")]
FOUR = [("zone < 12", "east"), ("zone >= 12 AND zone < 25", "west"), ("zone >= 25 AND zone < 38", "east"), ("zone >= 38", "west")]


def catalogue(leaves):
    return HEAD + "".join(f'[[relations.item.rows]]\nwhere = "{where}"\nsite = "{site}"\n' for where, site in leaves)


GREETING = "fragdb 0.1.0, a relational database in fragments; .help tells what can be typed\n"


def ran(folder, rows, last, in_session=False):
    """The seconds and the peak in KiB of a run that loads so many rows and then does this; its answers have to be right."""
    script = f"{folder}/script"
    with open(script, "w", encoding="ascii") as file:
        for key in range(rows):
            file.write(f"INSERT INTO item VALUES ({key}, {key % 50})\n")
        file.write(f"{last}\n" if last else "")
    words = [PROGRAM, "solo", "--catalog", f"{folder}/two.toml", "--next", f"{folder}/four.toml", script]
    prompt = "fragdb> " if in_session else ""
    with open(f"{folder}/told", "w+", encoding="utf-8") as told:
        process = subprocess.Popen(words + ["--interactive"] * in_session, stdout=told)
        _, status, used = os.wait4(process.pid, 0)
        told.seek(0)
        answers = told.read()
    wanted = (GREETING if in_session else "") + f"{prompt}changed 1\n" * rows + (f"{prompt}changed {rows}\n" if last else "") + (f"{prompt}\n" if in_session else "")
    if status != 0 or answers != wanted:
        raise SystemExit(f"wrong: status {status}, the last answer {answers[-40:]!r}")
    return used.ru_utime + used.ru_stime, used.ru_maxrss


def least(folder, rows, last):
    return min(ran(folder, rows, last)[0] for _ in range(TIMES))


def peak(folder, rows, last):
    return ran(folder, rows, last, in_session=True)[1]


with tempfile.TemporaryDirectory() as folder:
    for name, leaves in (("two", TWO), ("four", FOUR)):
        with open(f"{folder}/{name}.toml", "w", encoding="ascii") as file:
            file.write(catalogue(leaves))
    half, all_rows, twice = (peak(folder, rows, "REFRAGMENT item") for rows in (ROWS // 2, ROWS, 2 * ROWS))
    twice_update = peak(folder, 2 * ROWS, "UPDATE item SET zone = zone + 50")
    load = least(folder, ROWS, None)
    update = least(folder, ROWS, "UPDATE item SET zone = zone + 50") - load
    moved = least(folder, ROWS, "REFRAGMENT item") - load
times, growth = moved / update, (twice - all_rows) / (all_rows - half)
print(f"{ROWS} rows: UPDATE {update:.2f} s, REFRAGMENT {moved:.2f} s, {times:.1f} times")
print(f"peaks: {half >> 10}, {all_rows >> 10}, {twice >> 10} MiB for half, all and twice the rows, of an UPDATE of the last {twice_update >> 10} MiB: {growth:.2f} times")
sys.exit(1 if times > MOST or growth > MOST_GROWTH else 0)
PYTHON
