#!/usr/bin/env bash
# What a statement by key of one client costs over the built-in catalogue, by `fragdb solo`: an INSERT, a SELECT, an
# UPDATE, a DELETE, and "move", an UPDATE that moves its row to the other fragment.
#
# How the cost grows: the instructions of 2,000 statements of each kind over 2,500, 5,000, 10,000 and 20,000 rows, as
# valgrind counts them, which other work on the machine doesn't change: those of a script that fills the relation and
# runs the statements, less those of a script that only fills it. Fails where a greater relation costs more than 1.3
# times the smallest. How long it takes: 10,000 statements of each kind, over 2,500 rows (a DELETE over 10,000), on one core,
# the least of several runs. Fails where that is fewer than 20,000 a second.
#
# What it costs beside an engine at hand: the instructions of a statement over 2,500 rows, each kind's for its aim, which is what two
# databases of the sqlite3 shell took that are split by hand, on the same texts: with a look in both for the key, the statement where
# the row is, and a move in one transaction. The same of a statement that visits one of 16 sites, for one of 2; of each further
# fragment that a SELECT by key has to ask; and of each row of a SELECT of all rows, of one relation, of one that is split by columns
# too, and of a join. Fails where one is above its aim.
# `profile` tells for each kind which functions have the most instructions, by valgrind, instead of all this.
#
# usage: bench/solo.sh [profile] [PROGRAM]      (default: crates/fragdb/out/fragdb, which `rt run` in crates/fragdb makes)
set -eu
top=$(cd "$(dirname "$0")/.." && pwd)
exec python3 - "$top" "$@" <<'PYTHON'
import os
import re
import shutil
import subprocess
import sys
import tempfile
import time

TOP, WORDS = sys.argv[1], sys.argv[2:]
KINDS = ("insert", "select", "update", "move", "delete")
# What the instructions may grow by, and how many statements a second there have to be.
MOST_GROWTH, LEAST_A_SECOND = 1.3, 20000
# What a statement of each kind may cost; how often what it costs at 2 sites it may cost at 16; each further fragment; each row of all.
AIMS = {"select": 45000, "insert": 60000, "update": 65000, "move": 80000, "delete": 55000}
MOST_WIDE, MOST_FRAGMENT, MOST_ROW = 1.5, 12000, 2500
# A script has at most 1 MiB, so more statements don't go into one.
SIZES, COUNTED, TIMED = (2500, 5000, 10000, 20000), 2000, 10000
# Rounds at least, and at most: other work on the machine only adds time, so what is too slow is measured on.
LEAST_ROUNDS, MOST_ROUNDS = 3, 15


def key(number):
    """The key of a row, far from that of the row before."""
    return number * 7919 % 1000003


def filling(rows):
    """A script that inserts so many rows."""
    return [f"INSERT INTO item VALUES ({key(i)}, {i % 20}, 'r{i}')" for i in range(rows)]


def statement(kind, turn, rows):
    """A statement of a kind, at a key of the relation; an INSERT at a new one."""
    row, again = turn % rows, turn // rows
    if kind == "insert":
        return f"INSERT INTO item VALUES ({2000000 + key(turn)}, {turn % 20}, 'n{turn}')"
    if kind == "select":
        return f"SELECT label FROM item WHERE id = {key(row)}"
    if kind == "update":
        return f"UPDATE item SET label = 'u{turn}' WHERE id = {key(row)}"
    if kind == "move":
        return f"UPDATE item SET zone = {(row + 10 * (again + 1)) % 20} WHERE id = {key(row)}"
    return f"DELETE FROM item WHERE id = {key(row)}"


def written(room, rows, kind=None, count=0):
    """The file of a script that fills the relation, and then runs so many statements of a kind."""
    lines = filling(rows) + [statement(kind, turn, rows) for turn in range(count)]
    path = f"{room}/script"
    with open(path, "w", encoding="ascii") as it:
        it.write("".join(f"{line}\n" for line in lines))
    return path


def instructions(program, script, catalogue=None):
    words = ["valgrind", "--tool=cachegrind", "--cache-sim=no", "--cachegrind-out-file=/dev/null", program, "solo"]
    words += ["--catalog", catalogue, script] if catalogue else [script]
    ran = subprocess.run(words, stdout=subprocess.DEVNULL, stderr=subprocess.PIPE, text=True, check=True)
    return int(re.search(r"I\s+refs:\s+([\d,]+)", ran.stderr).group(1).replace(",", ""))


def is_growing(program, room):
    """Tells the instructions of a statement at each size. Answers whether a kind grows by too much."""
    each = {kind: [] for kind in KINDS}
    for rows in SIZES:
        filled = instructions(program, written(room, rows))
        for kind in KINDS:
            each[kind].append((instructions(program, written(room, rows, kind, COUNTED)) - filled) / COUNTED)
    wrong = False
    for kind, counts in each.items():
        growth = max(counts) / counts[0]
        wrong |= growth > MOST_GROWTH
        told = ", ".join(f"{count:.0f} over {rows}" for count, rows in zip(counts, SIZES))
        print(f"{kind:6}  {told} rows, at most {growth:.2f} times the first{' TOO MUCH' if growth > MOST_GROWTH else ''}", flush=True)
        wrong |= counts[0] > AIMS[kind]
        print(f"{kind:6}  {counts[0]:.0f} for an aim of {AIMS[kind]}{' TOO MUCH' if counts[0] > AIMS[kind] else ''}", flush=True)
    return wrong


def of_each(program, room, name, catalogue, rows, lines):
    """The instructions of each of these lines, behind the statements that fill the relations."""
    path, filled, all_of_it = f"{room}/{name}.toml", f"{room}/filled", f"{room}/all"
    for file, text in ((path, catalogue), (filled, "".join(f"{row}\n" for row in rows)), (all_of_it, "".join(f"{line}\n" for line in rows + lines))):
        with open(file, "w", encoding="ascii") as it:
            it.write(text)
    return (instructions(program, all_of_it, path) - instructions(program, filled, path)) / len(lines)


def by_rows(leaves, sites):
    """A catalogue of one relation whose rows are split over so many leaves, one after another at so many sites."""
    names = ", ".join(f'"s{number}"' for number in range(sites))
    bounds = [f"part < 1"] + [f"part = {number}" for number in range(1, leaves - 1)] + [f"part >= {leaves - 1}"]
    branches = "".join(f'[[relations.t.rows]]\nwhere = "{bound}"\nsite = "s{number % sites}"\n' for number, bound in enumerate(bounds))
    return f'sites = [{names}]\n[relations.t]\ncolumns = ["id int", "part int", "label text"]\n{branches}'


BY_COLUMNS = """sites = ["a", "b"]
[relations.emp]
columns = ["id int", "name text", "dept int", "pay int"]
[[relations.emp.cols]]
of = ["name"]
site = "a"
[[relations.emp.cols]]
of = ["dept", "pay"]
site = "b"
[relations.dept]
columns = ["no int", "title text"]
site = "a"
"""


def is_wide(program, room):
    """Tells what sites, fragments and rows cost. Answers whether one of them costs too much."""
    keys = range(200)
    rows = [f"INSERT INTO t VALUES ({key}, 0, 'r{key}')" for key in keys]
    by_key = [f"SELECT label FROM t WHERE id = {key}" for key in keys]
    at_one = [f"SELECT label FROM t WHERE id = {key} AND part = 0" for key in keys]
    few, many = (of_each(program, room, "wide", by_rows(2, sites), rows, at_one) for sites in (2, 16))
    two, four = (of_each(program, room, "deep", by_rows(leaves, leaves), rows, by_key) for leaves in (2, 4))
    emp = [f"INSERT INTO emp VALUES ({key}, 'n{key}', {key % 10}, {key})" for key in keys] + [f"INSERT INTO dept VALUES ({number}, 't{number}')" for number in range(10)]
    join = "SELECT emp.name, dept.title FROM emp JOIN dept ON emp.dept = dept.no"
    each = [of_each(program, room, "rows", catalogue, filling, [text] * 20) / len(keys) for catalogue, filling, text in (
        (by_rows(2, 2), rows, "SELECT * FROM t"), (BY_COLUMNS, emp, "SELECT * FROM emp"), (BY_COLUMNS, emp, join))]
    told = [(f"one of 16 sites visited takes {many / few:.2f} times what one of 2 does", many / few > MOST_WIDE),
            (f"each further fragment takes {(four - two) / 2:.0f}", (four - two) / 2 > MOST_FRAGMENT),
            (f"a row of all takes {each[0]:.0f}, of a relation split by columns {each[1]:.0f}, of a join {each[2]:.0f}", max(each) > MOST_ROW)]
    for line, is_wrong in told:
        print(f"{line}{' TOO MUCH' if is_wrong else ''}", flush=True)
    return any(is_wrong for _, is_wrong in told)


def seconds(program, script):
    started = time.perf_counter()
    subprocess.run([program, "solo", script], stdout=subprocess.DEVNULL, check=True)
    return time.perf_counter() - started


def rate(program, room, kind):
    """How many statements of a kind run in a second, and how long each takes, in microseconds."""
    rows, filled, all_of_it = TIMED if kind == "delete" else SIZES[0], 1e9, 1e9
    for done in range(MOST_ROUNDS):
        if done >= LEAST_ROUNDS and TIMED >= LEAST_A_SECOND * (all_of_it - filled):
            break
        filled = min(filled, seconds(program, written(room, rows)))
        all_of_it = min(all_of_it, seconds(program, written(room, rows, kind, TIMED)))
    return TIMED / (all_of_it - filled), (all_of_it - filled) / TIMED * 1e6


def is_slow(program, room):
    """Tells how many statements run in a second. Answers whether they are too few, of some kind."""
    wrong = False
    for kind in KINDS:
        a_second, each = rate(program, room, kind)
        wrong |= a_second < LEAST_A_SECOND
        print(f"{kind:6}  {a_second:8.0f} a second, {each:5.1f} microseconds each{' TOO FEW' if a_second < LEAST_A_SECOND else ''}", flush=True)
    return wrong


def profile(program, room):
    """Tells for each kind which functions have the most instructions of their own."""
    for kind in KINDS:
        script, counts = written(room, SIZES[0], kind, TIMED if kind != "delete" else SIZES[0]), f"{room}/counts"
        words = ["valgrind", "--tool=callgrind", f"--callgrind-out-file={counts}", program, "solo", script]
        subprocess.run(words, stdout=subprocess.DEVNULL, stderr=subprocess.DEVNULL, check=True)
        told = subprocess.run(["callgrind_annotate", counts], stdout=subprocess.PIPE, text=True, check=True).stdout
        lines = [line for line in told.splitlines() if re.match(r"\s*[\d,]+ \(", line)]
        print(f"== {kind}", *[line[:150] for line in lines[:40]], sep="\n", flush=True)


def main(room):
    is_profile = WORDS[:1] == ["profile"]
    rest = WORDS[1:] if is_profile else WORDS
    program = rest[0] if rest else f"{TOP}/crates/fragdb/out/fragdb"
    if not os.access(program, os.X_OK):
        sys.exit(f"bench/solo.sh: no program at {program}; `rt run` in crates/fragdb makes it")
    if is_profile:
        return profile(program, room)
    slow, wide = is_slow(program, room), is_wide(program, room)
    return is_growing(program, room) or slow or wide


room = tempfile.mkdtemp(prefix="solo-")
try:
    wrong = main(room)
finally:
    shutil.rmtree(room, ignore_errors=True)
sys.exit(1 if wrong else 0)
PYTHON
