#!/usr/bin/env bash
# Times a statement from its plan to its writes, by a small program, bench/answers/main.rt.in, over files that this script
# makes: `localize` and `reduce` at the limits, `evaluate` and `finish` at growing numbers of rows and of leaves, and a
# change of one row; and it counts the steps of unions over 32 leaves, of joins of 64 fragments and of look-ups. Then it
# refuses each allocation of that program, from the catalogue to the writes, on a join, on a join with a condition and on an
# update: the program ends for want of memory. Once more, with the calls of the evaluation and of what follows from its table
# made again where memory ran out: the second call has to come to what it comes to without a refusal. It proves and builds the program in a copy of the crates below it with the work that earlier checks kept, so
# check these first; that takes some ten minutes.
#
# usage: bench/answers.sh [PROGRAM]      (default: built anew)
set -eu
top=$(cd "$(dirname "$0")/.." && pwd)
. "$top/bench/copied.sh"
room=$(mktemp -d)
trap 'rm -rf "$room"' EXIT
program=${1:-}
if [ -z "$program" ]; then
    crates="terms meaning catalog reader plan answers"
    copied "$room/it" $crates
    mkdir -p "$room/it/crates/bench_answers/src" "$room/it/crates/bench_answers/proofs/evaluated"
    cp "$top/bench/answers/main.rt.in" "$room/it/crates/bench_answers/src/main.rt"
    cp "$top/bench/answers/evaluated.antt.in" "$room/it/crates/bench_answers/proofs/evaluated/Answers.antt"
    echo "bench_answers: $crates" >> "$room/it/crates.txt"
    (cd "$room/it/crates/bench_answers" && rt run --jobs 2 > "$room/log" 2>&1) || true
    program=$room/it/crates/bench_answers/out/bench_answers
    [ -x "$program" ] || { tail -20 "$room/log"; exit 1; }
fi
python3 - "$program" "$room" <<'PYTHON'
import subprocess
import sys

PROGRAM, ROOM = sys.argv[1:3]
SIZES = [2500, 5000, 10000, 20000, 40000]


def catalogue(leaves):
    """A relation in so many leaves by its column `part`, and another one in one leaf."""
    bounds = ["part < 1"] + [f"part >= {n} AND part < {n + 1}" for n in range(1, leaves - 1)] + [f"part >= {leaves - 1}"]
    rows = ", ".join(f"{{ where = '{text}', site = 'here' }}" for text in bounds)
    path = f"{ROOM}/catalogue{leaves}"
    with open(path, "w") as it:
        it.write("sites = ['here']\n"
                 f"relations.t = {{ columns = ['id int', 'part int', 'other int', 'note text'], rows = [{rows}] }}\n"
                 "relations.u = { columns = ['no int', 'title text'], rows = [{ where = 'no < 0', site = 'here' }, { where = 'no >= 0', site = 'here' }] }\n")
    return path


def parts(rows, leaves):
    """The parts of so many rows; neighbours by the key are in different leaves, and each row has a partner of its own."""
    path = f"{ROOM}/parts{rows}-{leaves}"
    with open(path, "w") as it:
        for leaf in range(leaves):
            it.writelines(f"t.{leaf + 1} {key}, {leaf}, {rows - 1 - key}, note {key}\n" for key in range(leaf, rows, leaves))
        it.writelines(f"u.2 {key}, title {key}\n" for key in range(rows))
    return path


def timed(statement, rows, leaves):
    """The microseconds of `evaluate` and of `finish`, each the least of five runs, and the rows of the table."""
    evaluated, finished, count = [], [], 0
    for _ in range(5):
        ran = subprocess.run([PROGRAM, catalogue(leaves), statement, parts(rows, leaves), "time"], stdout=subprocess.PIPE)
        if ran.returncode:
            sys.exit(f"{statement}: status {ran.returncode}")
        _, _, first, second, count, _ = map(int, ran.stdout.split())
        evaluated.append(first)
        finished.append(second - first)
    return min(evaluated), min(finished), count


failed = False


def series(names, took, most):
    """Prints times beside those of the size before. From the first to the last they may grow by so much and no more."""
    global failed
    first = before = None
    for name, (evaluated, finished, count) in zip(names, took):
        text = f"{name:38} {count:6} rows  evaluate {evaluated / 1000:9.3f} ms  finish {finished / 1000:9.3f} ms"
        now = [max(evaluated, 50), max(finished, 50)]
        if before:
            text += "  ratios " + " ".join(f"{a / b:5.2f}" for a, b in zip(now, before))
        print(text, flush=True)
        first, before = first or now, now
    grown = max(a / b for a, b in zip(before, first))
    failed = failed or grown > most
    print(f"    grown by {grown:.1f}, at most {most}{' TOO MUCH' if grown > most else ''}", flush=True)


def wide_catalogue(leaves):
    """Two relations of 16 columns in so many leaves each, by ranges of the column a0."""
    columns = ", ".join(f"'{column} int'" for column in ["id"] + [f"a{n}" for n in range(15)])
    ranges = ["a0 < 10"] + [f"a0 >= {10 * n} AND a0 < {10 * n + 10}" for n in range(1, leaves - 1)] + [f"a0 >= {10 * leaves - 10}"]
    rows = ", ".join(f"{{ where = '{text}', site = 'here' }}" for text in ranges)
    path = f"{ROOM}/wide{leaves}"
    with open(path, "w") as it:
        it.write("sites = ['here']\n" + "".join(f"relations.{name} = {{ columns = [{columns}], rows = [{rows}] }}\n" for name in "tu"))
    return path


# The plan itself, localized and reduced: a join with all columns and 8 conditions, and a statement by key.
for name, statement, most in (
    ("plan of a join", "SELECT * FROM t JOIN u ON t.a0 = u.id WHERE " + " AND ".join(f"t.a{n} >= 0 AND u.a{n} <= 1000" for n in range(4)), 50000),
    ("plan by key", "SELECT a3 FROM t WHERE id = 7", 1000),
):
    before = None
    for leaves in (2, 8, 32):
        ran = [subprocess.run([PROGRAM, wide_catalogue(leaves), statement, "/dev/null", "time"], stdout=subprocess.PIPE) for _ in range(5)]
        took = min(int(one.stdout.split()[1]) for one in ran)
        failed = failed or took >= most
        ratio = f"  ratio {took / before:5.2f}" if before else ""
        print(f"{name + f', {leaves} leaves':34} {took / 1000:9.3f} ms{ratio}{' TOO LONG' if took >= most else ''}", flush=True)
        before = max(took, 1)
STATEMENTS = {
    "SELECT": "SELECT * FROM t WHERE note <> 'x'",
    "join": "SELECT t.id, u.title FROM t JOIN u ON t.other = u.no",
    "UPDATE of all rows": "UPDATE t SET other = other + 1",
    "UPDATE that moves all rows": "UPDATE t SET part = part + 1",
    "DELETE of all rows": "DELETE FROM t",
}
# From the least to the most rows there are 16 times as many; n log n grows by 22, and by 256 what goes by their square.
for name, statement in STATEMENTS.items():
    series([f"{name}, 8 leaves" for _ in SIZES], (timed(statement, rows, 8) for rows in SIZES), 40)
# Sixteen times the leaves add four halvings of the tables, not sixteen times the time.
series([f"SELECT, {leaves} leaves" for leaves in (2, 8, 32)], (timed(STATEMENTS["SELECT"], 20000, leaves) for leaves in (2, 8, 32)), 4)
# A change of one row doesn't look at the others.
series([f"UPDATE by key over {rows} rows" for rows in SIZES], (timed("UPDATE t SET part = part + 1 WHERE id = 7", rows, 8) for rows in SIZES), 4)


def split(leaves):
    """Two relations of the same columns in so many leaves each, by their column `part`."""
    bounds = ["part < 1"] + [f"part = {n}" for n in range(1, leaves - 1)] + [f"part >= {leaves - 1}"]
    rows = ", ".join(f"{{ where = '{text}', site = 'here' }}" for text in bounds)
    how = f"rows = [{rows}]" if leaves > 1 else "site = 'here'"
    path = f"{ROOM}/split{leaves}"
    with open(path, "w") as it:
        it.write("sites = ['here']\n" + "".join(f"relations.{name} = {{ columns = ['id int', 'part int', 'other int', 'note text'], {how} }}\n" for name in "tu"))
    return path


def split_parts(rows, leaves):
    """The parts of so many rows of both; neighbours by the key are in different leaves, and each has a partner."""
    path = f"{ROOM}/split_parts{rows}-{leaves}"
    with open(path, "w") as it:
        for name in "tu":
            for leaf in range(leaves):
                it.writelines(f"{name}.{leaf + 1} {key}, {leaf}, {rows - 1 - key}, note {key}\n" for key in range(leaf, rows, leaves))
    return path


# The steps that putting rows together takes: a union of 32 leaves compares each row at each of five halvings at most, a key
# join each row of both sides once, and a look-up puts each row of the one side into its map and looks up each of the other.
for name, statement, leaves, most in (
    ("a look-up", "SELECT t.id, u.note FROM t JOIN u ON t.other = u.id", 1, 2),
    ("a union of 32 leaves", "SELECT note FROM t", 32, 5),
    ("all columns of 32 leaves", "SELECT * FROM t", 32, 5),
    ("a join of 64 fragments", "SELECT t.id, u.note FROM t JOIN u ON t.other = u.id", 32, 12),
):
    for rows in (2500, 20000):
        ran = subprocess.run([PROGRAM, split(leaves), statement, split_parts(rows, leaves), "time"], stdout=subprocess.PIPE)
        if ran.returncode:
            sys.exit(f"{statement}: status {ran.returncode}")
        _, _, took, _, count, steps = map(int, ran.stdout.split())
        failed = failed or count != rows or steps > most * rows
        print(f"{name + f', {rows} rows':38} {steps:8} steps, {steps / rows:6.3f} a row, at most {most}  {took / 1000:9.3f} ms{' TOO MANY' if steps > most * rows else ''}", flush=True)
sys.exit(1 if failed else 0)
PYTHON
cat > "$room/parts" <<'PARTS'
emp.1 1, Ada
emp.1 2, Bo
emp.2 1, 7, 100
emp.3 2, 12, 200
dept.1 7, paint
dept.2 12, dock
PARTS
for statement in "SELECT emp.id, emp.name, dept.title FROM emp JOIN dept ON emp.dept = dept.no" \
    "SELECT emp.id, emp.name, dept.title FROM emp JOIN dept ON emp.dept = dept.no WHERE dept.no = 12 AND emp.pay > 100" \
    "UPDATE emp SET dept = dept + 5 WHERE id = 1"; do
    for again in "" again; do
        "$top/bench/refused_memory.sh" "$program" "$top/crates/fragdb/data/emp_and_dept.toml" "$statement" "$room/parts" $again
    done
done
