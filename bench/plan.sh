#!/usr/bin/env bash
# Times `fragdb plan` beside `fragdb check` on the same catalogue, so that what is left is the plan: a statement by key
# over relations of 2 and of 32 leaves, and joins of two and of three relations of 32 leaves each, with 16 columns and
# 8 conditions; three relations list 32 columns. Fails where a join's plan takes 50 ms or more, or that of a statement by key 1 ms (each the mean of many runs), and
# prints what 32 leaves cost for 2. What evaluating and answering cost is printed by bench/answers.sh.
#
# usage: bench/plan.sh [PROGRAM]      (default: crates/fragdb/out/fragdb)
set -eu
top=$(cd "$(dirname "$0")/.." && pwd)
exec python3 - "${1:-$top/crates/fragdb/out/fragdb}" <<'PYTHON'
import os
import subprocess
import sys
import tempfile
import time

PROGRAM, RUNS = sys.argv[1], 40


def relation(name, leaves):
    """A relation of 16 columns, split by rows at so many ranges of its column a0."""
    columns = ", ".join(f"'{column} int'" for column in ["id"] + [f"a{n}" for n in range(15)])
    ranges = ["a0 < 10"] + [f"a0 >= {10 * n} AND a0 < {10 * n + 10}" for n in range(1, leaves - 1)] + [f"a0 >= {10 * (leaves - 1)}"]
    rows = ", ".join(f"{{ where = '{text}', site = 's{n % 16}' }}" for n, text in enumerate(ranges))
    return f"relations.{name} = {{ columns = [{columns}], rows = [{rows}] }}\n"


def catalogue(room, leaves):
    path = f"{room}/{leaves}.toml"
    with open(path, "w") as it:
        it.write("sites = [" + ", ".join(f"'s{n}'" for n in range(16)) + "]\n" + relation("t", leaves) + relation("u", leaves) + relation("v", leaves))
    return path


def seconds(words):
    """The least of several means, so that other work on the machine counts little."""
    best = 1e9
    for _ in range(5):
        started = time.perf_counter()
        for _ in range(RUNS):
            ran = subprocess.run([PROGRAM, *words], stdout=subprocess.PIPE, stderr=subprocess.PIPE)
            if ran.returncode:
                sys.exit(f"{words}: status {ran.returncode}: {ran.stderr.decode()}")
        best = min(best, (time.perf_counter() - started) / RUNS)
    return best, ran.stdout.decode().splitlines()[-1]


by_key = "SELECT a3 FROM t WHERE id = 7"
join = "SELECT * FROM t JOIN u ON t.a0 = u.id WHERE " + " AND ".join(f"t.a{n} >= 0 AND u.a{n} <= 1000" for n in range(4))
columns = ", ".join(f"{name}.a{n}" for name in "tuv" for n in range(11))[: -len(", v.a10")]
joins = f"SELECT {columns} FROM t JOIN u ON t.a0 = u.id JOIN v ON u.a0 = v.id WHERE " + " AND ".join(f"t.a{n} >= 0 AND u.a{n} <= 1000 AND v.a{n} <> 5" for n in range(4)).rsplit(" AND ", 4)[0]
failed, cost = False, {}
with tempfile.TemporaryDirectory() as room:
    for leaves in (2, 32):
        path = catalogue(room, leaves)
        base = seconds(["check", path])[0]
        for name, text, most in (("by key", by_key, 0.001), ("join", join, 0.050), ("joins", joins, 0.050)):
            took, last = seconds(["plan", path, text])
            plan = max(took - base, 0)
            cost[leaves, name] = plan
            wrong = plan >= most
            failed = failed or wrong
            print(f"{leaves:2} leaves, {name:6}: {1000 * plan:7.3f} ms beside {1000 * base:.3f} ms of check, {last}{' TOO LONG' if wrong else ''}")
for name in ("by key", "join", "joins"):
    few, many = cost[2, name], cost[32, name]
    print(f"32 leaves for 2, {name:6}: " + (f"{many / few:.1f} times" if few > 1e-5 else "with 2 too little to tell from the check"))
sys.exit(1 if failed else 0)
PYTHON
