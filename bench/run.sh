#!/usr/bin/env bash
# Times `fragdb run`: sessions at once against one session, one session against `solo`, 64 sessions on 16 sites, and the memory
# that records take.
#
# usage: bench/run.sh [PROGRAM [records]]      (default: crates/fragdb/out/fragdb, which `rt run` in crates/fragdb makes, and all;
# `records`: the memory alone)
#
# It fails where eight sessions on four sites do less than 2.5 times the statements a second of one session with the same
# statements (only where there are four processors), where one session through threads does less than a third of what
# `solo` does, or where 64 sessions don't end. Each time is the least of three.
#
# Memory: the most that a run takes whose one session executes 2,000, 8,000 and 32,000 statements by key, each a transaction of
# its own, less what a run with one statement takes. It fails where a statement of the longest takes more than 1.2 times the
# bytes of one of the shortest. The kernel counts the memory by pages, for /usr/bin/time (GNU time), which it wants.
set -eu
top=$(cd "$(dirname "$0")/.." && pwd)
exec python3 - "${1:-$top/crates/fragdb/out/fragdb}" "${2:-all}" <<'PYTHON'
import os
import subprocess
import sys
import tempfile
import time

PROGRAM, PART = os.path.abspath(sys.argv[1]), sys.argv[2]
STATEMENTS = 2000
# A script has at most 1,048,576 bytes, so 32,000 statements have to be short.
COUNTS, MOST_GROWTH = (2000, 8000, 32000), 1.2


def catalogue(sites):
    """One relation a site, all of whose rows are there."""
    names = ", ".join(f'"s{number}"' for number in range(sites))
    relations = "".join(f'[relations.r{number:02}]\ncolumns = ["id int", "size int", "name text"]\nsite = "s{number}"\n' for number in range(sites))
    return f"sites = [{names}]\n{relations}"


def statements(session, sites, count):
    """INSERT, UPDATE and SELECT by keys that no other session has."""
    relation = f"r{session % sites:02}"
    lines = []
    for number in range(count):
        key = session * 1_000_000 + number // 3
        lines.append([f"INSERT INTO {relation} VALUES ({key}, 1, 'a')", f"UPDATE {relation} SET size = 2 WHERE id = {key}", f"SELECT name FROM {relation} WHERE id = {key}"][number % 3])
    return lines


def seconds(words, script, room):
    least = None
    for _ in range(3):
        begun = time.monotonic()
        ran = subprocess.run([PROGRAM, *words, "--catalog", "c.toml", "-"], input=script.encode(), stdout=subprocess.PIPE, cwd=room, timeout=300)
        took = time.monotonic() - begun
        if ran.returncode != 0:
            raise SystemExit(f"{words}: status {ran.returncode}")
        if words[0] == "run" and b"weave yes" not in ran.stdout:
            raise SystemExit("weave says no")
        least = took if least is None else min(least, took)
    return least


def peak(script, room):
    """The most memory that a run takes, in bytes. A child of this process would count this one's too, so another one starts it."""
    words = ["/usr/bin/time", "-f", "%M", PROGRAM, "run", "--catalog", "c.toml", "-"]
    ran = subprocess.run(words, input=script.encode(), stdout=subprocess.PIPE, stderr=subprocess.PIPE, cwd=room, timeout=600)
    if ran.returncode != 0 or b"weave yes" not in ran.stdout:
        raise SystemExit(f"a run of {script.count(chr(10))} statements: status {ran.returncode}, {ran.stderr.decode()}")
    return int(ran.stderr) * 1024


def by_key(count):
    """So many short statements by key in one session: of each four a row is put in, changed, read and taken out."""
    kinds = ("INSERT INTO r VALUES({},1)", "UPDATE r SET v=2 WHERE k={}", "SELECT v FROM r WHERE k={}", "DELETE FROM r WHERE k={}")
    return "".join(f"a {kinds[number % 4].format(number // 4)}\n" for number in range(count))


def at_once(sessions, sites, each):
    """A script of sessions whose lines take turns."""
    said = [statements(session, sites, each) for session in range(sessions)]
    return "".join(f"s{session} {said[session][number]}\n" for number in range(each) for session in range(sessions))


def alone(sessions, sites, each):
    """The same statements in one session, without the session's name."""
    return [line for session in range(sessions) for line in statements(session, sites, each)]


def records(room):
    """Tells what the records of a statement take, and whether a statement of the longest run takes too much."""
    with open(f"{room}/c.toml", "w", encoding="utf-8") as file:
        file.write('sites = ["s0", "s1"]\n[relations.r]\ncolumns = ["k int", "v int"]\n[[relations.r.rows]]\nwhere = "k < 5"\nsite = "s0"\n[[relations.r.rows]]\nwhere = "k >= 5"\nsite = "s1"\n')
    fixed = peak(by_key(1), room)
    costs = [(peak(by_key(count), room) - fixed) / count for count in COUNTS]
    told = ", ".join(f"{cost:.0f} of {count}" for cost, count in zip(costs, COUNTS))
    is_wrong = costs[-1] > MOST_GROWTH * costs[0]
    print(f"records take so many bytes a statement: {told}, {costs[-1] / costs[0]:.2f} times{' TOO MUCH' if is_wrong else ''}; a run with one takes {fixed / 2**20:.1f} MiB", flush=True)
    return is_wrong


def main():
    failed = False
    with tempfile.TemporaryDirectory() as room:
        if PART == "records":
            return 1 if records(room) else 0
        with open(f"{room}/c.toml", "w", encoding="utf-8") as file:
            file.write(catalogue(4))
        each = STATEMENTS // 8
        lines = alone(8, 4, each)
        one = "".join(f"a {line}\n" for line in lines)
        many, single = seconds(["run"], at_once(8, 4, each), room), seconds(["run"], one, room)
        solo = seconds(["solo"], "\n".join(lines) + "\n", room)
        print(f"eight sessions {STATEMENTS / many:8.0f} statements a second, one session {STATEMENTS / single:8.0f}: {single / many:.2f} times")
        print(f"solo           {STATEMENTS / solo:8.0f} statements a second: one session through threads has {solo / single:.2f} of it")
        if (os.cpu_count() or 1) >= 4 and single / many < 2.5:
            failed = True
            print("eight sessions do less than 2.5 times what one does")
        if solo / single < 1 / 3:
            failed = True
            print("one session does less than a third of what solo does")
        failed |= records(room)
        with open(f"{room}/c.toml", "w", encoding="utf-8") as file:
            file.write(catalogue(16))
        print(f"64 sessions on 16 sites, 20 statements each: {seconds(['run'], at_once(64, 16, 20), room):.2f} seconds")
    return 1 if failed else 0


sys.exit(main())
PYTHON
