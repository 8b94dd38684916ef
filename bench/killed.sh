#!/usr/bin/env bash
# Kills real processes over a folder at moments of chance, by SIGKILL, and looks at what is there when it is opened again.
#
#   bench/killed.sh [HOW MANY [FIRST SEED]]      300 from seed 1, without words
#
# One folder lives through all of them. Each process runs transactions of chance over the employees and their departments:
# transfers of pay between two employees, whose total stays, moves of employees between the sites of their departments, and
# a department that comes and goes. Four in five are sessions, which show each answer at once: of what was answered before
# the kill everything has to be there, and besides it nothing or the one transaction that was under way. In the others four
# sessions of `fragdb run` move employees at once; they show their answers at the end, so only what moves may differ.
#
# After each kill the folder is opened again, which settles it. Each site has to keep exactly the parts, byte by byte, of
# the relations as they are computed here, and no row of a transaction in doubt is left.
#
# The program is crates/fragdb/out/fragdb, or the one that FRAGDB names. KILLED_ON names the folder to work in, in memory
# where it isn't given. Ends with 1 where one kill left something wrong.
set -u
cd "$(dirname "$0")/.."
exec python3 - "$@" <<'PYTHON'
import collections
import os
import random
import re
import shutil
import subprocess
import sys
import tempfile
import time

TOP = os.getcwd()
sys.path.insert(0, f"{TOP}/bench")
sys.dont_write_bytecode = True
from folders import TWO_SITES, content, decode, kept

HOW_MANY = int(sys.argv[1]) if len(sys.argv) > 1 else 300
FIRST = int(sys.argv[2]) if len(sys.argv) > 2 else 1
PROGRAM = os.path.abspath(os.environ.get("FRAGDB", "crates/fragdb/out/fragdb"))
CATALOGUE = f"{TOP}/crates/fragdb/data/emp_and_dept.toml"
PROMPT = re.compile(r"fragdb\*?> |^fragdb 0\.1\.0.*$", re.M)
EMPLOYEES, PAY, DEPARTMENTS = 12, 1000, [1, 5, 9, 10, 14, 20]
LONGEST, SECONDS = 120, 60


def copied(relations):
    return {name: dict(rows) for name, rows in relations.items()}


class Transaction:
    """The lines of one, what they are answered, and the relations after it."""

    def __init__(self, chance, before):
        self.after = copied(before)
        emp, dept = self.after["emp"], self.after["dept"]
        one, other = chance.sample(range(1, EMPLOYEES + 1), 2)
        kind = chance.random()
        if kind < 0.4:
            amount = chance.randint(1, 50)
            lines = [f"UPDATE emp SET pay = pay - {amount} WHERE id = {one}", f"UPDATE emp SET pay = pay + {amount} WHERE id = {other}"]
            for key, more in ((one, -amount), (other, amount)):
                emp[key] = (*emp[key][:3], emp[key][3] + more)
            answers = ["changed 1", "changed 1"]
        elif kind < 0.6:
            # A move and a transfer in one.
            amount, to = chance.randint(1, 50), chance.choice(DEPARTMENTS)
            lines = [f"UPDATE emp SET dept = {to}, pay = pay - {amount} WHERE id = {one}", f"UPDATE emp SET pay = pay + {amount} WHERE id = {other}"]
            emp[one] = (emp[one][0], emp[one][1], to, emp[one][3] - amount)
            emp[other] = (*emp[other][:3], emp[other][3] + amount)
            answers = ["changed 1", "changed 1"]
        elif kind < 0.85:
            to = chance.choice(DEPARTMENTS)
            lines, answers = [f"UPDATE emp SET dept = {to} WHERE id = {one}"], ["changed 1"]
            emp[one] = (emp[one][0], emp[one][1], to, emp[one][3])
        else:
            number = chance.choice(DEPARTMENTS)
            if number in dept:
                lines, answers = [f"DELETE FROM dept WHERE no = {number}"], ["changed 1"]
                del dept[number]
            else:
                lines, answers = [f"INSERT INTO dept VALUES ({number}, 'd{one}')"], ["changed 1"]
                dept[number] = (number, f"d{one}")
        if len(lines) > 1 or chance.random() < 0.5:
            lines, answers = ["BEGIN", *lines, "COMMIT"], ["begun", *answers, "committed"]
        self.lines, self.answers = lines, answers


class Bench:
    def __init__(self, room):
        self.room, self.folder, self.count = room, f"{room}/D", collections.Counter()
        self.now = {"dept": {}, "emp": {}}
        lines = [f"INSERT INTO emp VALUES ({key}, 'e{key}', {DEPARTMENTS[key % len(DEPARTMENTS)]}, {PAY})" for key in range(1, EMPLOYEES + 1)]
        for key in range(1, EMPLOYEES + 1):
            self.now["emp"][key] = (key, f"e{key}", DEPARTMENTS[key % len(DEPARTMENTS)], PAY)
        self.start(["solo"], lines).wait(SECONDS)
        if self.printed() != ["changed 1"] * EMPLOYEES:
            sys.exit(f"the program can't load: {self.printed()}")

    def start(self, words, lines):
        with open(f"{self.room}/script", "w", encoding="utf-8") as file:
            file.write("".join(f"{line}\n" for line in lines))
        words = [PROGRAM, *words, "--catalog", CATALOGUE, "--dir", self.folder, f"{self.room}/script"]
        with open(f"{self.room}/printed", "w", encoding="utf-8") as output, open(f"{self.room}/errors", "w", encoding="utf-8") as errors:
            return subprocess.Popen(words, stdout=output, stderr=errors)

    def printed(self):
        with open(f"{self.room}/printed", encoding="utf-8") as file:
            return [line for line in PROMPT.sub("", file.read()).splitlines() if line]

    def killed(self, chance, words, lines, longest):
        """Runs lines and kills the process at a moment of chance, of its own id. Whether it still ran."""
        ran = self.start(words, lines)
        time.sleep(chance.uniform(0, longest))
        is_running = ran.poll() is None
        if is_running:
            ran.kill()
        status = ran.wait(SECONDS)
        self.count["kills" if status == -9 else "ends before the kill"] += 1
        if status not in (-9, 0):
            with open(f"{self.room}/errors", encoding="utf-8") as file:
                raise ValueError(f"status {status}: {file.read()}")

    def opened(self):
        """Opens the folder again. What each site keeps."""
        shutil.copytree(self.folder, f"{self.room}/copy")
        self.count["left in doubt"] += bool(kept(f"{self.room}/copy")[1])
        shutil.rmtree(f"{self.room}/copy")
        ran = subprocess.run([PROGRAM, "solo", "--catalog", CATALOGUE, "--dir", self.folder, "-"], input="SELECT pay FROM emp\n", capture_output=True, text=True, timeout=SECONDS)
        if ran.returncode or ran.stderr:
            raise ValueError(f"the next opening: status {ran.returncode}, {ran.stderr!r}")
        total = sum(map(int, ran.stdout.splitlines()[1:-1]))
        if total != EMPLOYEES * PAY:
            raise ValueError(f"the total is {total}, and {EMPLOYEES * PAY} is wanted: {ran.stdout!r}")
        parts, in_doubt = kept(self.folder)
        if in_doubt:
            raise ValueError(f"{in_doubt} rows are left in doubt")
        return parts

    def session(self, chance, longest):
        transactions, now = [], self.now
        for _ in range(LONGEST):
            transactions.append(Transaction(chance, now))
            now = transactions[-1].after
        self.killed(chance, ["solo", "--interactive"], [line for it in transactions for line in it.lines], longest)
        printed, done = self.printed(), 0
        for it in transactions:
            if printed[: len(it.answers)] != it.answers:
                if printed != it.answers[: len(printed)] and not it.answers[0].startswith(printed[-1]):
                    raise ValueError(f"it was answered {printed}, and {it.answers} is wanted")
                break
            printed, done = printed[len(it.answers) :], done + 1
        states = [self.now, *(it.after for it in transactions)][done : done + 2]
        parts = self.opened()
        for place, state in enumerate(states):
            if parts == content(TWO_SITES, state):
                self.now = state
                self.count["transactions answered"] += done
                self.count["with the one under way"] += place
                return
        raise ValueError(f"{done} transactions were answered, and the parts are {parts}")

    def sessions(self, chance, longest):
        lines = []
        for _ in range(LONGEST):
            name = chance.choice("abcd")
            moves = [f"UPDATE emp SET dept = {chance.choice(DEPARTMENTS)} WHERE id = {chance.randint(1, EMPLOYEES)}" for _ in range(chance.randint(1, 2))]
            lines += [f"{name} {line}" for line in (["BEGIN", *moves, "COMMIT"] if len(moves) > 1 else moves)]
        self.killed(chance, ["run", "--retry", "1000"], lines, longest)
        before, self.now = self.now, self.read(self.opened())
        self.count["of `fragdb run`"] += 1
        without = [{key: (row[0], row[1], row[3]) for key, row in it["emp"].items()} for it in (before, self.now)]
        if without[0] != without[1] or before["dept"] != self.now["dept"]:
            raise ValueError(f"moves alone made {self.now} of {before}")

    def read(self, parts):
        """The relations that parts are of, each of which stands in exactly one place."""
        rows, names = {"dept": {}, "emp": {}}, {}
        for (leaf, key), body in sorted(slot for site in parts.values() for slot in site.items()):
            values, relation = decode(body), leaf.split(".")[0]
            if leaf == "emp.1":
                names[key] = values[1]
            elif key in rows[relation]:
                raise ValueError(f"{relation} {key} stands twice: {parts}")
            else:
                rows[relation][key] = tuple(values) if relation == "dept" else (key, names[key], *values[1:])
        if content(TWO_SITES, rows) != parts:
            raise ValueError(f"the parts {parts} are of no relations")
        return rows


def main(room):
    bench = Bench(room)
    chance, now, lines = random.Random(0), bench.now, []
    for _ in range(LONGEST):
        it = Transaction(chance, now)
        lines, now = lines + it.lines, it.after
    began = time.monotonic()
    bench.start(["solo", "--interactive"], lines).wait(SECONDS)
    longest = time.monotonic() - began
    bench.now = now
    seed = FIRST - 1
    while bench.count["kills"] < HOW_MANY:
        seed += 1
        chance = random.Random(seed)
        # A third of the kills fall into the time in which the database is opened.
        short = longest * chance.choice([0.05, 1.0, 1.0])
        try:
            (bench.sessions if seed % 5 == 0 else bench.session)(chance, short)
        except (ValueError, KeyError) as why:
            print(f"seed {seed}: {why!r}")
            return 1
    print(", ".join(f"{number} {name}" for name, number in bench.count.items()) + "; none wrong")
    return 0


room = tempfile.mkdtemp(prefix="killed-", dir=os.environ.get("KILLED_ON", "/dev/shm" if os.path.isdir("/dev/shm") else None))
try:
    status = main(room)
finally:
    shutil.rmtree(room, ignore_errors=True)
sys.exit(status)
PYTHON
