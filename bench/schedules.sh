#!/usr/bin/env bash
# Plays schedules that nobody wrote, and compares each with what its committed transactions mean one after another.
#
#   bench/schedules.sh [--lcg] [--sqlite] [HOW MANY [FIRST SEED]]      2,000 from seed 1, without words
#
# With --lcg a schedule has four transactions and 300 events, chosen by the numbers that follow its seed by
# x * 6364136223846793005 + 1442695040888963407 in wrapping u64. With --sqlite each schedule is played over SQLite besides,
# and has to print the same, byte for byte, as has `solo --sqlite`.
#
# A schedule has four to six transactions over two relations in fragments, and events in an order of chance: calls of
# clients, letters that come late, never or again, store calls that are refused, restarts, inquiries, visits and
# transactions that are given up. Each site is a slow link for some transactions: their letters to and from it wait
# longer, so first phases, votes and decisions cross. Letters are numbered as they are sent, so a schedule grows in
# steps: the program plays what there is, and the next events are chosen by the letters that it printed.
#
# What the committed transactions mean is computed here, over whole relations and without fragments, letters or locks:
# each transaction of `.committed`, in that order, has to have been answered so, and the relations have to be those.
# And `fragdb solo`, given the same transactions in the same order, each between BEGIN and COMMIT, has to print the same.
# The program is crates/fragdb/out/fragdb, or the one that FRAGDB names. Ends with 1 where one schedule differs.
set -u
cd "$(dirname "$0")/.."
exec python3 - "$@" <<'PYTHON'
import os
import random
import re
import subprocess
import sys

OPTIONS = [word for word in sys.argv[1:] if word.startswith("--")]
NUMBERS = [int(word) for word in sys.argv[1:] if not word.startswith("--")]
HOW_MANY = NUMBERS[0] if NUMBERS else 2000
FIRST = NUMBERS[1] if len(NUMBERS) > 1 else 1
IS_LCG = "--lcg" in OPTIONS
STORES = [[], ["--sqlite"]] if "--sqlite" in OPTIONS else [[]]
EVENTS = 300
PROGRAM = os.environ.get("FRAGDB", "crates/fragdb/out/fragdb")
CATALOGUE = "crates/fragdb/data/emp_and_dept.toml"
# No letter has this number, so `deliver` of it prints one line, and what each event printed stands between two of them.
MARK = 10**15
COLUMNS = {"dept": ["no", "title"], "emp": ["id", "name", "dept", "pay"]}
LETTER = re.compile(r"^(\d+) (\w+)>(\w+) (\w+) (\w+)")
ENDED = re.compile(r"^(committed|rolled back|aborted \d .*)$")


def constant(value):
    return f"'{value}'" if isinstance(value, str) else str(value)


class Statement:
    """A statement as text, and what it means over whole relations: {name: {key: row}}."""

    def __init__(self, chance):
        self.kind = chance.choice(["read", "names", "names", "names", "join", "move", "pay", "title", "title", "title", "rename", "rename", "add", "remove"])
        self.low, self.key = chance.randint(1, 20), chance.randint(1, 6)
        self.dept, self.name = chance.choice([1, 5, 7, 9, 10, 12, 15]), chance.choice(["Ada", "Bo", "Cy"])
        self.whole = chance.random() < 0.2

    def text(self):
        where = "" if self.whole else f" WHERE id = {self.key}"
        return {
            "read": f"SELECT id, dept, pay FROM emp{where}",
            "names": f"SELECT name FROM emp{where}",
            "join": f"SELECT emp.id, dept.title FROM emp JOIN dept ON emp.dept = dept.no WHERE emp.pay >= {self.low}",
            "move": f"UPDATE emp SET dept = {self.dept}{where}",
            "pay": f"UPDATE emp SET pay = pay + {self.low}{where}",
            "rename": f"UPDATE emp SET name = '{self.name}'{where}",
            "title": f"UPDATE dept SET title = '{self.name}' WHERE no >= {self.dept}",
            "add": f"INSERT INTO emp VALUES ({self.key}, '{self.name}', {self.dept}, {self.low})",
            "remove": f"DELETE FROM emp WHERE dept < {self.dept} AND id = {self.key}",
        }[self.kind]

    def mean(self, relations):
        """The lines that it answers; changes the relations."""
        emp, dept = relations["emp"], relations["dept"]
        rows = [row for key, row in sorted(emp.items()) if self.whole or key == self.key]
        if self.kind == "read":
            return table(["id", "dept", "pay"], [[row[0], row[2], row[3]] for row in rows])
        if self.kind == "names":
            return table(["name"], [[row[1]] for row in rows])
        if self.kind == "join":
            found = [row for _, row in sorted(emp.items()) if row[3] >= self.low and row[2] in dept]
            return table(["emp.id", "dept.title"], [[row[0], dept[row[2]][1]] for row in found])
        if self.kind == "add":
            if self.key in emp:
                return ["exists"]
            emp[self.key] = [self.key, self.name, self.dept, self.low]
            return ["changed 1"]
        if self.kind == "remove":
            gone = [row for row in emp.values() if row[2] < self.dept and row[0] == self.key]
            for row in gone:
                del emp[row[0]]
            return [f"changed {len(gone)}"]
        if self.kind == "title":
            found = [key for key in dept if key >= self.dept]
            for key in found:
                dept[key] = [key, self.name]
            return [f"changed {len(found)}"]
        for row in rows:
            key, name, number, pay = row
            emp[key] = {
                "move": [key, name, self.dept, pay],
                "pay": [key, name, number, pay + self.low],
                "rename": [key, self.name, number, pay],
            }[self.kind]
        return [f"changed {len(rows)}"]


def table(names, rows):
    return ["\t".join(names), *("\t".join(map(str, row)) for row in rows), f"{len(rows)} row{'' if len(rows) == 1 else 's'}"]


class Linear(random.Random):
    """Numbers of chance, each made of the one before it."""

    def __init__(self, first):
        super().__init__()
        self.last = first

    def next(self):
        self.last = (self.last * 6364136223846793005 + 1442695040888963407) % 2**64
        return self.last

    def random(self):
        return (self.next() >> 11) / 2**53

    def getrandbits(self, count):
        return self.next() >> 64 - count


class Schedule:
    """A schedule as it grows: the lines so far, what the program printed for each, and what is known of letters."""

    def __init__(self, seed):
        self.chance = Linear(seed) if IS_LCG else random.Random(seed)
        self.loads, self.lines, self.printed = [], [], []
        self.letters, self.given = [], {}
        self.start = {"dept": {}, "emp": {}}
        for key in (1, 7, 12):
            self.load("dept", [key, self.chance.choice(["paint", "dock"])])
        for key in range(1, self.chance.randint(2, 5)):
            self.load("emp", [key, "Ada", self.chance.choice([1, 7, 12]), 10 * key])
        self.names = [f"T{n}" for n in range(1, 5 if IS_LCG else self.chance.randint(5, 7))]
        self.left = {name: self.calls(name) for name in self.names}
        self.accepted = {name: [] for name in self.names}
        self.slow = {(site, name): self.chance.random() < 0.4 for site in ("north", "south") for name in self.names}
        # How often something breaks: in most schedules seldom, since little is committed where much does.
        self.trouble = self.chance.choice([0.0, 0.01, 0.02, 0.04] if IS_LCG else [0.0, 0.0, 0.01, 0.03])

    def load(self, relation, row):
        self.start[relation][row[0]] = row
        self.loads.append(f"load INSERT INTO {relation} VALUES ({', '.join(map(constant, row))})")

    def calls(self, name):
        end = "rollback" if self.chance.random() < 0.1 else "commit"
        return ["begin", *(Statement(self.chance) for _ in range(self.chance.randint(1, 3))), end]

    def call(self, name):
        """The next call of a transaction as a line."""
        step = self.left[name][0]
        return f"do {name} {step.text()}" if isinstance(step, Statement) else f"{step} {name}"

    def script(self, lines):
        return "\n".join(self.loads + [part for line in lines for part in (line, f"deliver {MARK}")]) + "\n"

    def play(self, more):
        """Plays the schedule with these lines behind it, and keeps what was printed for each of them."""
        lines = self.lines + more
        script = self.script(lines)
        ran = run("play", script)
        parts = ran.stdout.split(f"no letter {MARK}\n")
        if ran.stderr or len(parts) != len(lines) + 1 or parts[-1]:
            raise SystemExit(f"the program stopped, status {ran.returncode}: {ran.stderr}\n{script}")
        self.lines, self.printed = lines, [part.splitlines() for part in parts[:-1]]

    def chosen(self):
        """One event of chance."""
        roll = self.chance.random()
        waiting = [name for name in self.names if self.left[name]]
        if roll < self.trouble:
            return self.broken()
        if waiting and roll < 0.2:
            # Mostly the first ones, so that some have ended when others begin.
            return self.call(self.chance.choice(waiting[:3]))
        if self.letters:
            return self.delivery()
        return "inquire north"

    def broken(self):
        """A site or the coordinator restarts, a site asks, a transaction or a visit is given up."""
        name, site = self.chance.choice(self.names), self.chance.choice(["north", "south"])
        if f"begin {name}" not in self.lines:
            return f"inquire {site}"
        visit = f"giveup {site} 1.{self.chance.randint(1, 6)}"
        return self.chance.choice([f"giveup {name}", visit, f"restart {site}", "restart desk", f"inquire {site}", f"inquire {site}"])

    def delivery(self):
        """A letter comes: mostly the oldest that never came and is of no slow link, sometimes any, sometimes refused."""
        fresh = [n for n in range(len(self.letters)) if n not in self.given]
        quick = [n for n in fresh if not self.slow[self.letters[n]]]
        some = quick if quick and self.chance.random() < 0.98 else fresh
        number = some[0] if some and self.chance.random() < 0.93 else self.chance.randrange(len(self.letters))
        return f"deliver {number + 1}" + (" refuse" if self.chance.random() < self.trouble else "")

    def grow(self, most):
        """Some more events, and not more than these; calls of one transaction wait for what its last one printed."""
        more, called = [], set()
        # Where many letters wait, many events can be chosen at once.
        many = (len(self.letters) - len(self.given)) // 2 if IS_LCG else 0
        for _ in range(min(most, self.chance.randint(2, 6) + many)):
            line = self.chosen()
            words = line.split()
            if words[0] in ("begin", "do", "commit", "rollback"):
                if words[1] in called:
                    continue
                called.add(words[1])
            if words[0] == "deliver":
                self.given[int(words[1]) - 1] = True
            more.append(line)
        before = len(self.lines)
        self.play(more)
        for line, out in zip(self.lines[before:], self.printed[before:]):
            self.note(line, out)

    def note(self, line, out):
        """What an event printed: its letters, and whether a call was accepted."""
        for text in out:
            letter = LETTER.match(text)
            if letter:
                _, one, other, _, name = letter.groups()
                self.letters.append((other if one == "desk" else one, name))
        words = line.split()
        if words[0] not in ("begin", "do", "commit", "rollback"):
            return
        refused = any(text.startswith(f"{words[1]}: refused ") for text in out)
        if refused and not any(text.startswith(f"{words[1]}: refused 2 ") for text in out):
            self.left[words[1]] = []
        elif not refused:
            step = self.left[words[1]].pop(0)
            if isinstance(step, Statement):
                self.accepted[words[1]].append(step)

    def answers(self, name):
        """The lines that a client heard, but for its beginning, its end and what was refused."""
        heard = [text[len(name) + 2:] for out in self.printed for text in out if text.startswith(f"{name}: ")]
        return [text for text in heard if text != "begun" and not ENDED.match(text) and not text.startswith("refused ")]

    def compare(self):
        """What differs from the committed transactions one after another; nothing where nothing does."""
        self.play([".committed", ".show dept", ".show emp"])
        committed, *shown = self.printed[-3:]
        relations = {name: {key: list(row) for key, row in rows.items()} for name, rows in self.start.items()}
        for name in committed:
            wanted = [text for statement in self.accepted[name] for text in statement.mean(relations)]
            if self.answers(name) != wanted:
                return f"{name} was answered {self.answers(name)}, and in turn it is {wanted}"
        for relation, rows in zip(("dept", "emp"), shown):
            wanted = table(COLUMNS[relation], [row for _, row in sorted(relations[relation].items())])
            if rows != wanted:
                return f"{relation} is {rows}, and in turn it is {wanted}"
        return self.over_others() or self.alone(committed, shown)

    def over_others(self):
        """What other stores print otherwise."""
        script = self.script(self.lines)
        wanted = "".join(f"{text}\n" for out in self.printed for text in [*out, f"no letter {MARK}"])
        for stores in STORES[1:]:
            ran = run("play", script, stores)
            if ran.stdout != wanted or ran.stderr or ran.returncode:
                return f"play {' '.join(stores)} printed {ran.stdout}{ran.stderr}\nand this was wanted:\n{wanted}"
        return None

    def alone(self, committed, shown):
        """What `solo` prints otherwise, of the committed transactions one after another; nothing where it prints the same."""
        lines, wanted = [load[len("load "):] for load in self.loads], ["changed 1"] * len(self.loads)
        for name in committed:
            lines += ["BEGIN", *(statement.text() for statement in self.accepted[name]), "COMMIT"]
            wanted += ["begun", *self.answers(name), "committed"]
        lines += [".show dept", ".show emp"]
        script = "\n".join(lines) + "\n"
        wanted += [text for rows in shown for text in rows]
        for stores in STORES:
            ran = run("solo", script, stores)
            printed = ran.stdout.splitlines()
            if printed != wanted:
                return f"solo {' '.join(stores)} printed {printed}, and {wanted} was wanted of\n{script}{ran.stderr}"
        return None


def run(command, script, stores=()):
    return subprocess.run([PROGRAM, command, "--catalog", CATALOGUE, *stores, "-"], input=script, capture_output=True, text=True)


def kinds(lines):
    """How many events of each kind there were that break something or come again."""
    delivered = [line.split()[1] for line in lines if line.startswith("deliver ")]
    return {
        "letters that came again": len(delivered) - len(set(delivered)),
        "refused": sum(line.endswith(" refuse") for line in lines),
        **{word: sum(line.startswith(word) for line in lines) for word in ("giveup", "inquire", "restart")},
    }


def told(schedule):
    """The transactions in the order in which they were told that they are committed."""
    return [text.split(":")[0] for out in schedule.printed for text in out if text.endswith(": committed")]


count = {"schedules": 0, "events": 0, "committed": 0, "aborted": 0, "schedules told in another order than that of first phases": 0}
for seed in range(FIRST, FIRST + HOW_MANY):
    schedule = Schedule(seed)
    if IS_LCG:
        while len(schedule.lines) < EVENTS:
            schedule.grow(EVENTS - len(schedule.lines))
    else:
        for _ in range(schedule.chance.randint(25, 45)):
            schedule.grow(EVENTS)
    if schedule.chance.random() < 0.5:
        schedule.play(["all"])
    difference = schedule.compare()
    if difference:
        print("\n".join(schedule.loads + schedule.lines))
        sys.exit(f"schedule of seed {seed}: {difference}")
    count["schedules"] += 1
    count["events"] += len(schedule.lines)
    count["committed"] += len(schedule.printed[-3])
    for kind, number in kinds(schedule.lines).items():
        count[kind] = count.get(kind, 0) + number
    count["aborted"] += sum(": aborted " in text for out in schedule.printed for text in out)
    count["schedules told in another order than that of first phases"] += told(schedule) != schedule.printed[-3]
print(", ".join(f"{number} {what}" for what, number in count.items()) + ", no difference")
PYTHON
