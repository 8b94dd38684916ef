#!/usr/bin/env bash
# Stops `fragdb solo --dir`, and `fragdb run --dir`, at each of its calls that change a file or make it durable, in turn, and
# looks at what is there when the folder is opened again.
#
#   bench/stops.sh [SCHEDULE [MANNER]]      without words all of both
#
# SCHEDULES, each over a folder with two employees and two departments that an earlier process has loaded, but for `first`:
#   move         an employee goes to a department whose fragment is at another site
#   insert, delete
#   transaction  four statements over three sites, between BEGIN and COMMIT
#   several      three lone statements and a transaction, in a session that shows each answer at once
#   split        the employees get the split of a second catalogue; each part is where the catalogue in force has it
#   first        a folder that isn't there, and one statement
#   sessions     two sessions of `fragdb run`, one with statements of one site, the other with one of the other site and with
#                a transaction of both; none is in another's way
#   settle       a folder that the stops of `move` have left in doubt, each such one; the next opening settles it
# MANNERS (bench/stop.c):
#   before, half          the process ends before the call; or when half of a write is written
#   lost, torn            it ends before the call, and the machine loses what was not made durable since, or parts of it
#   refuse, once, full    that call and all later ones answer EIO; that call alone; they answer ENOSPC; of all files of
#                         the folder, and then of each file alone. The process goes on.
#
# After each the folder is opened again, which settles it. Each site has to keep exactly the parts, byte by byte, of the
# relations before or after a transaction, as they are computed here, and no row of a transaction in doubt is left; of each
# transaction that was answered it has to be the relations after it. `.show` of the program has to say the same. With a
# manner that refuses, the program has to end with status 3 and one line, or to go on rightly.
#
# In which order the calls of sessions come is not determined, so a call of some number is another one in each run. They show
# their answers at the end. Where a process was stopped before that, each session has done its first transactions, so many or
# none; where a store refused and the process ended, each transaction is there or not; where it went on, just those that were
# answered are, `weave` has to say yes, and the relations that it shows have to be those.
#
# The program is crates/fragdb/out/fragdb, or the one that FRAGDB names. It wants a C compiler (cc) and Python. STOPS_ON
# names the folder to work in, in memory where it isn't given. Ends with 1 where one stop left something wrong.
set -u
cd "$(dirname "$0")/.."
exec python3 - "$@" <<'PYTHON'
import collections
import itertools
import os
import re
import shutil
import sqlite3
import subprocess
import sys
import tempfile

TOP = os.getcwd()
sys.path.insert(0, f"{TOP}/bench")
sys.dont_write_bytecode = True
from folders import BY_ROWS, BY_ROWS_TEXT, THREE_SITES, THREE_SITES_TEXT, TWO_SITES, content, kept, table

PROGRAM = os.path.abspath(os.environ.get("FRAGDB", "crates/fragdb/out/fragdb"))
COLUMNS = {"dept": ["no", "title"], "emp": ["id", "name", "dept", "pay"]}
ENDING, REFUSING = ("before", "half", "lost", "torn"), ("refuse", "once", "full")
LOAD = [
    "INSERT INTO dept VALUES (7, 'paint')",
    "INSERT INTO dept VALUES (12, 'dock')",
    "INSERT INTO emp VALUES (1, 'Ada', 7, 100)",
    "INSERT INTO emp VALUES (2, 'Bo', 12, 200)",
]
LOADED = {"dept": {7: (7, "paint"), 12: (12, "dock")}, "emp": {1: (1, "Ada", 7, 100), 2: (2, "Bo", 12, 200)}}
PROMPT = re.compile(r"fragdb\*?> |^fragdb 0\.1\.0.*$", re.M)
# The status of a process that was stopped, as bench/stop.c has it.
SECONDS, STOPPED = 60, 77


class Step:
    """A statement, as text and as what it does to relations: a row that goes in, or what rows of a relation become."""

    def __init__(self, text, relation, key, change):
        self.text, self.relation, self.key, self.change = text, relation, key, change

    def run(self, relations):
        """The answer; changes the relations. A change of None takes a row out; a row in its place goes in."""
        rows = relations[self.relation]
        if isinstance(self.change, tuple):
            if self.key in rows:
                return "exists"
            rows[self.key] = self.change
            return "changed 1"
        met = [row for row in rows.values() if self.key(row)]
        for row in met:
            del rows[row[0]]
            if self.change:
                rows[row[0]] = self.change(row)
        return f"changed {len(met)}"


class Refragment:
    """A REFRAGMENT of a relation, which changes no row."""

    def __init__(self, relation):
        self.text, self.relation = f"REFRAGMENT {relation}", relation

    def run(self, relations):
        """The answer; notes that the next catalogue is in force."""
        relations["next"] = {}
        return f"changed {len(relations[self.relation])}"


class Transaction:
    def __init__(self, *steps, is_lone=False):
        self.steps, self.is_lone = steps, is_lone

    def lines(self):
        lines = [step.text for step in self.steps]
        return lines if self.is_lone else ["BEGIN", *lines, "COMMIT"]

    def run(self, relations):
        """The answers, and the relations after it."""
        after = {name: dict(rows) for name, rows in relations.items()}
        answers = [step.run(after) for step in self.steps]
        return answers if self.is_lone else ["begun", *answers, "committed"], after


class Schedule:
    """Transactions in turn, over a folder of these relations; None where it isn't there yet."""

    def __init__(self, name, leaves, text, start, transactions, in_session=False, next_leaves=None, next_text=None):
        self.name, self.leaves, self.text, self.start, self.transactions = name, leaves, text, start, transactions
        self.in_session, self.next_leaves, self.next_text = in_session, next_leaves, next_text

    def leaves_of(self, state):
        """The leaves of the catalogue that is in force in this state."""
        return self.next_leaves if "next" in state else self.leaves

    def lines(self):
        return [line for it in self.transactions for line in it.lines()]


class AtOnce(Schedule):
    """Sessions of `fragdb run`, each with transactions in turn. None is in another's way, so what they do stands side by side."""

    def __init__(self, name, leaves, text, start, sessions):
        super().__init__(name, leaves, text, start, [it for turns in sessions.values() for it in turns])
        self.sessions = sessions

    def lines(self):
        said = [[f"{name} {line}" for it in turns for line in it.lines()] for name, turns in self.sessions.items()]
        return [line for together in itertools.zip_longest(*said) for line in together if line]

    def after(self, done):
        """The relations after these transactions."""
        now = self.start
        for it in done:
            _, now = it.run(now)
        return now

    def beginnings(self):
        """What of all sessions may have been done where each was stopped at some transaction."""
        counts = itertools.product(*(range(len(turns) + 1) for turns in self.sessions.values()))
        return [[it for count, turns in zip(each, self.sessions.values()) for it in turns[:count]] for each in counts]

    def choices(self):
        """Any of the transactions."""
        return [[it for it, is_in in zip(self.transactions, each) if is_in] for each in itertools.product((False, True), repeat=len(self.transactions))]


def schedules():
    with open("crates/fragdb/data/emp_and_dept.toml", encoding="utf-8") as file:
        two = file.read()
    move = Step("UPDATE emp SET dept = 12 WHERE id = 1", "emp", lambda row: row[0] == 1, lambda row: (row[0], row[1], 12, row[3]))
    insert = Step("INSERT INTO emp VALUES (3, 'Cy', 12, 300)", "emp", 3, (3, "Cy", 12, 300))
    delete = Step("DELETE FROM emp WHERE id = 1", "emp", lambda row: row[0] == 1, None)
    retitled = Step("UPDATE dept SET title = 'pier' WHERE no = 12", "dept", lambda row: row[0] == 12, lambda row: (row[0], "pier"))
    together = Transaction(
        move,
        Step("INSERT INTO emp VALUES (3, 'Cy', 7, 300)", "emp", 3, (3, "Cy", 7, 300)),
        retitled,
        Step("DELETE FROM emp WHERE id = 2", "emp", lambda row: row[0] == 2, None),
    )
    several = [
        Transaction(insert, is_lone=True),
        Transaction(Step("UPDATE emp SET dept = 5 WHERE dept = 12", "emp", lambda row: row[2] == 12, lambda row: (row[0], row[1], 5, row[3])), is_lone=True),
        Transaction(Step("DELETE FROM dept WHERE no = 7", "dept", lambda row: row[0] == 7, None), is_lone=True),
        Transaction(
            Step("UPDATE emp SET pay = pay + 1", "emp", lambda row: True, lambda row: (*row[:3], row[3] + 1)),
            Step("INSERT INTO dept VALUES (30, 'roof')", "dept", 30, (30, "roof")),
        ),
    ]
    first = Step("INSERT INTO dept VALUES (7, 'paint')", "dept", 7, (7, "paint"))
    sessions = {
        "a": [
            Transaction(Step("INSERT INTO dept VALUES (1, 'x')", "dept", 1, (1, "x")), is_lone=True),
            Transaction(move, insert),
        ],
        "b": [
            Transaction(Step("INSERT INTO dept VALUES (50, 'y')", "dept", 50, (50, "y")), is_lone=True),
            Transaction(retitled, is_lone=True),
        ],
    }
    return [
        Schedule("move", TWO_SITES, two, LOADED, [Transaction(move, is_lone=True)]),
        Schedule("insert", TWO_SITES, two, LOADED, [Transaction(insert, is_lone=True)]),
        Schedule("delete", TWO_SITES, two, LOADED, [Transaction(delete, is_lone=True)]),
        Schedule("transaction", THREE_SITES, THREE_SITES_TEXT, LOADED, [together]),
        Schedule("several", TWO_SITES, two, LOADED, several, in_session=True),
        Schedule("split", TWO_SITES, two, LOADED, [Transaction(Refragment("emp"), is_lone=True)], next_leaves=BY_ROWS, next_text=BY_ROWS_TEXT),
        Schedule("first", TWO_SITES, two, None, [Transaction(first, is_lone=True)]),
        AtOnce("sessions", TWO_SITES, two, LOADED, sessions),
    ]


def shown_as(relations, name):
    """The lines by which a relation is shown."""
    return table(COLUMNS[name], [row for _, row in sorted(relations[name].items())])


class Bench:
    def __init__(self, room):
        self.room, self.folder = room, f"{room}/D"
        self.library = f"{room}/stop.so"
        subprocess.run(["cc", "-shared", "-fPIC", "-O1", "-o", self.library, f"{TOP}/bench/stop.c", "-ldl"], check=True)
        self.count, self.wrong, self.left_in_doubt, self.next = collections.Counter(), [], [], []

    def made(self, schedule):
        """The folder with which a schedule begins, under a name of its own."""
        with open(f"{self.room}/catalogue.toml", "w", encoding="utf-8") as file:
            file.write(schedule.text)
        self.next = ["--next", f"{self.room}/next.toml"] if schedule.next_text else []
        if schedule.next_text:
            with open(f"{self.room}/next.toml", "w", encoding="utf-8") as file:
                file.write(schedule.next_text)
        loaded = f"{self.room}/loaded-{schedule.name}"
        if schedule.start and not os.path.exists(loaded):
            ran = self.run(loaded, LOAD, {})
            if ran.stdout != "changed 1\n" * len(LOAD):
                sys.exit(f"the program can't load: {ran.stdout}{ran.stderr}")
        return loaded if schedule.start else None

    def run(self, folder, lines, stop, *more_words, command="solo"):
        """Runs lines over a folder. With a stop, its library stands before the system's."""
        script = f"{self.room}/script"
        with open(script, "w", encoding="utf-8") as file:
            file.write("".join(f"{line}\n" for line in lines))
        words = [PROGRAM, command, "--catalog", f"{self.room}/catalogue.toml", *self.next, *more_words, "--dir", folder, script]
        told = os.open(f"{self.room}/told", os.O_RDWR | os.O_CREAT | os.O_TRUNC)
        os.dup2(told, 9)
        os.set_inheritable(9, True)
        more = {"LD_PRELOAD": self.library, "STOP_IN": folder, **{name: str(value) for name, value in stop.items()}} if stop else {}
        try:
            return subprocess.run(words, env={**os.environ, **more}, pass_fds=(9,), capture_output=True, text=True, timeout=SECONDS)
        finally:
            os.close(told)
            os.close(9)

    def stopped(self):
        """The name of the file of the call that was stopped, if one was."""
        with open(f"{self.room}/told", encoding="utf-8") as file:
            return file.read().strip().partition(" ")[2]

    def begin(self, begun):
        shutil.rmtree(self.folder, ignore_errors=True)
        if begun:
            shutil.copytree(begun, self.folder)

    def each(self, schedule, how, of="*", begun=None):
        """Stops at each call in turn, until a run meets no stop."""
        begun = begun or self.made(schedule)
        number, here = 0, collections.Counter()
        for number in range(1, 100000):
            self.begin(begun)
            stop = {"STOP_AT": number, "STOP_HOW": how, "STOP_OF": of}
            if isinstance(schedule, AtOnce):
                ran = self.run(self.folder, schedule.lines(), stop, command="run")
            else:
                ran = self.run(self.folder, schedule.lines(), stop, *(["--interactive"] if schedule.in_session and how in ENDING else []))
            name = self.stopped()
            if not name:
                break
            here[re.sub(r"^(\w+)\.db.*", r"\1", name) if ".db" in name else "folder"] += 1
            if schedule.name == "move" and how == "before":
                self.keep_in_doubt()
            fault = self.judged(schedule, how, ran)
            if fault:
                self.wrong.append(f"{schedule.name}, {how} {of}, call {number} ({name}): {fault}")
                print(self.wrong[-1], flush=True)
        if ran.returncode or self.judged(schedule, how, ran):
            self.wrong.append(f"{schedule.name}, {how} {of}: without a stop: status {ran.returncode} {ran.stderr}{self.judged(schedule, how, ran)}")
            print(self.wrong[-1], flush=True)
        self.count[how] += number - 1
        return here

    def keep_in_doubt(self):
        """Keeps a copy of the folder, if a transaction is in doubt there as in no other one."""
        copy = f"{self.room}/doubt-{len(self.left_in_doubt)}"
        shutil.copytree(self.folder, copy)
        look = f"{self.room}/look"
        shutil.copytree(self.folder, look)
        parts, in_doubt = kept(look)
        tables = []
        for name in ("desk", "north", "south"):
            base = sqlite3.connect(f"{look}/{name}.db")
            tables.append([line for line in base.iterdump() if '"state"' not in line])
            base.close()
        shutil.rmtree(look)
        if in_doubt and all(tables != other for _, other in self.left_in_doubt):
            self.left_in_doubt.append((copy, tables))
        else:
            shutil.rmtree(copy)

    def judged(self, schedule, how, ran):
        """What is wrong after a run that met a stop; nothing where all is well."""
        if isinstance(schedule, AtOnce):
            return self.judged_at_once(schedule, how, ran)
        printed = [line for line in PROMPT.sub("", ran.stdout).splitlines() if line]
        ended, refused = how in ENDING and ran.returncode == STOPPED, ran.returncode == 3
        is_silent = schedule.in_session and how in ENDING or not ran.stderr
        if not is_silent and not (refused and ran.stderr in ("fragdb: store 2 Refused\n", "fragdb: store 3 Damaged\n")):
            return f"status {ran.returncode} with {ran.stderr!r}"
        if not ended and not refused and ran.returncode not in (0, 1):
            return f"status {ran.returncode}, {ran.stderr!r}"
        self.count[f"status 3 {ran.stderr.split()[-1]}" if refused else "went on" if not ended else "ended"] += 1
        now, states = schedule.start or {"dept": {}, "emp": {}}, []
        for it in schedule.transactions:
            answers, after = it.run(now)
            had, printed = printed[: len(answers)], printed[len(answers) :]
            if had == answers:
                now = after
            elif had and had[:-1] == answers[:-1] and had[-1].startswith("aborted "):
                # What was told to be aborted is not there, also where the program ended after it.
                self.count["aborted"] += 1
            elif (ended or refused) and had == answers[: len(had)]:
                states = [after]
                break
            else:
                return f"it printed {had}, and {answers} is wanted"
        return self.looked(schedule, [now, *states]) if not printed else f"it printed {printed} besides"

    def judged_at_once(self, schedule, how, ran):
        """The same of sessions at once."""
        ended, refused = how in ENDING and ran.returncode == STOPPED, ran.returncode == 3
        if ran.stderr and not (refused and ran.stderr in ("fragdb: store 2 Refused\n", "fragdb: store 3 Damaged\n")):
            return f"status {ran.returncode} with {ran.stderr!r}"
        if ended or refused:
            self.count["ended" if ended else f"status 3 {ran.stderr.split()[-1]}"] += 1
            done = schedule.beginnings() if ended else schedule.choices()
            return self.looked(schedule, [schedule.after(it) for it in done]) if not ran.stdout else f"it printed {ran.stdout!r}"
        self.count["went on"] += 1
        heard, woven, shown = ran.stdout.partition("weave yes\n")
        if ran.returncode or not woven:
            return f"status {ran.returncode}, it printed {ran.stdout!r}"
        done, printed = [], heard.splitlines()
        for name, turns in schedule.sessions.items():
            for it in turns:
                answers = [f"{name}: {answer}" for answer in it.run(schedule.start)[0]]
                had, printed = printed[: len(answers)], printed[len(answers) :]
                if had == answers:
                    done.append(it)
                elif had[:-1] == answers[:-1] and had[-1].startswith(f"{name}: aborted "):
                    self.count["aborted"] += 1
                else:
                    return f"it printed {had}, and {answers} is wanted"
        state = schedule.after(done)
        wanted = [line for relation in ("dept", "emp") for line in [relation, *shown_as(state, relation)]]
        if printed or shown.splitlines() != wanted:
            return f"it showed {printed} and {shown!r}, and {wanted} is wanted"
        return self.looked(schedule, [state])

    def looked(self, schedule, states):
        """What is wrong with the folder, which has to have one of these states once it is opened again."""
        again = self.run(self.folder, [".show dept", ".show emp"], {})
        if again.returncode or again.stderr:
            return f"the next opening: status {again.returncode}, {again.stderr!r}"
        parts, in_doubt = kept(self.folder)
        if in_doubt:
            return f"{in_doubt} rows are left in doubt"
        for place, state in enumerate(states):
            shown = [line for relation in ("dept", "emp") for line in shown_as(state, relation)]
            if parts == content(schedule.leaves_of(state), state) and again.stdout.splitlines() == shown:
                names = {1: ["as answered"], 2: ["the state before", "the state after"]}.get(len(states))
                self.count[names[place] if names else "some of the transactions"] += 1
                return None
        return f"the parts are {parts}, and it shows {again.stdout!r}"


def main(room):
    wanted = sys.argv[1:]
    bench = Bench(room)
    manners = [how for how in (*ENDING, *REFUSING) if not wanted[1:] or how in wanted[1:]]
    all_schedules = schedules()
    for schedule in all_schedules:
        if wanted and wanted[0] not in (schedule.name, "all"):
            continue
        for how in manners:
            here = bench.each(schedule, how)
            print(f"{schedule.name}, {how}: {sum(here.values())} stops: " + ", ".join(f"{name} {number}" for name, number in sorted(here.items())), flush=True)
        sites = sorted({leaf.site for leaf in schedule.leaves})
        names = [f"{name}.db{end}" for name in [*sites, "desk"] for end in ("", "-wal")]
        for how in manners:
            if how in REFUSING:
                alone = {name: sum(bench.each(schedule, how, name).values()) for name in names}
                print(f"{schedule.name}, {how}, one file alone: " + ", ".join(f"{name} {number}" for name, number in alone.items()), flush=True)
    if not wanted or wanted[0] in ("settle", "all"):
        move = all_schedules[0]
        if not bench.left_in_doubt:
            bench.each(move, "before")
        for how in manners:
            stops = 0
            for folder, tables in bench.left_in_doubt:
                # Nothing is asked for. What is there once it is settled follows from whether a commit row stands.
                is_decided = any(line.startswith('INSERT INTO "decided"') for line in tables[0])
                settle = Schedule("settle", move.leaves, move.text, move.transactions[0].run(move.start)[1] if is_decided else move.start, [])
                stops += sum(bench.each(settle, how, begun=folder).values())
            print(f"settle, {how}: {stops} stops over {len(bench.left_in_doubt)} folders in doubt", flush=True)
    stops = sum(bench.count[how] for how in (*ENDING, *REFUSING))
    print(", ".join(f"{how} {bench.count[how]}" for how in manners) + f": {stops} stops")
    print(", ".join(f"{name}: {number}" for name, number in sorted(bench.count.items()) if name not in manners) + f"; {len(bench.wrong)} wrong")
    return 1 if bench.wrong or not stops else 0


room = tempfile.mkdtemp(prefix="stops-", dir=os.environ.get("STOPS_ON", "/dev/shm" if os.path.isdir("/dev/shm") else None))
try:
    status = main(room)
finally:
    shutil.rmtree(room, ignore_errors=True)
sys.exit(status)
PYTHON
