#!/usr/bin/env bash
# Runs scripts of sessions at once that nobody wrote, and looks for a serial order that explains what they were answered.
#
#   bench/sessions.sh [HOW MANY [FIRST SEED [WORDS..]]]      1,000 from seed 1, with no further words for `fragdb run`
#
# A script has two to eight sessions over two relations of a catalogue of chance, of one to four sites: lone statements, and
# transactions that are committed or rolled back. Few keys, so that sessions stand in each other's way. The order is looked for
# here, over whole relations and without fragments: each session's committed transactions stay in their order, each has
# to be answered as it was, and the relations at the end have to be those that were shown.
# The program is crates/fragdb/out/fragdb, or the one that FRAGDB names. Ends with 1 where one script has no such order.
set -u
cd "$(dirname "$0")/.."
exec python3 - "$@" <<'PYTHON'
import os
import random
import re
import subprocess
import sys
import tempfile

HOW_MANY = int(sys.argv[1]) if len(sys.argv) > 1 else 1000
FIRST = int(sys.argv[2]) if len(sys.argv) > 2 else 1
WORDS = sys.argv[3:]
PROGRAM = os.environ.get("FRAGDB", "crates/fragdb/out/fragdb")
COLUMNS = {"item": ["id", "zone", "label"], "part": ["no", "size", "name"]}
SITES = ["north", "south", "east", "west"]
COUNT = re.compile(r"^\d+ rows?$")


def split_rows(chance, relation, sites, path):
    """A split by rows on the second column, into two to four pieces."""
    cuts = sorted(chance.sample(range(1, 20), chance.randint(1, 3)))
    column = COLUMNS[relation][1]
    bounds = [None, *cuts, None]
    text = ""
    for low, high in zip(bounds, bounds[1:]):
        conds = ([f"{column} >= {low}"] if low is not None else []) + ([f"{column} < {high}"] if high is not None else [])
        text += f"[[{path}.rows]]\nwhere = \"{' AND '.join(conds)}\"\nsite = \"{chance.choice(sites)}\"\n"
    return text


def split(chance, relation, sites):
    path = f"relations.{relation}"
    key, second, third = COLUMNS[relation]
    text = f"[{path}]\ncolumns = [\"{key} int\", \"{second} int\", \"{third} text\"]\n"
    kind = chance.choice(["whole", "rows", "rows", "cols", "cols and rows"])
    if kind == "whole":
        return text + f"site = \"{chance.choice(sites)}\"\n"
    if kind == "rows":
        return text + split_rows(chance, relation, sites, path)
    text += f"[[{path}.cols]]\nof = [\"{third}\"]\nsite = \"{chance.choice(sites)}\"\n[[{path}.cols]]\nof = [\"{second}\"]\n"
    if kind == "cols":
        return text + f"site = \"{chance.choice(sites)}\"\n"
    return text + split_rows(chance, relation, sites, f"{path}.cols")


def catalogue(chance):
    sites = SITES[: chance.randint(1, 4)]
    names = ", ".join(f'"{site}"' for site in sites)
    return f"sites = [{names}]\n" + "".join(split(chance, relation, sites) for relation in sorted(COLUMNS))


class Statement:
    """A statement, as text and as what it does to whole relations."""

    def __init__(self, chance):
        self.relation = chance.choice(sorted(COLUMNS))
        self.kind = chance.choice(["insert", "insert", "select", "select", "update", "move", "delete"])
        self.column = chance.choice([0, 0, 0, 1])
        self.value = chance.randint(1, 6) if self.column == 0 else chance.randint(0, 20)
        self.size, self.name = chance.randint(0, 20), chance.choice("pqrs")

    def text(self):
        key, second, third = COLUMNS[self.relation]
        where = f"WHERE {COLUMNS[self.relation][self.column]} {'=' if self.column == 0 else '<'} {self.value}"
        return {
            "insert": f"INSERT INTO {self.relation} VALUES ({self.value if self.column == 0 else self.size}, {self.size}, '{self.name}')",
            "select": f"SELECT * FROM {self.relation} {where}",
            "update": f"UPDATE {self.relation} SET {third} = '{self.name}' {where}",
            "move": f"UPDATE {self.relation} SET {second} = {self.size} {where}",
            "delete": f"DELETE FROM {self.relation} {where}",
        }[self.kind]

    def meets(self, row):
        return row[0] == self.value if self.column == 0 else row[1] < self.value

    def run(self, whole):
        """What it answers, and the relations after it; whole: rows by relation and key, as a dictionary of dictionaries."""
        rows = whole[self.relation]
        if self.kind == "insert":
            key = self.value if self.column == 0 else self.size
            if key in rows:
                return ["exists"], whole
            return ["changed 1"], {**whole, self.relation: {**rows, key: (key, self.size, self.name)}}
        met = [key for key in sorted(rows) if self.meets(rows[key])]
        if self.kind == "select":
            return shown(self.relation, [rows[key] for key in met]), whole
        after = dict(rows)
        for key in met:
            if self.kind == "delete":
                del after[key]
            elif self.kind == "update":
                after[key] = (key, rows[key][1], self.name)
            else:
                after[key] = (key, self.size, rows[key][2])
        return [f"changed {len(met)}"], {**whole, self.relation: after}


def shown(relation, rows):
    lines = ["\t".join(COLUMNS[relation])] + ["\t".join(map(str, row)) for row in rows]
    return lines + [f"{len(rows)} row" + ("" if len(rows) == 1 else "s")]


def transactions(chance):
    """What a session says: lists of statements, each with how it ends; None is a lone statement."""
    said = []
    for _ in range(chance.randint(1, 5)):
        if chance.random() < 0.6:
            said.append(([Statement(chance)], None))
        else:
            said.append(([Statement(chance) for _ in range(chance.randint(1, 3))], chance.choice(["COMMIT", "COMMIT", "COMMIT", "ROLLBACK"])))
    return said


def commands(said):
    lines = []
    for statements, end in said:
        texts = [(statement, statement.text()) for statement in statements]
        lines += texts if end is None else [(None, "BEGIN"), *texts, (None, end)]
    return lines


def answers(lines, heard):
    """The answer to each command, each a list of lines."""
    given, place = [], 0
    for statement, _ in lines:
        length = 1
        if statement is not None and statement.kind == "select" and not heard[place].startswith(("aborted", "refused")):
            while not COUNT.match(heard[place + length - 1]) or length == 1:
                length += 1
        given.append(heard[place : place + length])
        place += length
    if place != len(heard):
        raise ValueError(f"{len(heard) - place} lines too many")
    return given


def committed(lines, given):
    """The committed transactions of a session: their statements and answers. And how many aborted. What follows an abort inside
    BEGIN are statements of their own."""
    done, current, aborts = [], None, 0
    for (statement, text), answer in zip(lines, given):
        if answer[0].startswith("aborted"):
            current, aborts = None, aborts + 1
        elif statement is not None:
            if current is None:
                done.append([(statement, answer)])
            else:
                current.append((statement, answer))
        elif answer == ["begun"]:
            current = []
        elif answer == ["committed"]:
            done.append(current)
            current = None
        elif answer == ["rolled back"]:
            current = None
        elif text == "BEGIN" or answer != ["refused 1 NoTransaction"]:
            raise ValueError(f"{text} was answered {answer}")
    return done, aborts


def after(transaction, whole):
    for statement, wanted in transaction:
        answer, whole = statement.run(whole)
        if answer != wanted:
            return None
    return whole


def frozen(whole):
    return tuple(tuple(sorted(whole[relation].values())) for relation in sorted(whole))


def has_order(sessions, end):
    """Whether some order of the sessions' transactions gives their answers and these relations at the end."""
    failed = set()

    def search(places, whole):
        if all(place == len(session) for place, session in zip(places, sessions)):
            return frozen(whole) == end
        state = (places, frozen(whole))
        if state in failed:
            return False
        for which, session in enumerate(sessions):
            if places[which] < len(session):
                then = after(session[places[which]], whole)
                if then is not None and search(places[:which] + (places[which] + 1,) + places[which + 1 :], then):
                    return True
        failed.add(state)
        return False

    return search((0,) * len(sessions), {relation: {} for relation in COLUMNS})


def relations_at(lines):
    """The relations that are shown at the end, as rows."""
    found = []
    for relation in sorted(COLUMNS):
        if lines[:2] != [relation, "\t".join(COLUMNS[relation])]:
            raise ValueError(f"{lines[:2]} in place of {relation}")
        size = next(place for place, line in enumerate(lines) if place > 1 and COUNT.match(line))
        found.append(tuple((int(key), int(second), third) for key, second, third in (line.split("\t") for line in lines[2:size])))
        lines = lines[size + 1 :]
    return tuple(found)


def check(seed, room):
    """Runs the script of a seed. How many transactions were committed, and how many aborted."""
    chance = random.Random(seed)
    with open(f"{room}/c.toml", "w", encoding="utf-8") as file:
        file.write(catalogue(chance))
    sessions = {f"s{number}": transactions(chance) for number in range(chance.randint(2, 8))}
    waiting = {name: [text for _, text in commands(said)] for name, said in sessions.items()}
    script = ""
    while waiting:
        name = chance.choice(sorted(waiting))
        script += f"{name} {waiting[name].pop(0)}\n"
        if not waiting[name]:
            del waiting[name]
    ran = subprocess.run([os.path.abspath(PROGRAM), "run", "--catalog", "c.toml", *WORDS, "-"], input=script, capture_output=True, text=True, cwd=room, timeout=120)
    lines = ran.stdout.splitlines()
    if ran.returncode != 0 or "weave yes" not in lines:
        raise ValueError(f"status {ran.returncode}: {ran.stderr}{ran.stdout}")
    end = len(lines) - 1 - lines[::-1].index("weave yes")
    done, aborts = [], 0
    for name, said in sessions.items():
        heard = [line[len(name) + 2 :] for line in lines[:end] if line.startswith(f"{name}: ")]
        mine, broken = committed(commands(said), answers(commands(said), heard))
        done.append(mine)
        aborts += broken
    if not has_order(done, relations_at(lines[end + 1 :])):
        raise ValueError("no serial order\n" + script + ran.stdout)
    return sum(map(len, done)), aborts


def main():
    all_committed = all_aborted = wrong = 0
    for seed in range(FIRST, FIRST + HOW_MANY):
        with tempfile.TemporaryDirectory() as room:
            try:
                committed_now, aborted_now = check(seed, room)
                all_committed += committed_now
                all_aborted += aborted_now
            except Exception as why:
                wrong += 1
                print(f"seed {seed}: {why}")
    print(f"{HOW_MANY} scripts: {all_committed} transactions committed, {all_aborted} aborted; {wrong} scripts without a serial order")
    return 1 if wrong else 0


sys.exit(main())
PYTHON
