#!/usr/bin/env bash
# Takes databases that nobody wrote out as statements, and reads these into databases without rows: over the same catalogue, and
# over another one of the same relations. Each has to have equal relations, and the same dump again.
#
#   bench/dumps.sh [HOW MANY [FIRST SEED]]      300 from seed 1
#
# Relations have up to 2,500 rows, texts up to 60 characters with quotes, letters beyond ASCII and what a shell would take for
# something, integers up to both ends of 64 bits. Catalogues of chance have one to four sites, and each relation whole, split by rows,
# by columns, or by both.
# The program is crates/fragdb/out/fragdb, or the one that FRAGDB names. Ends with 1 where one dump gave something else.
set -u
cd "$(dirname "$0")/.."
exec python3 - "$@" <<'PYTHON'
import os
import random
import subprocess
import sys
import tempfile

HOW_MANY = int(sys.argv[1]) if len(sys.argv) > 1 else 300
FIRST = int(sys.argv[2]) if len(sys.argv) > 2 else 1
PROGRAM = os.environ.get("FRAGDB", "crates/fragdb/out/fragdb")
COLUMNS = {"item": ["id", "zone", "label"], "part": ["no", "size", "name"]}
SITES = ["north", "south", "east", "west"]
LETTERS = "abc xyz'\";,-#.\\|äé€𝄞"


def split_rows(chance, relation, sites, path):
    """A split by rows on the second column, into two to four pieces."""
    bounds = [None, *sorted(chance.sample(range(-50, 50), chance.randint(1, 3))), None]
    column, text = COLUMNS[relation][1], ""
    for low, high in zip(bounds, bounds[1:]):
        conds = ([f"{column} >= {low}"] if low is not None else []) + ([f"{column} < {high}"] if high is not None else [])
        text += f"[[{path}.rows]]\nwhere = \"{' AND '.join(conds)}\"\nsite = \"{chance.choice(sites)}\"\n"
    return text


def split(chance, relation, sites):
    path, (key, second, third) = f"relations.{relation}", COLUMNS[relation]
    text = f"[{path}]\ncolumns = [\"{key} int\", \"{second} int\", \"{third} text\"]\n"
    kind = chance.choice(["whole", "rows", "rows", "columns", "both"])
    if kind == "whole":
        return text + f"site = \"{chance.choice(sites)}\"\n"
    if kind == "rows":
        return text + split_rows(chance, relation, sites, path)
    text += f"[[{path}.cols]]\nof = [\"{third}\"]\nsite = \"{chance.choice(sites)}\"\n[[{path}.cols]]\nof = [\"{second}\"]\n"
    if kind == "columns":
        return text + f"site = \"{chance.choice(sites)}\"\n"
    return text + split_rows(chance, relation, sites, f"{path}.cols")


def catalogue(chance, path):
    sites = SITES[: chance.randint(1, 4)]
    with open(path, "w", encoding="utf-8") as it:
        it.write(f"sites = {sites}\n".replace("'", '"') + "".join(split(chance, relation, sites) for relation in sorted(COLUMNS)))


def rows_of(chance):
    """Rows by their keys."""
    ends = [-(2**63), 2**63 - 1, 0, -1]
    count = chance.choice([0, 1, 7, 60, 300, 1000, 1001, 2500])
    keys = {chance.choice(ends) if chance.random() < 0.01 else chance.randint(-5000, 5000) for _ in range(count)}
    number = lambda: chance.choice(ends) if chance.random() < 0.05 else chance.randint(-60, 60)
    text = lambda: "".join(chance.choice(LETTERS) for _ in range(chance.randint(0, 60) // chance.choice([1, 4])))
    return {key: (number(), text()) for key in keys}


def inserts(relation, rows):
    return [f"INSERT INTO {relation} VALUES ({key}, {rows[key][0]}, '{rows[key][1].replace(chr(39), 2 * chr(39))}')" for key in sorted(rows)]


def dump_of(relations):
    """What a dump has to be."""
    lines = []
    for relation in sorted(relations):
        texts = inserts(relation, relations[relation])
        for start in range(0, len(texts), 1000):
            lines += ["BEGIN", *texts[start : start + 1000], "COMMIT"]
    return "".join(f"{line}\n" for line in lines)


def run(words, text=""):
    ran = subprocess.run([PROGRAM, *words], input=text.encode(), capture_output=True)
    return ran.returncode, ran.stdout.decode(), ran.stderr.decode()


def check(seed, room):
    """What is wrong with the database of this seed; nothing, where it is right."""
    chance = random.Random(seed)
    relations = {relation: rows_of(chance) for relation in COLUMNS}
    one, other = f"{room}/one{seed}.toml", f"{room}/other{seed}.toml"
    catalogue(chance, one)
    catalogue(chance, other)
    lines = [f"{line}\n" for relation in relations for line in chance.sample(inserts(relation, relations[relation]), len(relations[relation]))]
    loaded = run(["solo", "--catalog", one, "--dir", f"{room}/first{seed}", "-"], "BEGIN\n" + "".join(lines) + "COMMIT\n")
    if loaded[0]:
        return f"loading ended with {loaded[0]}: {loaded[2]}"
    wanted = dump_of(relations)
    for place, name, source in [("first", one, None), ("second", one, wanted), ("third", other, wanted)]:
        words = ["--catalog", name, "--dir", f"{room}/{place}{seed}"]
        if source is not None:
            status, answers, errors = run(["solo", *words, "-"], source)
            refused = [line for line in answers.splitlines() if line not in ("begun", "changed 1", "committed")]
            if status or refused:
                return f"read into {place}: status {status} {errors} {refused[:1]}"
        status, dumped, errors = run(["dump", *words])
        if status or dumped != wanted:
            return f"the dump of {place}: status {status} {errors}{' and another text' if dumped != wanted else ''}"
    return None


def main():
    wrong = rows = 0
    with tempfile.TemporaryDirectory(dir="/dev/shm" if os.path.isdir("/dev/shm") else None) as room:
        for seed in range(FIRST, FIRST + HOW_MANY):
            found = check(seed, room)
            if found:
                wrong += 1
                print(f"seed {seed}: {found}")
            subprocess.run(["rm", "-rf", *(f"{room}/{it}{seed}" for it in ("first", "second", "third"))])
    print(f"{HOW_MANY} databases: {wrong} wrong")
    return 1 if wrong else 0


sys.exit(main())
PYTHON
