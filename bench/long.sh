#!/usr/bin/env bash
# A long life: what a session of very many statements holds in memory, and sessions at once with very many statements.
#
#   bench/long.sh [PART [HOW MANY]]      both parts, without words
#
#   session   a million statements (or HOW MANY) from a pipe to `fragdb solo --interactive -`, over lists, then a tenth of
#             them over SQLite in memory: INSERT, UPDATE and DELETE over 1,000 keys. A script has at most 1,048,576 bytes,
#             so this many statements need a session. Each answer, and the relation at the end, are compared with those
#             worked out here. It fails where the resident memory at the end is more than 1.2 times what it was after the
#             first tenth.
#   run       64 sessions of 1,000 statements (or HOW MANY) in `fragdb run`, on 16 sites, with relations over two sites
#             each. It fails where they don't end with `weave yes`.
#
# The program is crates/fragdb/out/fragdb, or the one that FRAGDB names. `run` takes some gigabytes.
set -u
cd "$(dirname "$0")/.."
exec python3 - "$@" <<'PYTHON'
import os
import random
import resource
import string
import subprocess
import sys
import tempfile
import time

PROGRAM = os.path.abspath(os.environ.get("FRAGDB", "crates/fragdb/out/fragdb"))
PART = sys.argv[1] if len(sys.argv) > 1 else "all"
HOW_MANY = int(sys.argv[2]) if len(sys.argv) > 2 else None
KEYS, CHUNK, MOST_GROWTH, SECONDS = 1000, 1000, 1.2, 3600
SCRIPT_LIMIT = 1_048_576


def resident(process):
    with open(f"/proc/{process.pid}/status", encoding="ascii") as file:
        return next(int(line.split()[1]) for line in file if line.startswith("VmRSS:"))


class Session:
    """A session, and the relation that it has by what is worked out here."""

    def __init__(self, *words):
        self.chance, self.rows = random.Random(1), {}
        self.process = subprocess.Popen([PROGRAM, "solo", "--interactive", *words, "-"], stdin=subprocess.PIPE, stdout=subprocess.PIPE, stderr=subprocess.PIPE)
        self.heard(1)

    def heard(self, prompts):
        """What is printed until so many prompts came."""
        had = b""
        while had.count(b"fragdb> ") < prompts:
            more = os.read(self.process.stdout.fileno(), 65536)
            if not more:
                raise SystemExit(f"the session ended: {had[-300:]} {self.process.stderr.read()}")
            had += more
        return had.replace(b"fragdb> ", b"").decode()

    def ask(self, text):
        os.write(self.process.stdin.fileno(), text.encode())

    def statement(self):
        """A statement of chance, and its answer."""
        key, zone, roll = self.chance.randint(1, KEYS), self.chance.randint(0, 20), self.chance.random()
        label = self.chance.choice("pqrs") * self.chance.randint(0, 20)
        if roll < 0.4:
            if key in self.rows:
                return f"INSERT INTO item VALUES ({key}, {zone}, '{label}')", "exists"
            self.rows[key] = (key, zone, label)
            return f"INSERT INTO item VALUES ({key}, {zone}, '{label}')", "changed 1"
        is_there = key in self.rows
        if roll < 0.8:
            if is_there:
                self.rows[key] = (key, zone, label)
            return f"UPDATE item SET zone = {zone}, label = '{label}' WHERE id = {key}", f"changed {int(is_there)}"
        self.rows.pop(key, None)
        return f"DELETE FROM item WHERE id = {key}", f"changed {int(is_there)}"

    def run(self, count):
        first = None
        for done in range(0, count, CHUNK):
            pairs = [self.statement() for _ in range(CHUNK)]
            self.ask("".join(f"{text}\n" for text, _ in pairs))
            had = self.heard(CHUNK)
            if had != "".join(f"{answer}\n" for _, answer in pairs):
                raise SystemExit(f"statements {done} to {done + CHUNK} were answered otherwise")
            if first is None and done + CHUNK >= count // 10:
                first = resident(self.process)
        last = resident(self.process)
        self.ask(".mode tabs\n.show item\n")
        rows = "".join("\t".join(map(str, row)) + "\n" for _, row in sorted(self.rows.items()))
        wanted = f"id\tzone\tlabel\n{rows}{len(self.rows)} rows\n"
        had = self.heard(2)
        if had != wanted:
            raise SystemExit(f"the relation at the end is {had[:300]}.., and {wanted[:300]}.. is wanted")
        self.process.stdin.close()
        self.process.wait(SECONDS)
        return first, last


def session(words, count):
    began = time.monotonic()
    first, last = Session(*words).run(count)
    is_wrong = last > MOST_GROWTH * first
    print(f"session {' '.join(words) or 'over lists'}: {count} statements in {time.monotonic() - began:.0f} s; {first / 1024:.1f} MiB after the first tenth, {last / 1024:.1f} at the end{', TOO MUCH' if is_wrong else ''}", flush=True)
    return is_wrong


def script(count):
    """64 sessions of so many short statements, four of them on each of 16 relations, in transactions of four."""
    names = [*string.ascii_letters, *(f"z{letter}" for letter in "abcdefghijkl")]
    turns = []
    for place, name in enumerate(names):
        relation, lines = string.ascii_lowercase[place % 16], []
        for number in range(count):
            step, turn = number % 4, number // 4
            lines.append(["BEGIN", f"INSERT INTO {relation} VALUES({turn % 10})", f"SELECT k FROM {relation}" if turn % 2 else f"DELETE FROM {relation}", "COMMIT"][step])
        turns.append([f"{name} {line}\n" for line in lines])
    return "".join(line for lines in zip(*turns) for line in lines)


def catalogue():
    sites = ", ".join(f'"s{number}"' for number in range(16))
    relations = "".join(
        f'[relations.{relation}]\ncolumns = ["k int"]\n[[relations.{relation}.rows]]\nwhere = "k < 5"\nsite = "s{number}"\n[[relations.{relation}.rows]]\nwhere = "k >= 5"\nsite = "s{(number + 1) % 16}"\n'
        for number, relation in enumerate(string.ascii_lowercase[:16])
    )
    return f"sites = [{sites}]\n{relations}"


def run(count):
    with tempfile.TemporaryDirectory() as room:
        with open(f"{room}/c.toml", "w", encoding="ascii") as file:
            file.write(catalogue())
        text = script(count)
        if len(text) > SCRIPT_LIMIT:
            raise SystemExit(f"the script has {len(text)} bytes")
        with open(f"{room}/script", "w", encoding="ascii") as file:
            file.write(text)
        began = time.monotonic()
        ran = subprocess.run([PROGRAM, "run", "--catalog", f"{room}/c.toml", f"{room}/script"], capture_output=True, text=True, timeout=SECONDS)
        took = time.monotonic() - began
    lines = ran.stdout.splitlines()
    is_wrong = ran.returncode != 0 or "weave yes" not in lines or bool(ran.stderr)
    counts = {word: sum(line.partition(": ")[2].startswith(word) for line in lines) for word in ("committed", "changed", "aborted", "refused")}
    most = resource.getrusage(resource.RUSAGE_CHILDREN).ru_maxrss / 2**20
    print(
        f"run: 64 sessions of {count} statements in {took:.0f} s, {', '.join(f'{number} {word}' for word, number in counts.items())}; {most:.1f} GiB at the most"
        + (f"; WRONG: status {ran.returncode}, {ran.stderr}{[line for line in lines if line.startswith('weave')]}" if is_wrong else "; weave yes"),
        flush=True,
    )
    return is_wrong


wrong = []
if PART in ("all", "run"):
    wrong.append(run(HOW_MANY or 1000))
if PART in ("all", "session"):
    wrong.append(session([], HOW_MANY or 1_000_000))
    wrong.append(session(["--sqlite"], (HOW_MANY or 1_000_000) // 10))
sys.exit(1 if any(wrong) else 0)
PYTHON
