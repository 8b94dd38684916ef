#!/usr/bin/env bash
# What a statement by key costs one client where its stores are files of a folder, and what forcing costs.
#
# In one run: statements of each kind over lists, over SQLite in memory, over a folder, and over one file of SQLite in
# autocommit, by Python's own sqlite3, on the same disk; over PostgreSQL too, where its programs are there: a cluster of its
# own on that disk, each statement a transaction, by psql. How many times the program forces for a statement is counted by
# strace, where that is there. It fails
# - where an INSERT costs more than so many times what it costs in the one file of SQLite as it forces, and a tenth;
# - where a statement of a kind costs more over 20,000 rows in a folder than 1.3 times what it costs over 2,500;
# - where a folder of 100,000 rows isn't opened and closed in a second, or a session over it has taken more memory by the time
#   it is open than 4 MiB above what one over a folder without rows has. No row is prepared in either, and its sites' files
#   have 6.4 MiB, so whatever holds them whole is seen.
# Each time is the least of five, and what is compared is timed in turn; where a limit isn't met five more are taken, and again.
#
# usage: bench/files.sh [PROGRAM]      (default: crates/fragdb/out/fragdb, which `rt run` in crates/fragdb makes)
set -eu
top=$(cd "$(dirname "$0")/.." && pwd)
exec python3 - "$top" "$@" <<'PYTHON'
import glob
import os
import pwd
import re
import shutil
import signal
import sqlite3
import subprocess
import sys
import tempfile
import time

TOP, WORDS = sys.argv[1], sys.argv[2:]
PROGRAM = WORDS[0] if WORDS else f"{TOP}/crates/fragdb/out/fragdb"
KINDS = ("insert", "select", "update", "move", "delete")
SIZES, COUNTED, MOST_GROWTH = (2500, 20000), 500, 1.3
# What a statement may take more before it counts as growth, in milliseconds: a disk waits now longer, now shorter.
NOISE = 0.2
MANY, MOST_SECONDS, MOST_MEBIBYTES = 100000, 1.0, 4.0
# How often each time is taken, the least counting, since other work on the machine only adds to it.
ROUNDS = 5
# How many times the protocol forces for an INSERT of its own, where strace isn't there to count it: the prepared row, the commit
# row, the row that is applied, and the commit row that goes.
FORCES = 4


def statement(kind, turn):
    if kind == "insert":
        return f"INSERT INTO item VALUES ({2000000 + turn}, {turn % 20}, 'n{turn}')"
    if kind == "select":
        return f"SELECT label FROM item WHERE id = {turn}"
    if kind == "update":
        return f"UPDATE item SET label = 'u{turn}' WHERE id = {turn}"
    if kind == "move":
        return f"UPDATE item SET zone = {(turn + 10) % 20} WHERE id = {turn}"
    return f"DELETE FROM item WHERE id = {turn}"


def script(room, lines):
    path = f"{room}/script"
    with open(path, "w", encoding="ascii") as it:
        it.write("".join(f"{line}\n" for line in lines))
    return path


def ran(*words):
    started = time.perf_counter()
    subprocess.run([PROGRAM, "solo", *words], stdout=subprocess.DEVNULL, check=True)
    return time.perf_counter() - started


def part_body(*values):
    """The bytes of a stored part."""
    made = bytes([len(values)])
    for value in values:
        if isinstance(value, int):
            made += b"\x01" + value.to_bytes(8, "big", signed=True)
        else:
            text = value.encode()
            made += b"\x02" + bytes([len(text)]) + text
    return made


def filled(room, rows):
    """A folder of so many rows, which the program has made and SQL has filled."""
    folder = f"{room}/filled{rows}"
    if not os.path.exists(folder):
        ran("--dir", folder, script(room, []))
        for site, leaf, low in (("north", "item.1", 0), ("south", "item.2", 10)):
            base = sqlite3.connect(f"{folder}/{site}.db")
            put = [(leaf, key, part_body(key, key % 20, f"r{key}")) for key in range(rows) if low <= key % 20 < low + 10]
            base.executemany("INSERT INTO part VALUES (?, ?, ?)", put)
            base.commit()
            base.close()
    copy = f"{room}/copy"
    shutil.rmtree(copy, ignore_errors=True)
    shutil.copytree(folder, copy)
    return copy


class Least:
    """The least that each of some functions has answered. They are asked in turn, so that other work on the machine falls on all alike."""

    def __init__(self, *functions):
        self.functions, self.found = functions, [1e9] * len(functions)
        self.ask()

    def ask(self):
        for _ in range(ROUNDS):
            self.found = [min(had, function()) for had, function in zip(self.found, self.functions)]

    def until(self, is_met):
        """Whether a limit is met; where it isn't they are asked more often first."""
        for _ in range(2):
            if not is_met():
                self.ask()
        return is_met()


def in_folder(room, rows, lines):
    """Seconds for a script over a folder of so many rows."""
    return ran("--dir", filled(room, rows), script(room, lines))


def each(room, kind, *where):
    """Milliseconds for a statement of a kind where there is no row yet, less what it takes to open the database."""
    return a_statement(*Least(*[lambda lines=lines: ran(*where, script(room, lines)) for lines in ([], statements(kind))]).found)


def statements(kind):
    return [statement(kind, turn) for turn in range(COUNTED)]


def a_statement(opened, done):
    """Milliseconds for a statement, by the seconds of a script without and with all of them."""
    return max(done - opened, 0) / COUNTED * 1e3


def autocommit(room, rows, kind):
    """Milliseconds for a statement over one file of SQLite, each a transaction of its own."""
    path = f"{room}/one.db"
    if os.path.exists(path):
        os.remove(path)
    base = sqlite3.connect(path, isolation_level=None)
    base.execute("PRAGMA journal_mode = WAL")
    base.execute("PRAGMA synchronous = FULL")
    base.execute("CREATE TABLE item (id INTEGER PRIMARY KEY, zone INTEGER, label TEXT)")
    base.execute("BEGIN")
    base.executemany("INSERT INTO item VALUES (?, ?, ?)", [(key, key % 20, f"r{key}") for key in range(rows)])
    base.execute("COMMIT")
    started = time.perf_counter()
    for turn in range(COUNTED):
        base.execute(statement(kind, turn)).fetchall()
    return (time.perf_counter() - started) / COUNTED * 1e3


class Postgres:
    """PostgreSQL over a cluster of its own on the disk of `room`, which syncs; `bin` is none where its programs aren't there."""

    def __init__(self, room):
        folders = [*sorted(glob.glob("/usr/lib/postgresql/*/bin"), key=len), os.path.dirname(shutil.which("initdb") or "")]
        self.bin = next((it for it in folders[::-1] if all(os.access(f"{it}/{name}", os.X_OK) for name in ("initdb", "postgres", "psql"))), None)
        self.room, self.server = f"{room}/postgres", None

    def __enter__(self):
        if not self.bin:
            print("PostgreSQL isn't there, so it is left out", flush=True)
            return self
        os.mkdir(self.room)
        how = {"stdout": subprocess.DEVNULL, "stderr": subprocess.DEVNULL}
        if os.getuid() == 0:
            # The server doesn't run as root.
            user = pwd.getpwnam("postgres" if any(it.pw_name == "postgres" for it in pwd.getpwall()) else "nobody")
            os.chown(self.room, user.pw_uid, user.pw_gid)
            os.chmod(os.path.dirname(self.room), 0o711)
            how |= {"user": user.pw_uid, "group": user.pw_gid, "extra_groups": [], "cwd": self.room, "env": {**os.environ, "HOME": self.room}}
        subprocess.run([f"{self.bin}/initdb", "-D", f"{self.room}/data", "-U", "bench", "-A", "trust", "-E", "UTF8", "--locale=C"], check=True, **how)
        settings = ["listen_addresses=", f"unix_socket_directories={self.room}", "fsync=on", "synchronous_commit=on", "autovacuum=off", "client_min_messages=warning"]
        self.server = subprocess.Popen([f"{self.bin}/postgres", "-D", f"{self.room}/data", *[word for it in settings for word in ("-c", it)]], **how)
        for _ in range(200):
            if self.psql("SELECT 1", is_checked=False):
                self.version = re.search(r"[\d.]+", subprocess.run([f"{self.bin}/postgres", "--version"], stdout=subprocess.PIPE, check=True, text=True).stdout)[0]
                return self
            time.sleep(0.1)
        raise SystemExit("PostgreSQL doesn't start")

    def __exit__(self, *_):
        if self.server:
            self.server.send_signal(signal.SIGINT)
            self.server.wait()

    def psql(self, text, is_checked=True):
        """Has psql give these lines to the server, each a transaction of its own, and tells whether all were done."""
        words = [f"{self.bin}/psql", "-X", "-q", "-v", "ON_ERROR_STOP=1", "-h", self.room, "-U", "bench", "-d", "postgres", "-f", "-"]
        ran = subprocess.run(words, input=text.encode(), stdout=subprocess.DEVNULL, stderr=None if is_checked else subprocess.DEVNULL, check=is_checked, cwd="/")
        return ran.returncode == 0

    def each(self, rows, kind):
        """Milliseconds for a statement of a kind, less what it takes to start psql."""
        return a_statement(*Least(lambda: self.seconds(rows, []), lambda: self.seconds(rows, statements(kind))).found)

    def seconds(self, rows, lines):
        """Seconds for these statements over a table of so many rows."""
        self.psql(
            "DROP TABLE IF EXISTS item;\nCREATE TABLE item (id INT PRIMARY KEY, zone INT, label TEXT);\n"
            f"INSERT INTO item SELECT k, k % 20, 'r' || k FROM generate_series(0, {rows - 1}) AS of (k);\nANALYZE item;\n"
        )
        started = time.perf_counter()
        self.psql("".join(f"{line};\n" for line in lines))
        return time.perf_counter() - started


def forces(room, kind):
    """How many times a statement forces a file to the disk, by strace; none where that isn't there."""
    if not shutil.which("strace"):
        return None
    counts = []
    for lines in ([], [statement(kind, 0)]):
        folder = filled(room, 2500)
        words = ["strace", "-f", "-c", "-e", "trace=fsync,fdatasync", PROGRAM, "solo", "--dir", folder, script(room, lines)]
        told = subprocess.run(words, stdout=subprocess.DEVNULL, stderr=subprocess.PIPE, text=True).stderr
        counts.append(sum(int(line.split()[3]) for line in told.splitlines() if re.search(r"\bf(data)?sync$", line)))
    return counts[1] - counts[0]


def most_memory(folder):
    """The most memory that a session over a folder has taken when it is open, in MiB."""
    words = [PROGRAM, "solo", "--interactive", "--dir", folder]
    with subprocess.Popen(words, stdin=subprocess.PIPE, stdout=subprocess.PIPE, stderr=subprocess.DEVNULL) as it:
        had = b""
        while not had.endswith(b"fragdb> "):
            more = os.read(it.stdout.fileno(), 65536)
            if not more:
                raise SystemExit(f"the session over {folder} ended")
            had += more
        with open(f"/proc/{it.pid}/status", encoding="ascii") as status:
            most = next(int(line.split()[1]) for line in status if line.startswith("VmHWM:"))
        it.stdin.close()
        it.stdout.read()
    return most / 1024


def measured(room, kind, postgres):
    """Tells what a statement of a kind costs, and whether its limits are met."""
    few, many, lines = *SIZES, statements(kind)
    ways = [lambda rows=rows, some=some: in_folder(room, rows, some) for rows in (few, many) for some in ([], lines)]
    times = Least(*ways, lambda: autocommit(room, few, kind))
    costs = lambda: (a_statement(*times.found[:2]), a_statement(*times.found[2:4]), times.found[4])
    count = forces(room, kind)
    most = 1.1 * (FORCES if count is None else count)
    is_flat = times.until(lambda: costs()[1] <= max(costs()[0] * MOST_GROWTH, costs()[0] + NOISE))
    is_cheap = kind != "insert" or times.until(lambda: costs()[0] <= most * costs()[2])
    (small, large, one), in_memory, lists = costs(), each(room, kind, "--sqlite"), each(room, kind)
    by_postgres = f"; PostgreSQL {postgres.version} {postgres.each(few, kind):.3f}" if postgres.bin else ""
    print(
        f"{kind:6}  a folder {small:.3f} ms over {few} rows, {large:.3f} over {many}, {large / max(small, 0.001):.2f} times"
        f"{'' if is_flat else ' TOO MUCH'}; forces {count if count is not None else '?'};"
        f" one file of sqlite3 {one:.3f}{by_postgres}; SQLite in memory, empty {in_memory:.3f}; lists {lists:.3f}",
        flush=True,
    )
    if kind == "insert":
        counted = f"it forces {count} times" if count is not None else f"strace isn't there; the protocol forces {FORCES} times"
        print(f"        {small / one:.2f} times what sqlite3 takes; {counted}, so at most {most:.1f} times{'' if is_cheap else ': TOO DEAR'}", flush=True)
    return is_flat and is_cheap


def opened(room):
    """Tells what the opening of a folder with many rows costs, and whether its limits are met."""
    times = Least(lambda: in_folder(room, MANY, []))
    is_quick = times.until(lambda: times.found[0] <= MOST_SECONDS)
    took = times.found[0]
    few, many = (most_memory(filled(room, rows)) for rows in (0, MANY))
    is_small = many <= few + MOST_MEBIBYTES
    print(f"open    {MANY} rows {took:.2f} s{'' if is_quick else ' TOO LONG'}; {many:.1f} MiB at the most, and {few:.1f} without rows{'' if is_small else ': TOO MUCH'}")
    return is_quick and is_small


def main(room):
    with Postgres(room) as postgres:
        met = [measured(room, kind, postgres) for kind in KINDS]
    return all([*met, opened(room)])


room = tempfile.mkdtemp(prefix="files-", dir=os.environ.get("FILES_ON", None))
try:
    is_met = main(room)
finally:
    shutil.rmtree(room, ignore_errors=True)
sys.exit(0 if is_met else 1)
PYTHON
