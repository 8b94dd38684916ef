"""Stored parts whose bytes are cut or changed, and of leaves that aren't there."""
import os
import shutil
import sqlite3
import sys

from program import DAMAGED, DATA, contents, dumped, each, is_text, run, written


def read_part(data):
    """The values of a part's bytes, or the name of their first fault."""
    if not data:
        return "Truncated"
    if not 1 <= data[0] <= 16:
        return "BadTag"
    values, at = [], 1
    for place in range(data[0]):
        if at >= len(data):
            return "Truncated"
        if data[at] == 1:
            if at + 9 > len(data):
                return "Truncated"
            values.append(int.from_bytes(data[at + 1 : at + 9], "big", signed=True))
            at += 9
        elif data[at] == 2 and place:
            if at + 2 > len(data):
                return "Truncated"
            size, text = data[at + 1], data[at + 2 : at + 2 + data[at + 1]]
            if size > 200:
                return "BadText"
            if len(text) < size:
                return "Truncated"
            if not is_text(text) or any(byte < 0x20 or byte == 0x7F for byte in text):
                return "BadText"
            values.append(text.decode())
            at += 2 + size
        else:
            return "BadTag"
    return values if at == len(data) else "Trailing"


# Leaves that no relation of the employees' catalogue can have.
NO_LEAVES = ["", "emp", "emp.", "emp.0", "emp.33", "emp.01", "emp.1 ", "Emp.1", "emp.1\n", "emp.99999999999999999999", "zone.1", "dept.33"]
# Leaves that its relations can have, but that it puts at no site.
FREE_LEAVES = ["emp.4", "emp.32", "dept.3", "dept.32"]
BY_RUN = 10


def loaded(folder, lines):
    """Makes a folder of the employees' catalogue with these lines, and puts what SQLite keeps beside its files into them."""
    had = run(["solo", "--catalog", f"{DATA}/emp_and_dept.toml", "--dir", folder, "-"], "".join(f"{line}\n" for line in lines).encode())
    if had != (0, b"changed 1\n" * len(lines), b""):
        sys.exit(f"the program can't load: {had}")
    for name in ("north", "south", "desk"):
        dumped(f"{folder}/{name}.db")
        for end in ("-wal", "-shm"):
            if os.path.exists(f"{folder}/{name}.db{end}"):
                os.remove(f"{folder}/{name}.db{end}")


class Parts:
    """A folder of the employees' catalogue, in which one table `part` is changed."""

    def __init__(self, room):
        self.room, whole = room, f"{room}/whole"
        loaded(whole, ["INSERT INTO emp VALUES (1, 'Ada', 7, 100)", "INSERT INTO dept VALUES (12, 'dö''ck')"])
        self.files = {name: contents(f"{whole}/{name}") for name in os.listdir(whole)}

    def cases(self):
        """The site, the leaf and the columns of each part, and a change of its table, with the body that stands there then."""
        for site, leaf, names in (("north", "emp.1", "id\tname"), ("north", "emp.2", "id\tdept\tpay"), ("south", "dept.2", "no\ttitle")):
            base = sqlite3.connect(f"{self.room}/whole/{site}.db")
            key, body = base.execute("SELECT id, body FROM part WHERE leaf = ?", [leaf]).fetchone()
            base.close()
            turned = (body[:at] + bytes([body[at] ^ 1 << bit]) + body[at + 1 :] for at in range(len(body)) for bit in range(8))
            bodies = [body, *(body[:length] for length in range(len(body))), *turned, *(bytes([byte]) for byte in range(0, 256, 15))]
            yield from ((site, leaf, names, key, "body", it) for it in bodies)
            others = ["emp.3", "dept.2"] if site == "north" else ["emp.1", "emp.2", "dept.1"]
            yield from ((site, leaf, names, key, "leaf", it) for it in (*NO_LEAVES, *FREE_LEAVES, *others))

    def differs(self, numbered):
        number, (site, leaf, names, key, column, value) = numbered
        folder = f"{self.room}/{os.getpid()}"
        shutil.rmtree(folder, ignore_errors=True)
        os.makedirs(folder)
        for name, data in self.files.items():
            written(f"{folder}/{name}", data)
        base = sqlite3.connect(f"{folder}/{site}.db")
        base.execute(f"UPDATE part SET {column} = ? WHERE leaf = ?", [value, leaf])
        base.commit()
        base.close()
        before = contents(f"{folder}/{site}.db")
        had = run(["solo", "--catalog", f"{DATA}/emp_and_dept.toml", "--dir", folder, "-"], f".leaf {leaf}\n".encode())
        values = read_part(value) if column == "body" else "no leaf" if value in NO_LEAVES else []
        told = f"{leaf} with the {column} {value!r}, which is {values or 'another leaf'}"
        if values == [] or not isinstance(values, str) and values[0] == key:
            rows = "\n".join([names, *(["\t".join(map(str, values)), "1 row"] if values else ["0 rows"])])
            wanted = (0, f"{rows}\n".encode(), b"")
            return None if had == wanted else f"{told}: {had}, wanted {wanted}"
        if had == DAMAGED and number % BY_RUN == 0:
            had = run(["run", "--catalog", f"{DATA}/emp_and_dept.toml", "--dir", folder, "-"], b"a SELECT id FROM emp\n")
        if had != DAMAGED:
            return f"{told}: {had}, wanted {DAMAGED}"
        return None if self.is_kept(f"{folder}/{site}.db", before) else f"{told}: the file has changed"

    def is_kept(self, file, before):
        """Whether a file has what it had: byte by byte, or as SQLite reads it."""
        if contents(file) == before and not os.path.exists(f"{file}-wal"):
            return True
        written(f"{self.room}/before-{os.getpid()}", before)
        return dumped(file) == dumped(f"{self.room}/before-{os.getpid()}")


def parts(room):
    found = Parts(room)
    return each(found.differs, list(enumerate(found.cases())))
