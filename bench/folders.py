"""What a folder of stores holds, looked at by Python's sqlite3, and what relations are in fragments.

The scripts beside it use it: it computes by itself what each site has to keep of whole relations, byte by byte.
"""
import glob
import os
import sqlite3


def encode(values):
    """The bytes of a stored part."""
    made = bytes([len(values)])
    for value in values:
        if isinstance(value, int):
            made += b"\x01" + value.to_bytes(8, "big", signed=True)
        else:
            text = value.encode()
            made += b"\x02" + bytes([len(text)]) + text
    return made


def decode(body):
    """The values of a part that is whole."""
    values, at = [], 1
    while at < len(body):
        if body[at] == 1:
            values.append(int.from_bytes(body[at + 1 : at + 9], "big", signed=True))
            at += 9
        else:
            values.append(body[at + 2 : at + 2 + body[at + 1]].decode())
            at += 2 + body[at + 1]
    return values


class Leaf:
    """A fragment: its site, the places of its columns, the key first, and which rows it has a part of."""

    def __init__(self, name, site, columns, takes=lambda row: True):
        self.name, self.site, self.columns, self.takes = name, site, columns, takes
        self.relation = name.split(".")[0]

    def parts(self, relations):
        return {(self.name, row[0]): encode([row[place] for place in self.columns]) for row in relations[self.relation].values() if self.takes(row)}


# The employees and their departments, as crates/fragdb/data/emp_and_dept.toml splits them.
TWO_SITES = [
    Leaf("dept.1", "north", [0, 1], lambda row: row[0] < 10),
    Leaf("dept.2", "south", [0, 1], lambda row: row[0] >= 10),
    Leaf("emp.1", "north", [0, 1]),
    Leaf("emp.2", "north", [0, 2, 3], lambda row: row[2] < 10),
    Leaf("emp.3", "south", [0, 2, 3], lambda row: row[2] >= 10),
]

# The same over three sites.
THREE_SITES = [
    Leaf("dept.1", "north", [0, 1], lambda row: row[0] < 10),
    Leaf("dept.2", "west", [0, 1], lambda row: row[0] >= 10),
    Leaf("emp.1", "west", [0, 1]),
    Leaf("emp.2", "north", [0, 2, 3], lambda row: row[2] < 10),
    Leaf("emp.3", "south", [0, 2, 3], lambda row: row[2] >= 10),
]

THREE_SITES_TEXT = """sites = ["north", "south", "west"]

[relations.emp]
columns = ["id int", "name text", "dept int", "pay int"]
[[relations.emp.cols]]
of = ["name"]
site = "west"
[[relations.emp.cols]]
of = ["dept", "pay"]
[[relations.emp.cols.rows]]
where = "dept < 10"
site = "north"
[[relations.emp.cols.rows]]
where = "dept >= 10"
site = "south"

[relations.dept]
columns = ["no int", "title text"]
[[relations.dept.rows]]
where = "no < 10"
site = "north"
[[relations.dept.rows]]
where = "no >= 10"
site = "west"
"""


# The same over two sites, where the employees are split by rows alone: what comes next after TWO_SITES.
BY_ROWS = [
    *TWO_SITES[:2],
    Leaf("emp.1", "south", [0, 1, 2, 3], lambda row: row[2] < 10),
    Leaf("emp.2", "north", [0, 1, 2, 3], lambda row: row[2] >= 10),
]

BY_ROWS_TEXT = """sites = ["north", "south"]

[relations.emp]
columns = ["id int", "name text", "dept int", "pay int"]
[[relations.emp.rows]]
where = "dept < 10"
site = "south"
[[relations.emp.rows]]
where = "dept >= 10"
site = "north"

[relations.dept]
columns = ["no int", "title text"]
[[relations.dept.rows]]
where = "no < 10"
site = "north"
[[relations.dept.rows]]
where = "no >= 10"
site = "south"
"""


def content(leaves, relations):
    """All parts that the sites of these leaves keep of whole relations: {site: {(leaf, key): bytes}}."""
    made = {leaf.site: {} for leaf in leaves}
    for leaf in leaves:
        made[leaf.site].update(leaf.parts(relations))
    return made


def kept(folder):
    """What a folder keeps: {site: {(leaf, key): bytes}}, and how many rows are in doubt: those of other tables than `part`."""
    parts, in_doubt = {}, 0
    for file in sorted(glob.glob(f"{folder}/*.db")):
        base = sqlite3.connect(f"file:{file}?mode=rw", uri=True)
        try:
            if os.path.basename(file) == "desk.db":
                in_doubt += base.execute("SELECT count(*) FROM decided").fetchone()[0]
            else:
                site = os.path.basename(file).removesuffix(".db")
                parts[site] = {(leaf, key): body for leaf, key, body in base.execute("SELECT leaf, id, body FROM part")}
                for table in ("prepared", "intent"):
                    in_doubt += base.execute(f"SELECT count(*) FROM {table}").fetchone()[0]
        finally:
            base.close()
    return parts, in_doubt


def table(names, rows):
    """The lines by which rows are answered."""
    return ["\t".join(names), *("\t".join(map(str, row)) for row in rows), f"{len(rows)} row{'' if len(rows) == 1 else 's'}"]
