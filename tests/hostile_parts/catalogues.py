"""Catalogues that are cut or have a byte changed."""
import os
import re
import tomllib

from program import DATA, contents, each, run, written

EMP = "emp.1 north (id, name)\nemp.2 north (id, dept, pay) where dept < 10\nemp.3 south (id, dept, pay) where dept >= 10\n"
DEPT = "dept.1 north (no, title) where no < 10\ndept.2 south (no, title) where no >= 10\n"
# What comes of the first lines of each catalogue, so many of them. A cut inside of a line is no TOML.
AFTER_LINES_OF_EMPLOYEES = {
    **dict.fromkeys([0, 1, 2], "refused 2 Field"),
    **dict.fromkeys([3, 4, 5, 8, 9, 10, 13, 14], "refused 2 Field emp"),
    **dict.fromkeys([6, 7], "refused 8 ColumnLost emp"),
    **dict.fromkeys([11, 12], "refused 11 Gap emp dept = 10"),
    **dict.fromkeys([15, 16], f"accepted 2 sites 1 relations 3 fragments\n{EMP}"),
    **dict.fromkeys([17, 18, 19, 22, 23], "refused 2 Field dept"),
    **dict.fromkeys([20, 21], "refused 11 Gap dept no = 10"),
    24: f"accepted 2 sites 2 relations 5 fragments\n{DEPT}{EMP}",
}
AFTER_LINES_OF_ITEMS = {
    **dict.fromkeys([0, 1, 2], "refused 2 Field"),
    **dict.fromkeys([3, 4, 5, 8, 9], "refused 2 Field item"),
    **dict.fromkeys([6, 7], "refused 11 Gap item zone = 10"),
    10: "accepted 2 sites 1 relations 2 fragments\nitem.1 north (id, zone, label) where zone < 10\nitem.2 south (id, zone, label) where zone >= 10\n",
}


def wanted_of_cut(text, length, after_lines):
    """The status, the output and the errors of `check` of the first bytes of the catalogue."""
    lines = text.split(b"\n")
    # A cut in front of a line's end has that line too.
    begun = text[:length].split(b"\n")
    if begun[-1] and begun[-1] != lines[len(begun) - 1]:
        return 1, b"", b"refused 1 Toml\n"
    wanted = after_lines[len(begun) if begun[-1] else len(begun) - 1]
    return (0, wanted.encode(), b"") if wanted.startswith("accepted") else (1, b"", f"{wanted}\n".encode())


CATALOGUE_RULES = "Toml Field Name Twice NoSite KeyType ColumnTwice ColumnLost ColumnAbsent Type Gap Overlap Limit".split()
REFUSED_CATALOGUE = re.compile(r"^refused (\d+) (\w+)( [^ \n]+)?( [a-z][a-z0-9_]* = .+)?\n$")
ACCEPTED = re.compile(r"^accepted (\d+) sites (\d+) relations (\d+) fragments\n(([a-z][a-z0-9_]*\.\d+ [a-z][a-z0-9_]* \(.*\).*\n)*)$")


def is_toml(data):
    try:
        tomllib.loads(data.decode())
        return True
    except (tomllib.TOMLDecodeError, UnicodeDecodeError):
        return False


def fault_of_check(had, data):
    """What is wrong with what `check` says of a catalogue; nothing where all is well."""
    status, output, errors = had
    accepted, refused = ACCEPTED.match(output.decode()), REFUSED_CATALOGUE.match(errors.decode())
    if status == 0 and accepted and not errors and is_toml(data):
        return None if accepted[4].count("\n") == int(accepted[3]) else f"{had}"
    if status != 1 or not refused or output:
        return f"{had}"
    number, name = int(refused[1]), refused[2]
    is_named = 1 <= number <= len(CATALOGUE_RULES) and CATALOGUE_RULES[number - 1] == name
    has_row = bool(refused[4]) == (number in (11, 12))
    return None if is_named and has_row and (number == 1) == (not is_toml(data)) else f"{had}, {'' if is_toml(data) else 'no '}TOML"


def catalogue(room):
    return cut_and_changed(room, "item.toml", AFTER_LINES_OF_ITEMS) + cut_and_changed(room, "emp_and_dept.toml", AFTER_LINES_OF_EMPLOYEES)


def cut_and_changed(room, source, after_lines):
    text = contents(f"{DATA}/{source}")

    def checked(name, data):
        path = f"{room}/{name}.toml"
        written(path, data)
        had = run(["check", path])
        os.remove(path)
        return had

    def differs(length):
        had, wanted = checked(f"cut{length}", text[:length]), wanted_of_cut(text, length, after_lines)
        return None if had == wanted else f"{source} cut after {length} bytes: {had}, wanted {wanted}"

    def harmed_differs(place):
        found = []
        for byte in [0, *(text[place] ^ 1 << bit for bit in range(8))]:
            data = text[:place] + bytes([byte]) + text[place + 1 :]
            fault = fault_of_check(checked(f"at{place}", data), data)
            found.append(fault and f"{source} with byte {byte} at {place}: {fault}")
        return found

    return each(differs, range(len(text) + 1)) + [it for part in each(harmed_differs, range(len(text))) for it in part]
