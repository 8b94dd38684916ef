"""Statements that are cut or have a byte made 0."""
import importlib.machinery
import importlib.util
import os
import re
import sys

from program import DATA, TOP, contents, each, is_text, run, written

READ_RULES = {1: "TooLong", 2: "Character", 3: "Syntax", 4: "NoRelation", 5: "NoColumn", 6: "Ambiguous", 7: "Type", 8: "KeyColumn", 9: "JoinNotKey", 10: "Count", 11: "Limit"}
SHORT_ANSWER = re.compile(r"^(changed \d+|exists|overflow|begun|committed|rolled back|refused 1 NoTransaction|refused 2 Busy|refused 10 NoNext)$")
REFUSED = re.compile(r"^refused read (\d+) (\w+) at (\d+)$")
SCRIPT_LIMIT = 1_000_000


def rows_of_tests():
    loader = importlib.machinery.SourceFileLoader("rows", f"{TOP}/tests/run")
    rows = importlib.util.module_from_spec(importlib.util.spec_from_loader("rows", loader))
    sys.dont_write_bytecode = True
    loader.exec_module(rows)
    folder = f"{TOP}/tests/rows"
    return [row for name in sorted(os.listdir(folder)) for row in rows.rows_of(f"{folder}/{name}")]


def statements():
    """The distinct statements that rows of `solo` read, by the catalogue that they are over; b"" is the built-in one."""
    found = {}
    for row in rows_of_tests():
        for step in row.steps:
            if step.words[:1] != [b"solo"] or step.status == 2:
                continue
            text = b""
            if b"--catalog" in step.words:
                name = step.words[step.words.index(b"--catalog") + 1].decode()
                if name not in row.files and not os.path.exists(f"{DATA}/{name}"):
                    continue
                text = row.files.get(name)
                if text is None:
                    text = contents(f"{DATA}/{name}")
            for line in step.input.split(b"\n"):
                if line and line[:1] not in b"#." and is_text(line):
                    found.setdefault(text, {})[line] = None
    return {text: list(lines) for text, lines in found.items()}


def harmed(line):
    """Every beginning of a statement but the empty one, and each with one byte made 0: the text, and where the 0 byte is."""
    yield from ((line[:length], None) for length in range(1, len(line) + 1))
    yield from ((line[:place] + b"\0" + line[place + 1 :], place) for place in range(len(line)))


def fault_of(text, zero, answer):
    """What is wrong with the answer to a text; nothing where all is well."""
    refused = REFUSED.match(answer[0]) if len(answer) == 1 else None
    if refused:
        number, name, offset = int(refused[1]), refused[2], int(refused[3])
        if READ_RULES.get(number) != name or offset > len(text):
            return f"{answer}"
        # A 0 byte begins no token and stands in no text, so it is the last fault that the tokens can have.
        if zero is not None and not (number == 1 and offset == 4096 or number in (2, 11) and offset <= zero):
            return f"{answer}, with a 0 byte at {zero}"
        return None
    if zero is not None:
        return f"{answer}, with a 0 byte at {zero}"
    if len(answer) == 1 and SHORT_ANSWER.match(answer[0]):
        return None
    rows = len(answer) - 2
    if rows < 0 or answer[-1] != f"{rows} row{'' if rows == 1 else 's'}" or any(line.count("\t") != answer[0].count("\t") for line in answer[:-1]):
        return f"{answer}"
    return None


MARK = ".leaf mark.1"


def batches(texts):
    batch, size = [], 0
    for item in texts:
        more = len(item[0]) + len(MARK) + 2
        if size + more > SCRIPT_LIMIT:
            yield batch
            batch, size = [], 0
        batch.append(item)
        size += more
    yield batch


class Statements:
    def __init__(self, room):
        self.room, self.numbers = room, 0

    def words(self, catalogue_text):
        if not catalogue_text:
            return []
        self.numbers += 1
        path = f"{self.room}/{self.numbers}.toml"
        written(path, catalogue_text)
        return ["--catalog", path]

    def together(self, item):
        """Runs many texts in one script."""
        words, batch = item
        script = b"".join(text + b"\n" + MARK.encode() + b"\n" for text, _ in batch)
        status, output, errors = run(["solo", *words, "-"], script)
        answers = output.decode().split("no leaf mark.1\n")
        if errors or status not in (0, 1) or len(answers) != len(batch) + 1 or answers[-1]:
            return [f"solo: status {status}, {errors[:200]}, {len(answers) - 1} answers to {len(batch)} texts"]
        faults = [(text, fault_of(text, zero, answer.split("\n")[:-1] or [""])) for (text, zero), answer in zip(batch, answers)]
        found = [f"solo of {text!r}: {fault}" if fault else None for text, fault in faults]
        return found + self.planned(words, [(text, answer) for (text, zero), answer in zip(batch, answers) if zero is None][::100])

    def planned(self, words, texts):
        """What `plan` says otherwise than `solo` did."""
        found = []
        path = words[1] if words else f"{DATA}/item.toml"
        for text, answer in texts:
            status, output, errors = run(["plan", "--", path, text])
            lines = output.decode().split("\n")[:-1]
            is_command = re.match(rb"^\s*(begin|commit|rollback)\b", text, re.I)
            is_planned = status == 0 and not errors and lines and lines[-1] == f"{len(lines) - 1} fetch{'' if len(lines) == 2 else 'es'}"
            if answer.startswith("refused read "):
                found.append(None if (status, output, errors.decode()) == (1, b"", answer) else f"plan of {text!r}: {status} {output} {errors}, solo says {answer!r}")
            else:
                found.append(None if is_planned or is_command and status == 1 else f"plan of {text!r}: {status} {output} {errors}")
        return found

    def alone(self, item):
        """Runs a text that is no UTF-8, behind a statement that must not run."""
        words, text = item
        had = run(["solo", *words, "-"], b"SELECT a FROM b\n" + text + b"\n")
        return [None if had == (1, b"", b"fragdb: line 2\n") else f"solo of {text!r}: {had}"]


def statements_part(room):
    found, given = Statements(room), []
    unread = []
    for text, lines in statements().items():
        words = found.words(text)
        texts = {item: None for line in lines for item in harmed(line)}
        given += [(words, batch) for batch in batches(item for item in texts if is_text(item[0]))]
        unread += [(words, item[0]) for item in texts if not is_text(item[0])]
    some = unread[:: max(1, len(unread) // 60)]
    return [it for part in each(found.together, given) + each(found.alone, some) for it in part]
