#!/usr/bin/env bash
# Tries the wrong bodies under edits/, which the gate does not: the check of their crate must refuse each.
# Edits of functions of which none calls another are tried together, since each function is proved over the
# contracts of the others alone; what such a check leaves open is tried by itself. It works on a copy, over the
# work that earlier checks kept, so check the crate first. Where all edits of a crate were refused, edits/TRIED
# gets the checksum of what they were tried on, and .ci/run fails where that is another one.
#
#   bench/edits.sh [CRATE[/NAME] ..]      without words: the crates whose record is missing, of another text, or `untried`
#   bench/edits.sh --recorded             tries nothing: fails where a crate's record is missing or of another text, and
#                                         names the crates that stand there as `untried`
set -u
cd "$(dirname "$0")/.."
exec python3 - "$@" <<'PYTHON'
import hashlib
import os
import re
import shutil
import subprocess
import sys
import tempfile

TRIED, TOGETHER = "edits/TRIED", 12
FUNCTION = re.compile(r"^\s*(?:pub(?:\(\w+\))?\s+)?(?:const\s+)?fn\s+(\w+)", re.M)


class Edit:
    """A wrong body: the file that it changes, its pairs of texts, and the function that it stands in."""

    def __init__(self, crate, name):
        self.crate, self.path, self.file, self.pairs = crate, f"edits/{crate}/{name}", None, []
        with open(self.path, encoding="utf-8") as it:
            for line in it.read().splitlines():
                key, _, text = line.partition(": ")
                if key == "file":
                    self.file = text
                elif key == "old":
                    self.pairs.append([text, ""])
                elif key == "new":
                    self.pairs[-1][1] = text
        with open(f"crates/{crate}/{self.file}", encoding="utf-8") as it:
            self.functions, self.body = self.around(it.read())

    def around(self, text):
        """The functions that the edit changes, and their text; none where it changes something else."""
        begins = [(it.start(), it.group(1)) for it in FUNCTION.finditer(text)]
        names, bodies = set(), ""
        for old, _ in self.pairs:
            at = text.find(old)
            before = [number for number, (begin, _) in enumerate(begins) if begin <= at + len(old) - len(old.lstrip())]
            if at < 0 or not before or not self.file.startswith("src/"):
                return set(), ""
            number = before[-1]
            end = begins[number + 1][0] if number + 1 < len(begins) else len(text)
            if "\n}\n" in text[begins[number][0] : at] and not text[begins[number][0] : at].rstrip().endswith(","):
                return set(), ""
            names.add(begins[number][1])
            bodies += text[begins[number][0] : end]
        return names, bodies

    def is_beside(self, other):
        """Whether a check of both tells of each: neither function is the other, or calls it."""
        if not self.functions or not other.functions or self.functions & other.functions:
            return False
        return not any(re.search(rf"\b{name}\b", one.body) for one, two in ((self, other), (other, self)) for name in two.functions)

    def apply(self, top):
        """Changes the crate's file below a folder, and returns whether each old text stood there once."""
        place = f"{top}/crates/{self.crate}/{self.file}"
        with open(place, encoding="utf-8") as it:
            text = it.read()
        for old, new in self.pairs:
            if text.count(old) != 1:
                return False
            text = text.replace(old, new)
        with open(place, "w", encoding="utf-8") as it:
            it.write(text)
        return True

    def told(self, lines):
        """The line by which a check of several edits refuses this one, if it does; that a callee isn't proved tells nothing."""
        module = "::".join([self.crate, *self.file.removeprefix("src/").removesuffix(".rt").split("/")]).removesuffix("::lib").removesuffix("::main")
        names = "|".join(self.functions)
        own = re.compile(rf"fn {module}::(?:.*::)?(?:{names})(?:[:+].*)?: (?:not proved(?!; it calls)|no proof: expected answers)")
        return next((it for it in lines if own.match(it)), None)


def edits_of(crate):
    return [Edit(crate, name) for name in sorted(os.listdir(f"edits/{crate}")) if name.endswith(".edit")]


def crates():
    return [name for name in sorted(os.listdir("edits")) if os.path.isdir(f"edits/{name}")]


def text_sum(crate):
    """The checksum of the crate's sources and definitions, and of its edits."""
    sums = hashlib.sha256()
    for top in (f"crates/{crate}/src", f"crates/{crate}/specs", f"edits/{crate}"):
        for folder, folders, names in os.walk(top):
            folders.sort()
            for name in sorted(names):
                with open(f"{folder}/{name}", "rb") as it:
                    sums.update(f"{folder}/{name}\n".encode() + hashlib.sha256(it.read()).digest())
    return sums.hexdigest()


def recorded():
    if not os.path.exists(TRIED):
        return {}
    with open(TRIED, encoding="utf-8") as it:
        return dict(line.split() for line in it if line.strip() and not line.startswith("#"))


def record(crate, told):
    found = recorded()
    found[crate] = told
    with open(TRIED, "w", encoding="utf-8") as it:
        it.write("# The text at which each crate's edits were all seen refused (bench/edits.sh); untried: not all of them yet.\n")
        it.writelines(f"{name} {found[name]}\n" for name in sorted(found) if name in crates())


def copied(room, wanted):
    """Copies these crates and those below them, which alone a check of theirs reads."""
    with open("crates.txt", encoding="utf-8") as it:
        lines = {line.partition(":")[0].split()[0]: line for line in it if line.strip()}
    found, todo = set(), set(wanted)
    while todo:
        found |= todo
        todo = {below for crate in todo for below in lines[crate].partition(":")[2].split() if below in lines} - found
    os.makedirs(f"{room}/.git")
    for crate in found:
        shutil.copytree(f"crates/{crate}", f"{room}/crates/{crate}", symlinks=True)
    with open(f"{room}/crates.txt", "w", encoding="utf-8") as it:
        it.writelines(lines[crate] for crate in lines if crate in found)
    if os.path.exists("HANDLES"):
        shutil.copy("HANDLES", room)


def check(room, some):
    """Checks the crate with these edits: its status and what it says, or None where one can't be applied."""
    kept = {it.file: open(f"{room}/crates/{it.crate}/{it.file}", encoding="utf-8").read() for it in some}
    try:
        if not all([it.apply(room) for it in some]):
            return None, []
        ran = subprocess.run(["rt", "check", "--jobs", "1"], cwd=f"{room}/crates/{some[0].crate}", stdout=subprocess.PIPE, stderr=subprocess.STDOUT, text=True)
        return ran.returncode, ran.stdout.splitlines()
    finally:
        for file, text in kept.items():
            with open(f"{room}/crates/{some[0].crate}/{file}", "w", encoding="utf-8") as it:
                it.write(text)


def try_alone(room, edit):
    status, lines = check(room, [edit])
    if status is None:
        return False, "cannot be applied: an old text does not stand there once"
    why = next((it for it in lines if "not proved" in it or ": error" in it), "it is still proved" if status == 0 else f"the check ended with status {status}")
    return status == 1 and any(it.startswith("logic=not-proved") for it in lines), why


def try_all(room, some):
    """Tries edits together while one check can tell of each, and the rest by themselves."""
    left = list(some)
    while left:
        group = []
        for edit in left:
            if len(group) < TOGETHER and all(edit.is_beside(it) for it in group):
                group.append(edit)
        left = [it for it in left if it not in group]
        if len(group) > 1:
            status, lines = check(room, group)
            is_read = status == 1 and any(it.startswith("logic=not-proved") for it in lines)
            for edit in list(group):
                why = edit.told(lines) if is_read else None
                if why:
                    group.remove(edit)
                    yield edit, True, why
        for edit in group:
            yield edit, *try_alone(room, edit)


def is_well(crate, some):
    before, failed, room = text_sum(crate), 0, tempfile.mkdtemp(prefix="edits-")
    try:
        copied(f"{room}/it", {crate})
        for edit, well, why in try_all(f"{room}/it", some):
            failed += not well
            print(f"{edit.path}: {'refused' if well else 'NOT REFUSED'}: {why[:180]}", flush=True)
    finally:
        shutil.rmtree(room, ignore_errors=True)
    print(f"{crate}: {len(some) - failed} refused, {failed} not", flush=True)
    if not failed and len(some) == len(edits_of(crate)):
        record(crate, before)
    return not failed


def stale():
    found = recorded()
    return [crate for crate in crates() if found.get(crate) != text_sum(crate)]


if sys.argv[1:] == ["--recorded"]:
    said = recorded()
    for crate in stale():
        print(f"edits/TRIED: the edits of {crate} were not {'all tried yet' if said.get(crate) == 'untried' else 'tried on this text'}: bench/edits.sh {crate}")
    sys.exit(1 if any(said.get(crate) != "untried" for crate in stale()) else 0)
words = sys.argv[1:] or stale()
chosen = {crate: [it for it in edits_of(crate) if any(f"{crate}/" == f"{word}/" or f"{it.path}".startswith(f"edits/{word}") for word in words)] for crate in crates()}
sys.exit(0 if all([is_well(crate, some) for crate, some in chosen.items() if some]) else 1)
PYTHON
