"""The program with too little memory, and with ever more."""
import resource
import subprocess

from program import DATA, PROGRAM, SECONDS, each, run

OUT_OF_MEMORY = b"fragdb: out of memory\n"
# Stands for a folder of a case's own.
HERE = "here"


def limited(kilobytes, words, given=b""):
    """The same run with so much room for data, which a stack is no part of."""

    def limit():
        resource.setrlimit(resource.RLIMIT_DATA, (kilobytes * 1024, kilobytes * 1024))

    ran = subprocess.run([PROGRAM, *words], input=given, stdout=subprocess.PIPE, stderr=subprocess.PIPE, timeout=SECONDS, preexec_fn=limit)
    return ran.returncode, ran.stdout, ran.stderr


def least_to_start():
    """The least room, to a page, in which the program begins to run. With less the system doesn't load it."""
    low, high = 0, 100_000
    while high - low > 4:
        middle = (low + high) // 2
        if limited(middle, ["--help"])[0] in (0, 4):
            high = middle
        else:
            low = middle
    return high


def is_of_sessions(output):
    """Whether sessions that insert departments were each told what is there."""
    heard, woven, shown = output.partition(b"weave yes\n")
    answers = [line.split(b": ", 1)[1] for line in heard.splitlines()]
    done = answers.count(b"changed 1")
    is_known = all(answer == b"changed 1" or answer.startswith(b"aborted ") for answer in answers)
    return bool(woven) and is_known and b"\n%d row" % done in shown.partition(b"emp\n")[0]


def unkept(folder, output):
    """What is wrong with a folder where so much was answered; nothing where that is there, and perhaps what was under way."""
    status, shown, errors = run(["solo", "--catalog", f"{DATA}/emp_and_dept.toml", "--dir", folder, "-"], b"SELECT id FROM emp\n")
    keys, answered = shown.split(b"\n")[1:-2], output.count(b"changed 1\n")
    is_kept = (status, errors) == (0, b"") and answered <= len(keys) <= answered + 1 and keys == [b"%d" % key for key in range(1, len(keys) + 1)]
    return None if is_kept else f"{folder}, where {answered} were answered: {status} {shown} {errors}"


def memory(room):
    employees = ["--catalog", f"{DATA}/emp_and_dept.toml"]
    inserts = [b"INSERT INTO emp VALUES (%d, 'n', %d, 0)\n" % (key, key % 20) for key in range(1, 400)]
    halves = b"".join(b"%s INSERT INTO dept VALUES (%d, '')\n" % (name, key) for number in range(9) for name, key in ((b"a", number), (b"b", number + 10)))
    join = "SELECT emp.id, dept.title FROM emp JOIN dept ON emp.dept = dept.no"
    # Of each command, how much more room there is each time, and how often.
    given = [
        (["solo", *employees, "-"], b"".join(inserts) + b"SELECT * FROM emp\n", 40, 40),
        (["solo", *employees, "--sqlite", "-"], b"".join(inserts[:150]), 60, 40),
        (["solo", *employees, "--dir", HERE, "-"], b"".join(inserts[:20]), 1500, 30),
        (["run", *employees, "-"], halves, 2000, 40),
        (["check", employees[1]], b"", 8, 30),
        (["plan", employees[1], join], b"", 8, 30),
    ]
    least = least_to_start()

    def placed(words, name):
        return [f"{room}/{name}" if word == HERE else word for word in words]

    wholes = [run(placed(words, "whole"), script) for words, script, _, _ in given]
    cases = [(words, script, whole, least + step * number) for (words, script, step, count), whole in zip(given, wholes) for number in range(count)]

    def fault(case):
        words, script, whole, room_for = case
        status, output, errors = limited(room_for, placed(words, room_for), script)
        if (status, output, errors) == whole:
            return None
        if (status, errors) == (4, OUT_OF_MEMORY) and whole[1].startswith(output):
            return unkept(f"{room}/{room_for}", output) if HERE in words else None
        if words[0] == "run" and (status, errors) == (0, b"") and is_of_sessions(output):
            return None
        return f"{words} with {room_for} KB: {status} {output[-200:]} {errors}"

    return each(fault, cases)
