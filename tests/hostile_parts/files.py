"""Files, folders and disks that can't be written, and programs over one folder."""
import os
import shutil
import subprocess

from program import PROGRAM, REFUSED_STORE, SECONDS, dumped, run


def shown(folder, *more):
    return run(["solo", "--dir", folder, "-"], b"".join(line + b"\n" for line in [*more, b"SELECT id FROM item"]))


def can(*words):
    return subprocess.run(words, stdout=subprocess.DEVNULL, stderr=subprocess.DEVNULL).returncode == 0


def unchanging(room):
    """Files and a folder that nobody may change, root included."""
    found = []
    made = f"{room}/made"
    run(["solo", "--dir", made, "-"], b"INSERT INTO item VALUES (1, 3, 'a')\nINSERT INTO item VALUES (2, 13, 'b')\n")
    for name in ("north.db", "south.db", "desk.db", "north.db-wal", "desk.db-wal"):
        folder = f"{room}/{name}"
        shutil.copytree(made, folder)
        if not can("chattr", "+i", f"{folder}/{name}"):
            print(f"files: no file can be made unchanging here, so {name} wasn't tried")
            continue
        try:
            had = shown(folder, b"UPDATE item SET label = 'z'")
        finally:
            can("chattr", "-i", f"{folder}/{name}")
        found.append(None if had == REFUSED_STORE else f"{name} that can't be changed: {had}")
        had = shown(folder)
        found.append(None if had == (0, b"id\n1\n2\n2 rows\n", b"") else f"{name} once it can be changed again: {had}")
    return found + closed_folder(made) + mounted(room, "size=8M", read_only)


def closed_folder(folder):
    """A folder in which no file can be made, where those that SQLite keeps beside its files aren't there."""
    for name in ("north", "south", "desk"):
        dumped(f"{folder}/{name}.db")
    beside = [name for name in os.listdir(folder) if name.endswith(("-wal", "-shm"))]
    for name in beside:
        os.remove(f"{folder}/{name}")
    if not can("chattr", "+i", folder):
        print("files: no folder can be made unchanging here, so none was tried")
        return []
    try:
        had = shown(folder, b"UPDATE item SET label = 'z'")
        new = shown(f"{folder}/D")
    finally:
        can("chattr", "-i", folder)
    again = shown(folder)
    return [
        None if had == REFUSED_STORE else f"a folder that can't be changed: {had}",
        None if new == REFUSED_STORE else f"a new one in it: {new}",
        None if again == (0, b"id\n1\n2\n2 rows\n", b"") else f"a folder once it can be changed again: {again}",
    ]


def mounted(room, options, function):
    """What a function finds on a file system of its own in memory."""
    disk = f"{room}/disk-{function.__name__}"
    os.makedirs(disk)
    if not can("mount", "-t", "tmpfs", "-o", options, "tmpfs", disk):
        print(f"files: nothing can be mounted here, so {function.__name__} wasn't tried")
        return []
    try:
        return function(disk)
    finally:
        can("umount", disk)


def read_only(disk):
    """A disk that can't be written: with a database, and with none."""
    folder, found = f"{disk}/D", []
    run(["solo", "--dir", folder, "-"], b"INSERT INTO item VALUES (1, 3, 'a')\n")
    can("mount", "-o", "remount,ro", disk)
    for path in (folder, f"{disk}/none"):
        had = shown(path, b"UPDATE item SET label = 'z'")
        found.append(None if had == REFUSED_STORE else f"{path} on a disk that can't be written: {had}")
    can("mount", "-o", "remount,rw", disk)
    had = shown(folder)
    found.append(None if had == (0, b"id\n1\n1 row\n", b"") else f"a disk that can be written again: {had}")
    return found


def filling(disk):
    """A disk that gets full while rows are put in, for each size of it: what was answered is there once there is room."""
    found = []
    for kilobytes in range(100, 1800, 60):
        can("mount", "-o", f"remount,size={kilobytes}k", disk)
        folder = f"{disk}/D{kilobytes}"
        script = b"".join(b"INSERT INTO item VALUES (%d, %d, '%s')\n" % (key, key % 20, b"x" * 200) for key in range(1, 300))
        status, output, errors = run(["solo", "--dir", folder, "-"], script)
        answers = output.split(b"\n")[:-1]
        kept = [key for key, answer in enumerate(answers, 1) if answer == b"changed 1"]
        is_known = all(answer == b"changed 1" or answer.startswith(b"aborted ") for answer in answers)
        if not is_known or (status, errors) not in ((3, b"fragdb: store 2 Refused\n"), (0, b"")):
            found.append(f"a disk of {kilobytes} KB: {status} {output} {errors}")
            continue
        # The one after the last that was answered may be there, unless that one was told to be aborted.
        wanted = [kept, *([[*kept, len(answers) + 1]] if status and answers[-1:] != [b"aborted 5 Store"] else [])]
        again = shown(folder)
        can("mount", "-o", "remount,size=64M", disk)
        if again[0] == 3 and again[1:] != REFUSED_STORE[1:] or again[0] not in (0, 3):
            found.append(f"a disk of {kilobytes} KB, opened again: {again}")
        status, output, errors = shown(folder)
        rows = [int(row) for row in output.split(b"\n")[1:-2]]
        if status or errors or rows not in wanted:
            found.append(f"a disk of {kilobytes} KB: answered {answers}, then {status} {output} {errors}")
        else:
            found.append(None)
        shutil.rmtree(folder)
    return found


AT_A_TIME = 8


def together(room):
    """Programs that open one folder at the same moment, a new one first: one has it, or some in turn, and the others are refused."""
    found, folder, rows = [], f"{room}/together", set()
    for turn in range(20):
        if turn % 4 == 0:
            shutil.rmtree(folder, ignore_errors=True)
            rows = set()
        keys = range(turn * AT_A_TIME + 1, (turn + 1) * AT_A_TIME + 1)
        words = [PROGRAM, "solo", "--dir", folder, "-"]
        running = [subprocess.Popen(words, stdin=subprocess.PIPE, stdout=subprocess.PIPE, stderr=subprocess.PIPE) for _ in keys]
        for key, process in zip(keys, running):
            process.stdin.write(b"INSERT INTO item VALUES (%d, %d, '')\n" % (key, key % 20))
            process.stdin.close()
        ends = [(key, process.wait(SECONDS), process.stdout.read(), process.stderr.read()) for key, process in zip(keys, running)]
        for process in running:
            process.stdout.close()
            process.stderr.close()
        wrong = [end for end in ends if end[1:] not in ((0, b"changed 1\n", b""), REFUSED_STORE)]
        rows |= {end[0] for end in ends if end[1] == 0}
        had = shown(folder)
        wanted = b"".join(b"%d\n" % key for key in sorted(rows))
        count = b"%d row%s\n" % (len(rows), b"" if len(rows) == 1 else b"s")
        found.append(f"{AT_A_TIME} programs at once: {wrong}, then {had}, wanted {wanted}" if wrong or had != (0, b"id\n" + wanted + count, b"") else None)
    return found


def files(room):
    return unchanging(room) + mounted(room, "size=1M", filling) + together(room)
