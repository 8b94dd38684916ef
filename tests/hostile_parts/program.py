"""The program that is tried, and what the parts share."""
import multiprocessing
import os
import sqlite3
import subprocess

TOP = os.path.dirname(os.path.dirname(os.path.dirname(os.path.abspath(__file__))))
DATA = f"{TOP}/crates/fragdb/data"
PROGRAM = os.path.abspath(os.environ.get("FRAGDB", f"{TOP}/crates/fragdb/out/fragdb"))
SECONDS = 60
REFUSED_STORE, DAMAGED = (3, b"", b"fragdb: store 2 Refused\n"), (3, b"", b"fragdb: store 3 Damaged\n")


def run(words, given=b""):
    ran = subprocess.run([PROGRAM, *words], input=given, stdout=subprocess.PIPE, stderr=subprocess.PIPE, timeout=SECONDS)
    return ran.returncode, ran.stdout, ran.stderr


def contents(path):
    with open(path, "rb") as file:
        return file.read()


def written(path, data):
    with open(path, "wb") as file:
        file.write(data)


def each(function, items):
    """What a function finds of each item; None of one that is well. Each processor has a process of its own for some of them."""
    global at_hand
    at_hand = function
    with multiprocessing.get_context("fork").Pool(len(os.sched_getaffinity(0))) as pool:
        return pool.map(found_at_hand, items, chunksize=1)


def found_at_hand(item):
    return at_hand(item)


def is_text(line):
    try:
        line.decode()
        return True
    except UnicodeDecodeError:
        return False


def dumped(file):
    base = sqlite3.connect(f"file:{file}?mode=rw", uri=True)
    try:
        return list(base.iterdump())
    finally:
        base.close()
