#!/usr/bin/env bash
# Refuses each allocation of the program in turn, and says how the runs end: of `solo` on scripts, one of them with
# transactions over a catalogue of a file, over lists, SQLite in memory and a folder; of a session; of `play`, over lists and
# SQLite; of `run`, whose sites and sessions are threads; of `check` on catalogues, and of `plan` on a join and an update.
# Each must end with status 4, `fragdb: out of memory` alone and the beginning of the whole output, or go on as if nothing had
# happened. A folder has to open afterwards, with what was answered. In `run` a letter may get lost, so a statement may be
# told to have aborted, and inside BEGIN its transaction with it: the session goes on behind that, and its next BEGIN works.
# What was committed has to be there, and nothing else. No session may wait for ever: one that takes too long is ended, and
# is wrong.
# It wants a C compiler (cc), for a library that stands before the system's allocator.
#
# usage: bench/refused_memory.sh [PROGRAM [COMMAND ARGUMENT ..]]
# (default: crates/fragdb/out/fragdb, and all of the above; COMMAND may be `folder` or `threads`, for those alone, and
# `threads SCRIPT [--sqlite]`, where SCRIPT is `sessions` or `transactions_at_once`)
#
# STRIDE=N refuses each N-th allocation alone, from the first one on: over a folder there are ten thousand and more. With
# FOR=N so many are refused in a row, and with LATER=1 all allocations after it too.
set -eu
top=$(cd "$(dirname "$0")/.." && pwd)
program=$(realpath "${1:-$top/crates/fragdb/out/fragdb}")
employees=$top/crates/fragdb/data/emp_and_dept.toml
stride=${STRIDE:-1}
on=/dev/shm
[ -d $on ] || on=/tmp
folder=$(mktemp -d -p $on)
trap 'rm -rf "$folder"' EXIT

cc -shared -fPIC -O1 -o "$folder/refuse.so" "$top/bench/refuse.c" -ldl

# Runs the program on the other arguments with allocation $1 refused, and leaves the number of its allocations in `calls`.
run() {
    local number=$1
    shift
    status=0
    timeout "${seconds:-60}" env REFUSE="$number" LD_PRELOAD="$folder/refuse.so" "$program" "$@" \
        9> "$folder/calls" > "$folder/output" 2> "$folder/errors" || status=$?
    calls=$(cat "$folder/calls")
}

# Whether the run ended as the whole one did.
is_same() {
    [ "$status" = "$whole_status" ] && cmp -s "$folder/output" "$folder/whole" && cmp -s "$folder/errors" "$folder/whole_errors"
}

# Whether the run ended for want of memory.
is_ended() {
    [ "$status" = 4 ] && [ "$(cat "$folder/errors")" = "fragdb: out of memory" ] \
        && cmp -s -n "$(stat -c %s "$folder/output")" "$folder/output" "$folder/whole"
}

# A script of transactions: one that is committed, with a row that moves to another fragment, one with an overflow and
# an insert that exists, one that is rolled back, and commands that are refused.
transactions() {
    cat << 'SCRIPT'
SELECT name FROM emp
BEGIN
BEGIN
INSERT INTO dept VALUES (7, 'paint')
INSERT INTO dept VALUES (12, 'dock')
INSERT INTO emp VALUES (1, 'Ada', 7, 100)
INSERT INTO emp VALUES (2, 'Bo', 12, 200)
UPDATE emp SET dept = dept + 5 WHERE id = 1
COMMIT
.leaf emp.2
.leaf emp.3
SELECT emp.id, emp.name, dept.title FROM emp JOIN dept ON emp.dept = dept.no
BEGIN
UPDATE emp SET pay = pay + 9223372036854775807
INSERT INTO emp VALUES (1, 'Eve', 7, 1)
DELETE FROM emp WHERE id = 2
ROLLBACK
COMMIT
DELETE FROM emp WHERE id = 2
.show emp
BEGIN
INSERT INTO emp VALUES (3, 'Cy', 7, 5)
SCRIPT
}

# A row that moves between groups of columns at two sites, and a transaction that is rolled back.
accounts() {
    cat << 'SCRIPT'
INSERT INTO acct VALUES (1, 'kent', 50, 'a')
UPDATE acct SET region = 'york', bal = bal - 60 WHERE id = 1
.leaf acct.2
.leaf acct.3
BEGIN
DELETE FROM acct
SELECT * FROM acct
ROLLBACK
.show acct
COMMIT
SCRIPT
}

# Fewer of them, for stores that allocate much more.
few_transactions() {
    cat << 'SCRIPT'
INSERT INTO emp VALUES (1, 'Ada', 7, 100)
BEGIN
UPDATE emp SET dept = dept + 5 WHERE id = 1
INSERT INTO dept VALUES (12, 'dock')
COMMIT
SELECT emp.name, dept.title FROM emp JOIN dept ON emp.dept = dept.no
DELETE FROM emp WHERE id = 1
.show emp
.leaf emp.3
SCRIPT
}

# What is typed in a session, of which nothing is refused.
typed() {
    cat << 'SCRIPT'
.tables
.schema
.leaves
INSERT INTO emp
VALUES (1, 'Ada', 7, 100); INSERT INTO dept VALUES (7, 'paint');
.plan SELECT name FROM emp
BEGIN
UPDATE emp SET dept = 12
.mode json
SELECT name, pay FROM emp
COMMIT
.mode columns
.show emp
.leaf emp.3
.quit
SCRIPT
}

# A schedule with a moved row, a lost letter, a repeated one, a refused store call, and restarts.
schedule() {
    cat << 'SCRIPT'
load INSERT INTO emp VALUES (1, 'Ada', 7, 100)
begin T1
do T1 UPDATE emp SET dept = dept + 5 WHERE id = 1
all
commit T1
all but 16
restart desk
deliver 16
inquire south
all
begin T2
do T2 UPDATE emp SET name = 'Eve'
all
giveup north 1.1
commit T2
deliver 1
restart north
all
.committed
.show emp
.leaf emp.2
SCRIPT
}

all_wrong=0
# Refuses each allocation of the program on these arguments.
refuse_each() {
    run 0 "$@"
    mv "$folder/output" "$folder/whole"
    mv "$folder/errors" "$folder/whole_errors"
    whole_status=$status
    local last=$calls number=1 ended=0 same=0 wrong=0 tries=0
    while [ "$number" -le "$last" ]; do
        run "$number" "$@"
        tries=$((tries + 1))
        if is_ended; then
            ended=$((ended + 1))
        elif is_same; then
            same=$((same + 1))
        else
            wrong=$((wrong + 1))
            echo "$*: allocation $number: status $status: $(cat "$folder/errors")"
        fi
        number=$((number + stride))
    done
    echo "$*: $last allocations, $tries refused in turn: $ended ended for want of memory, $same went on the same, $wrong wrong"
    all_wrong=$((all_wrong + wrong))
}

# The statements that are run over a folder, each a transaction of its own with another state behind it.
statements() {
    cat << 'SCRIPT'
INSERT INTO emp VALUES (1, 'Ada', 7, 100)
INSERT INTO dept VALUES (12, 'dock')
UPDATE emp SET dept = dept + 5 WHERE id = 1
DELETE FROM dept WHERE no = 12
SCRIPT
}

# What stands in the relations, over a folder or, without a second word, over lists, behind the first statements.
shown() {
    { head -n "$1" "$folder/statements"; printf '.show dept\n.show emp\n'; } \
        | "$program" solo --catalog "$employees" ${2:+--dir "$2"} - 2>&1 | tail -n +$(($1 + 1))
}

# Refuses each allocation over a folder: one that isn't there yet with $1 = new, else one with a row.
refuse_over_folder() {
    statements > "$folder/statements"
    local last=1 number=0 ended=0 same=0 wrong=0 answered=0 first=0 tries=0 count
    count=$(wc -l < "$folder/statements")
    for number in $(seq 0 "$count"); do
        shown "$number" > "$folder/state$number"
    done
    if [ "$1" = kept ]; then
        first=1
        head -n 1 "$folder/statements" | "$program" solo --catalog "$employees" --dir "$folder/kept" - > "$folder/discarded"
    fi
    tail -n +$((first + 1)) "$folder/statements" > "$folder/script"
    number=0
    while [ "$number" -le "$last" ]; do
        rm -rf "$folder/D"
        [ "$1" = new ] || cp -r "$folder/kept" "$folder/D"
        run "$number" solo --catalog "$employees" --dir "$folder/D" "$folder/script"
        if [ "$number" = 0 ]; then
            last=$calls whole_status=$status
            mv "$folder/output" "$folder/whole"
            mv "$folder/errors" "$folder/whole_errors"
            number=1
            continue
        fi
        tries=$((tries + 1))
        answered=$((first + $(wc -l < "$folder/output")))
        shown 0 "$folder/D" > "$folder/now"
        if is_same && cmp -s "$folder/now" "$folder/state$count"; then
            same=$((same + 1))
        elif is_ended && { cmp -s "$folder/now" "$folder/state$answered" || cmp -s "$folder/now" "$folder/state$((answered + 1))"; }; then
            ended=$((ended + 1))
        else
            wrong=$((wrong + 1))
            echo "over a folder that is $1: allocation $number: status $status: $(cat "$folder/errors"), $answered answered, then $(cat "$folder/now")"
        fi
        number=$((number + stride))
    done
    echo "solo over a folder that is $1: $last allocations, $tries refused in turn: $ended ended for want of memory and opened again, $same went on the same, $wrong wrong"
    all_wrong=$((all_wrong + wrong))
}

# Two sessions that are never in each other's way.
sessions() {
    cat << 'SCRIPT'
a INSERT INTO dept VALUES (1, 'x')
b INSERT INTO dept VALUES (50, 'y')
a INSERT INTO dept VALUES (2, 'v')
b SELECT title FROM dept WHERE no = 50
SCRIPT
}

# Writes two sessions with transactions of several statements, which are never in each other's way either.
transactions_at_once() {
    cat << 'SCRIPT'
a BEGIN
b BEGIN
a INSERT INTO dept VALUES (1, 'x')
b INSERT INTO dept VALUES (50, 'y')
a INSERT INTO dept VALUES (2, 'v')
b ROLLBACK
a COMMIT
b BEGIN
a BEGIN
b INSERT INTO dept VALUES (51, 'z')
a INSERT INTO dept VALUES (3, 'w')
b COMMIT
a COMMIT
b SELECT title FROM dept WHERE no = 51
SCRIPT
}

# Tells whether the run of the script in $1 went on rightly: what was committed is there, and what was told to have aborted isn't.
# Makes the file `behind` where a session had a transaction committed that it began behind one that had aborted inside BEGIN.
is_right() {
    [ "$status" = 0 ] && [ ! -s "$folder/errors" ] && grep -q '^weave yes$' "$folder/output" && python3 - "$1" "$folder/output" "$folder/behind" << 'PYTHON'
import re
import sys

script, output, behind = sys.argv[1:]
with open(output, encoding="utf-8") as file:
    lines = file.read().split("\n")[:-1]
end = lines.index("weave yes")
rows, goes_on = {}, False
with open(script, encoding="utf-8") as file:
    said = [line.rstrip("\n").split(" ", 1) for line in file]
for name in sorted({name for name, _ in said}):
    heard = [line[3:] for line in lines[:end] if line.startswith(f"{name}: ")]
    # Holds the rows of an open transaction, and whether one has aborted inside BEGIN.
    pending, had_aborted = None, False
    for text in (text for it, text in said if it == name):
        answer = heard.pop(0) if heard else ""
        if answer.startswith("aborted ") and (pending is not None or text not in ("BEGIN", "COMMIT", "ROLLBACK")):
            had_aborted = had_aborted or pending is not None
            pending = None
        elif text == "BEGIN" and pending is None and answer == "begun":
            pending = {}
        elif text in ("COMMIT", "ROLLBACK") and pending is None and answer == "refused 1 NoTransaction":
            pass
        elif (text, answer) in (("COMMIT", "committed"), ("ROLLBACK", "rolled back")) and pending is not None:
            if text == "COMMIT":
                rows |= pending
                goes_on = goes_on or had_aborted
            pending = None
        elif insert := re.fullmatch(r"INSERT INTO dept VALUES \((\d+), '(\w+)'\)", text):
            if answer != "changed 1":
                sys.exit(1)
            (rows if pending is None else pending)[int(insert[1])] = insert[2]
        elif select := re.fullmatch(r"SELECT title FROM dept WHERE no = (\d+)", text):
            found = {**rows, **(pending or {})}.get(int(select[1]))
            wanted = ["title", found, "1 row"] if found else ["title", "0 rows"]
            if [answer, *heard[: len(wanted) - 1]] != wanted:
                sys.exit(1)
            del heard[: len(wanted) - 1]
        else:
            sys.exit(1)
    if heard or pending is not None:
        sys.exit(1)
shown = [f"{no}\t{title}" for no, title in sorted(rows.items())]
count = f"{len(shown)} row" + ("" if len(shown) == 1 else "s")
if goes_on:
    open(behind, "w").close()
sys.exit(lines[end + 1 :] != ["dept", "no\ttitle", *shown, count, "emp", "id\tname\tdept\tpay", "0 rows"])
PYTHON
}

# Refuses the allocations of `run` on the script that $1 writes, whose number differs from run to run, so that some are refused
# twice and some never.
refuse_in_threads() {
    local script=$1 behind=0
    shift
    "$script" > "$folder/sessions"
    run 0 run --catalog "$employees" "$@" "$folder/sessions"
    mv "$folder/output" "$folder/whole"
    mv "$folder/errors" "$folder/whole_errors"
    whole_status=$status
    local last=$((calls + calls / 20 + 20)) number=1 ended=0 same=0 right=0 wrong=0 tries=0
    seconds=120
    while [ "$number" -le "$last" ]; do
        run "$number" run --catalog "$employees" "$@" "$folder/sessions"
        tries=$((tries + 1))
        rm -f "$folder/behind"
        if is_ended; then
            ended=$((ended + 1))
        elif is_same; then
            same=$((same + 1))
        elif is_right "$folder/sessions"; then
            right=$((right + 1))
            [ ! -e "$folder/behind" ] || behind=$((behind + 1))
        else
            wrong=$((wrong + 1))
            [ "$status" != 124 ] || echo "a session waits"
            echo "run $* on $script: allocation $number: status $status: $(cat "$folder/errors" "$folder/output")"
        fi
        number=$((number + stride))
    done
    seconds=60
    echo "run $* on $script: $last allocations, $tries refused in turn: $ended ended for want of memory, $same went on the same, $right with a transaction aborted, $behind of them with another one committed behind an abort inside BEGIN, $wrong wrong"
    all_wrong=$((all_wrong + wrong))
}

over_folders() {
    refuse_over_folder new
    refuse_over_folder kept
}

in_threads() {
    refuse_in_threads sessions
    refuse_in_threads transactions_at_once
    refuse_in_threads sessions --sqlite
}

shift $(($# > 0))
case ${1:-all} in
folder) over_folders ;;
threads)
    shift
    if [ $# -gt 0 ]; then refuse_in_threads "$@"; else in_threads; fi
    ;;
all)
    refuse_each solo "$top/crates/fragdb/stdin"
    transactions > "$folder/transactions"
    refuse_each solo --catalog "$employees" "$folder/transactions"
    accounts > "$folder/accounts"
    refuse_each solo --catalog "$top/crates/fragdb/data/acct.toml" "$folder/accounts"
    few_transactions > "$folder/few_transactions"
    refuse_each solo --catalog "$employees" --sqlite "$folder/few_transactions"
    typed > "$folder/typed"
    refuse_each solo --catalog "$employees" --interactive "$folder/typed"
    schedule > "$folder/schedule"
    refuse_each play --catalog "$employees" "$folder/schedule"
    refuse_each play --catalog "$employees" --sqlite "$folder/schedule"
    for catalogue in "$top"/crates/fragdb/data/*.toml; do
        refuse_each check "$catalogue"
    done
    refuse_each plan "$employees" "SELECT emp.id, dept.title FROM emp JOIN dept ON emp.dept = dept.no WHERE dept.no = 12"
    refuse_each plan "$employees" "UPDATE emp SET dept = dept + 5 WHERE id = 1"
    over_folders
    in_threads
    ;;
*) refuse_each "$@" ;;
esac
[ "$all_wrong" = 0 ]
