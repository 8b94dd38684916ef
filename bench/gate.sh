#!/usr/bin/env bash
# What the gate costs: runs it (or the command that is given), and prints for each crate the processor minutes
# of its proof and of its must-fail edits, and the peak of one process, measured twice a second from /proc.
#
#   bench/gate.sh [COMMAND ..]      without a command: .ci/run
set -u
cd "$(dirname "$0")/.."
[ $# -gt 0 ] || set -- .ci/run
exec python3 - "$@" <<'PYTHON'
import os
import subprocess
import sys
import time

TICKS = os.sysconf("SC_CLK_TCK")


def read(path):
    try:
        with open(path, "rb") as it:
            return it.read()
    except OSError:
        return b""


def is_below(pid, top):
    """Whether a process was started by another, or by one that it started."""
    while pid > 1 and pid != top:
        fields = read(f"/proc/{pid}/stat").rpartition(b")")[2].split()
        pid = int(fields[1]) if len(fields) > 1 else 0
    return pid == top


def sample(seen, top):
    """Notes of each running check its crate, what it does, its processor time so far and its peak."""
    for pid in filter(str.isdigit, os.listdir("/proc")):
        words = read(f"/proc/{pid}/cmdline").split(b"\0")
        if not words[0].endswith(b"/rattle") or b"--crate-name" not in words or not is_below(int(pid), top):
            continue
        try:
            where = os.readlink(f"/proc/{pid}/cwd")
        except OSError:
            continue
        stat = read(f"/proc/{pid}/stat").rpartition(b")")[2].split()
        peak = [int(line.split()[1]) for line in read(f"/proc/{pid}/status").splitlines() if line.startswith(b"VmHWM")]
        if len(stat) < 13 or not peak:
            continue
        crate = words[words.index(b"--crate-name") + 1].decode()
        kind = "edits" if "/rt-edit-" in f"{where}/" else "proof"
        key = (pid, stat[19])
        seen[key] = (crate, kind, (int(stat[11]) + int(stat[12])) / TICKS, max(peak[0], seen.get(key, (0, 0, 0, 0))[3]))


def table(seen):
    minutes, peaks, crates = {}, {}, []
    for crate, kind, seconds, peak in seen.values():
        if crate not in crates:
            crates.append(crate)
        minutes[crate, kind] = minutes.get((crate, kind), 0) + seconds / 60
        peaks[crate] = max(peaks.get(crate, 0), peak)
    print(f"{'crate':12}{'proof':>8}{'edits':>8}{'peak':>9}")
    for crate in crates:
        proof, edits = minutes.get((crate, "proof"), 0), minutes.get((crate, "edits"), 0)
        print(f"{crate:12}{proof:8.1f}{edits:8.1f}{peaks[crate] / 2**20:6.1f} GB")
    print(f"{'all':12}{sum(v for k, v in minutes.items() if k[1] == 'proof'):8.1f}{sum(v for k, v in minutes.items() if k[1] == 'edits'):8.1f}   processor minutes")


started, seen = time.time(), {}
ran = subprocess.Popen(sys.argv[1:])
while ran.poll() is None:
    sample(seen, ran.pid)
    time.sleep(0.5)
table(seen)
print(f"{(time.time() - started) / 60:.1f} minutes of wall time, status {ran.returncode}")
sys.exit(ran.returncode)
PYTHON
