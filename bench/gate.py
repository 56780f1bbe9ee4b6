#!/usr/bin/env python3
"""Measures what the crates cost: runs `rt ci --anew`, or the command that is given, and prints a table.

usage: bench/gate.py [COMMAND [WORD ..]] [> TABLE]      as bench/gate.py ./xmt run examples/compaction.xmtc

A row is a crate with its processor minutes (user and system time) of its proof, of its must-fail edits with the check
that they begin with, and of its tests. The times are read from the system while the checks run, four times a second,
so that up to a quarter of a second of each process is missed; the last line has the exact sum of all.
"""
import os
import re
import resource
import subprocess
import sys
import time

TICK = os.sysconf("SC_CLK_TCK")
KINDS = ("proof", "edits", "tests")


def read(path):
    try:
        with open(path, "rb") as file:
            return file.read()
    except OSError:
        return b""


def processes():
    """Gives each process with its parent, its seconds so far, and when it began."""
    for name in os.listdir("/proc"):
        if name.isdigit():
            fields = read(f"/proc/{name}/stat").rpartition(b")")[2].split()
            if fields:
                yield int(name), int(fields[1]), (int(fields[11]) + int(fields[12])) / TICK, fields[19]


def label(pid):
    """Returns the crate that a checking process works on, and for what, or None."""
    words = read(f"/proc/{pid}/cmdline").decode(errors="replace").split("\0")
    if "--crate-name" not in words:
        return None
    crate = words[words.index("--crate-name") + 1]
    try:
        place = os.readlink(f"/proc/{pid}/cwd")
    except OSError:
        place = ""
    if re.search(r"/rt-edits?-", place):
        return crate, "edits"
    return crate, "tests" if "--test" in words else "proof"


def sample(root, seen, labels):
    """Notes how long each process below the root has run so far."""
    found = list(processes())
    below, grown = {root}, True
    while grown:
        more = {pid for pid, parent, _, _ in found if parent in below} - below
        below |= more
        grown = bool(more)
    for pid, parent, seconds, begun in found:
        if pid in below and pid != root:
            key = pid, begun
            if labels.get(key) is None:
                labels[key] = label(pid)
            seen[key] = seconds


def main():
    words = sys.argv[1:] or ["rt", "ci", "--anew"]
    began, seen, labels = time.time(), {}, {}
    with subprocess.Popen(words, stdout=sys.stderr, stdin=subprocess.DEVNULL) as run:
        while run.poll() is None:
            sample(run.pid, seen, labels)
            time.sleep(0.25)
    rows = {}
    for key, seconds in seen.items():
        if labels[key]:
            crate, kind = labels[key]
            rows.setdefault(crate, dict.fromkeys(KINDS, 0.0))[kind] += seconds / 60
    print("| Crate | Proof | Edits | Tests | All |")
    print("|---|---|---|---|---|")
    for crate, row in sorted(rows.items(), key=lambda it: -sum(it[1].values())):
        print(f"| `{crate}` |", " | ".join(f"{row[kind]:.1f}" for kind in KINDS), f"| {sum(row.values()):.1f} |")
    sums = [sum(row[kind] for row in rows.values()) for kind in KINDS]
    print("| all |", " | ".join(f"{it:.1f}" for it in sums), f"| {sum(sums):.1f} |")
    used = resource.getrusage(resource.RUSAGE_CHILDREN)
    minutes, whole = (used.ru_utime + used.ru_stime) / 60, (time.time() - began) / 60
    print(f"\n{minutes:.1f} processor minutes (user and system time) in {whole:.1f} minutes on {os.cpu_count()} processors")
    return run.returncode


sys.exit(main())
