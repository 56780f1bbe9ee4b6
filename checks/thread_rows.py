#!/usr/bin/env python3
"""Compares the answers in crates/thread_tests/data with those that checks/interleavings.py finds.

usage: checks/thread_rows.py            says which rows have other answers, and fails where there are any
       checks/thread_rows.py --write    puts the answers that are found into the rows, and all lines into stdout

A row with `sampled = 1` has too many interleavings: it is run in the rising order, in the falling one and in 40 others, so
that a row of threads that race is never sampled. The rows of limits.toml hang on options of the run: their answers are
written by hand.
"""
import json
import pathlib
import sys
import tomllib

import interleavings

CRATE = pathlib.Path(__file__).resolve().parent.parent / "crates" / "thread_tests"
BY_HAND = "limits.toml"
FOUND = ("answers", "before", "faults")


def found_for(row):
    """The keys that a row is to have besides its name and its source."""
    answers, faults, before = interleavings.answers(row["source"], "sampled" in row)
    keys = {"answers": answers} if answers else {}
    if faults:
        if len(before) > 1:
            raise ValueError(f"{row['name']}: faults behind {before}")
        if before[0]:
            keys["before"] = before[0]
        keys["faults"] = faults
    return keys


def rewritten(text):
    """The text of a file with the answers that are found, and the names of the rows that had others."""
    head, *parts = text.split("[[row]]\n")
    wrong = []
    for at, part in enumerate(parts):
        row = tomllib.loads(part)
        keys = found_for(row)
        if {key: row[key] for key in FOUND if key in row} != keys:
            wrong.append(row["name"])
        lines = part.splitlines(keepends=True)
        kept = [line for line in lines if not line.startswith(tuple(f"{key} = " for key in FOUND))]
        blank = next((number for number, line in enumerate(kept) if line == "\n"), len(kept))
        kept[blank:blank] = [f"{key} = {json.dumps(value)}\n" for key, value in keys.items()]
        parts[at] = "".join(kept)
    return "[[row]]\n".join([head, *parts]), wrong


def texts(row, key):
    """The texts under a key, which may be one alone."""
    value = row.get(key, [])
    return [value] if isinstance(value, str) else value


def line_of(row):
    count = len(texts(row, "answers")) + len(texts(row, "faults"))
    return f"{row['name']}: " + ("its one answer" if count == 1 else f"one of its {count} answers")


def main(is_written):
    is_wrong, lines = False, []
    for name in (CRATE / "args").read_text().split():
        file = CRATE / "data" / name
        if name != BY_HAND:
            text, wrong = rewritten(file.read_text())
            if is_written:
                file.write_text(text)
            for row in wrong:
                is_wrong = True
                print(f"{name}: {row}: {'written' if is_written else 'has other answers'}")
        rows = tomllib.loads(file.read_text())["row"]
        lines += [line_of(row) for row in rows] + [f"{name}: {len(rows)} rows"]
    lines = "\n".join(lines) + "\n"
    if is_written:
        (CRATE / "stdout").write_text(lines)
    elif (CRATE / "stdout").read_text() != lines:
        is_wrong = True
        print("stdout: has other lines")
    return int(is_wrong and not is_written)


if __name__ == "__main__":
    sys.exit(main(sys.argv[1:] == ["--write"]))
