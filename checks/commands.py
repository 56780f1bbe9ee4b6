#!/usr/bin/env python3
"""Runs each command line of README.md and docs/, and compares what it prints with the lines behind it.

usage: checks/commands.py [FILE ..]

A command stands in a block of code behind `$ `. The commands of one page run one after another in one shell, in an
empty folder that has the program as ./xmt and the folder examples/; what they print is both of their streams.
"""
import pathlib
import subprocess
import sys
import tempfile

TOP = pathlib.Path(__file__).resolve().parent.parent
MARK = "-- the command has ended --"


def blocks_of(text):
    """Gives the blocks of code, as lines without their indents."""
    block, is_fenced = [], False
    for line in text.splitlines():
        if line.startswith("```"):
            if block:
                yield block
            block, is_fenced = [], not is_fenced
        elif is_fenced:
            block.append(line)
        elif line.startswith("    ") or (block and not line.strip()):
            block.append(line[4:])
        else:
            if block:
                yield block
            block = []
    if block:
        yield block


def commands_of(text):
    """Gives each command with the lines that it is to print."""
    for block in blocks_of(text):
        command, wanted = None, []
        for line in block:
            if line.startswith("$ "):
                if command:
                    yield command, wanted
                command, wanted = line[2:], []
            elif command:
                wanted.append(line)
        if command:
            while wanted and not wanted[-1].strip():
                wanted.pop()
            yield command, wanted


def found_of(commands):
    """Runs the commands in one shell, and returns what each of them printed."""
    script = ["status=0"]
    for command, _ in commands:
        script += ["(exit $status)", command, "status=$?", f"echo; echo '{MARK}'"]
    with tempfile.TemporaryDirectory() as room:
        for name in ("xmt", "examples"):
            pathlib.Path(room, name).symlink_to(TOP / name)
        ran = subprocess.run(["bash"], input="\n".join(script), cwd=room, stdout=subprocess.PIPE, stderr=subprocess.STDOUT, text=True, errors="replace", timeout=600)
    parts = ran.stdout.split(f"\n{MARK}\n")
    return [part.rstrip("\n").splitlines() for part in parts[: len(commands)]]


def main():
    files = [pathlib.Path(it) for it in sys.argv[1:]] or [TOP / "README.md", *sorted((TOP / "docs").glob("*.md"))]
    count = failed = 0
    for file in files:
        commands = list(commands_of(file.read_text()))
        found = found_of(commands) if commands else []
        for (command, wanted), printed in zip(commands, found):
            count += 1
            if printed != wanted:
                failed += 1
                print(f"{file.name}: $ {command}\n  printed {printed}\n  wanted  {wanted}", file=sys.stderr)
        if len(found) < len(commands):
            failed += 1
            print(f"{file.name}: the shell ended early", file=sys.stderr)
    print(f"commands of the documents: {count - failed} as they stand, {failed} not")
    return 1 if failed else 0


sys.exit(main())
