#!/usr/bin/env python3
"""Makes docs/CRATES.md of crates.txt and of the heads of the crates, and tests both.

usage: checks/crates.py          writes docs/CRATES.md, and puts into crates.txt the crates that each one names
       checks/crates.py --check  changes nothing, and fails where they would change

A crate's head is the comment `//!` at the top of its src/lib.rt or src/main.rt: what its public functions promise, in at
most fifteen lines. crates.txt has a heading, a line `# TEXT`, in front of the crates of each layer, and behind each
crate's name those whose names its files use.
"""
import pathlib
import re
import sys

TOP = pathlib.Path(__file__).resolve().parent.parent
LONGEST = 15
KIT = "atomic_table anyhow byteorder clap indexmap itoa sqlite_items thiserror toml".split()
FIRST = "# Each line: a crate, and those whose names its files use; a heading in front of each layer.\n"
BEGINNING = """# Crates

One crate is one layer, with one public contract for the layers above. What each one promises stands at the head of its
`src/lib.rt` or `src/main.rt`; this page is made of these heads and of crates.txt, lowest layers first. "Stands on" names the crates whose
names its files use.
"""


def layers():
    """Gives the headings of crates.txt, each with its lines."""
    heading, lines = "", []
    for line in (TOP / "crates.txt").read_text().splitlines():
        if line.startswith("# "):
            if lines:
                yield heading, lines
            heading, lines = line[2:], []
        elif line.strip():
            lines.append(line)
    if lines:
        yield heading, lines


def root_of(name):
    """Returns the file with the crate's head."""
    files = [TOP / "crates" / name / "src" / file for file in ("lib.rt", "main.rt")]
    return next((file for file in files if file.is_file()), None)


def head_of(name):
    """Returns the crate's head, without its marks."""
    file = root_of(name)
    if not file:
        return []
    lines = []
    for line in file.read_text().splitlines():
        if not line.startswith("//!"):
            break
        lines.append(line[3:].removeprefix(" "))
    return lines


def without_comments(text, is_antt):
    return re.sub(r"(?m)(^|\s)--.*$" if is_antt else r"(?m)(^|\s)//.*$", "", text)


def used_by(name, names):
    """Returns the crates whose names the files of this one use."""
    found = set()
    for file in (TOP / "crates" / name).rglob("*"):
        if file.suffix not in (".rt", ".antt") or "out" in file.relative_to(TOP / "crates" / name).parts:
            continue
        text = without_comments(file.read_text(), file.suffix == ".antt")
        found |= {it for it in re.findall(r"\bRattle\.(\w+)\b", text) if it in names}
        if file.suffix == ".rt":
            found |= {it for it in re.findall(r"(?<![\w.:])(\w+)::", text) if it in names}
            found |= {it for it in re.findall(r"\buse\s+(\w+)\s*;", text) if it in names}
    return found - {name}


def main():
    found, order = list(layers()), []
    for _, lines in found:
        order += [line.partition(":")[0].split()[0] for line in lines]
    names, faults, table, page = [*order, *KIT], [], [], [BEGINNING]
    for folder in sorted((TOP / "crates").iterdir()):
        if folder.is_dir() and folder.name not in order:
            faults.append(f"crates.txt doesn't list {folder.name}")
    for heading, lines in found:
        table += ["", f"# {heading}"]
        page.append(f"## {heading}\n")
        for line in lines:
            before, _, _ = line.partition(":")
            name = before.split()[0]
            used = used_by(name, names)
            late = [it for it in used if it in order and order.index(it) > order.index(name)]
            if late:
                faults.append(f"{name} stands before {', '.join(late)}, on which it stands")
            below = [it for it in names if it in used]
            table.append(f"{before}: {' '.join(below)}".rstrip())
            head = head_of(name)
            if not 0 < len(head) <= LONGEST:
                faults.append(f"the head of {name} has {len(head)} lines, and is to have 1 to {LONGEST}")
            stands = f"\n\nStands on {', '.join(f'`{it}`' for it in below)}." if below else ""
            page.append(f"### `{name}`\n\n" + "\n".join(head) + stands + "\n")
    made = {
        TOP / "crates.txt": FIRST + "\n".join(table) + "\n",
        TOP / "docs/CRATES.md": "\n".join(page),
    }
    for file, text in made.items():
        if "--check" not in sys.argv:
            file.write_text(text)
        elif not file.is_file() or file.read_text() != text:
            faults.append(f"{file.relative_to(TOP)} isn't what checks/crates.py makes")
    for fault in faults:
        print(f"checks/crates.py: {fault}", file=sys.stderr)
    print("crates: as the page says" if not faults else "crates: FAILED")
    return 1 if faults else 0


sys.exit(main())
