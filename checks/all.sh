#!/usr/bin/env bash
# The checks of the repository's own: the page of the crates, the answers of programs whose threads race, the examples, and the command
# lines of the documents. The last two run the program, which ./xmt builds where it isn't there yet.
cd "$(dirname "$0")/.." || exit 1
status=0
checks/crates.py --check || status=1
checks/thread_rows.py || status=1
examples/check.sh || status=1
checks/commands.py || status=1
exit "$status"
