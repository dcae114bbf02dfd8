#!/usr/bin/env bash
# Checks docs/proofs/rules.md, a check each row: that its prose, definition, function and tests are there, that their
# links have the right files and lines, that the quoted words are under the prose's heading or in the test's file, that
# the quoted lines are in the test's group and print these answers, and that the function's contract leads to the
# definition. It runs tools/rules.py, which writes links and answers too. Then it plants a wrong cell of each kind in a
# row, in memory, which has to be found, a check each. Usage: tests/rules.sh. Its last line is 'N passed, M failed'; it
# ends with 0 if none failed. A row of another form has failed.
set -u
cd "$(dirname "$0")/.." || exit 1
exec python3 tools/rules.py --check
