#!/bin/sh
# Checks the pages by what they quote (tools/lint/check_pages.py), with the built program, and that
# docs/trust/CLAUSES.md and docs/use/REFERENCE.md are what the sources say.
set -u
cd "$(dirname "$0")/../.." || exit 1
python3 tools/lint/make_clauses.py --check || exit 1
python3 tools/package/make_reference.py --check || exit 1
exec python3 tools/lint/check_pages.py
