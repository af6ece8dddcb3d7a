#!/usr/bin/env bash
# The Python package: its types (mypy), its unit tests (python/tests, pytest), and 400 files of
# several members, good and damaged, as it decompresses them (tests/trim/members.py), different
# ones each time.
set -uo pipefail
. "$(dirname "$0")/common.bash"
need pytest-3:python3-pytest mypy
told=$(cd python && mypy 2>&1) || fail "$told"
told=$(cd python && pytest-3 -q 2>&1) || fail "$told"
told=$(python3 tests/trim/members.py 400) || fail "$told"
finish ok
