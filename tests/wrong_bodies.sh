#!/usr/bin/env bash
# The wrong bodies still apply to the code, and each public operation has one that the gate or
# `make deep` tries.
# Nothing is proved.
# Status 77, and 'skipped', if a package is missing.
set -uo pipefail
. "$(dirname "$0")/common.bash"
need python3
exec python3 tests/wrong_bodies/check.py
