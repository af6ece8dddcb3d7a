#!/usr/bin/env bash
# Each promise of docs/claims.tsv has its evidence. Its sentence is in its document. Each clause of its
# proof is in the contract of that function, and each definition there has that field, and is one on
# which these clauses rest. Each row and each test that tries it is there. What is proved has a clause,
# and what is tested, or proved over files in memory, a row or a test.
# Then each sentence, clause, field, row and test gets another name in turn, and must be missed.
set -uo pipefail
. "$(dirname "$0")/common.bash"
need python3
exec python3 tests/claims/check.py
