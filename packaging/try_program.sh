#!/usr/bin/env bash
# Runs fq_prog without proofs, as `rt try` compiles it each time: for `tibzharuk trim --program`. The
# program gets a directory of its own and no open files, so it reaches the pipes of the command
# through those of this process. What rt prints goes to try.log in the directory TMPDIR.
set -euo pipefail
cd "$(dirname "$0")/../crates/fq_prog"
exec rt try -- "${@/#\/dev\/fd\//\/proc\/$$\/fd\/}" 2> "${TMPDIR:-/tmp}/try.log"
