#!/usr/bin/env bash
# Prints those of Debian's packages in tests/packages that aren't installed, one on each line.
# Prints nothing on a system without dpkg.
set -uo pipefail
cd "$(dirname "$0")/.." || exit 1
command -v dpkg-query > /dev/null || exit 0
while IFS= read -r package; do
  [ "$(dpkg-query -W -f '${db:Status-Status}' "$package" 2> /dev/null)" = installed ] || echo "$package"
done < tests/packages
