#!/bin/sh
# Compiles the package, so that a command starts in half of the time.
set -e
if [ "$1" = configure ]; then
  python3 -m compileall -q --invalidation-mode unchecked-hash "${DPKG_ROOT-}/usr/share/tibzharuk/python"
fi
