#!/bin/sh
# Removes what Python keeps beside the package, and what no package has.
set -e
if [ -d "${DPKG_ROOT-}/usr/share/tibzharuk" ]; then
  find "${DPKG_ROOT-}/usr/share/tibzharuk" -name __pycache__ -prune -exec rm -rf {} +
fi
