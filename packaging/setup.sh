#!/usr/bin/env bash
# Installs the Debian packages that the tests need, those of tests/packages that aren't installed: by
# sudo if the user isn't root.
set -uo pipefail
cd "$(dirname "$0")/.." || exit 1

if [ $# -gt 0 ]; then
  echo "usage: packaging/setup.sh
Prints which packages it installs, and each that can't be installed, with status 1. A test that lacks
its package is skipped, and says so."
  [ "$1" = --help ]
  exit
fi

refuse() {
  echo "setup: $1" >&2
  exit 1
}

command -v dpkg-query > /dev/null || refuse 'this system has no packages of Debian; see tests/packages for what the tests need'
mapfile -t missing < <(bash packaging/missing_packages.sh)
if [ "${#missing[@]}" -eq 0 ]; then
  echo 'All packages of tests/packages are installed.'
  exit
fi
apt=(env DEBIAN_FRONTEND=noninteractive apt-get -q -o DPkg::Lock::Timeout=120)
if [ "$(id -u)" -ne 0 ]; then
  command -v sudo > /dev/null || refuse "only root can install these, and there is no sudo: ${missing[*]}"
  apt=(sudo "${apt[@]}")
fi
echo "Installs ${missing[*]}"
timeout --foreground 300 "${apt[@]}" update || true
# apt installs none of several if one is unknown, so then each is installed by itself.
if ! timeout --foreground 1800 "${apt[@]}" install -y --no-install-recommends "${missing[@]}"; then
  for package in "${missing[@]}"; do timeout --foreground 600 "${apt[@]}" install -y --no-install-recommends "$package"; done
fi
mapfile -t missing < <(bash packaging/missing_packages.sh)
[ "${#missing[@]}" -eq 0 ] || refuse "these are not installed: ${missing[*]}"
