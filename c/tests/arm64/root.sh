#!/bin/sh
# Unpacks Debian's packages for arm64 that the tests run under qemu-user: Python and libargon2.
#
#     sh root.sh FOLDER
#
# Nothing is installed: apt keeps its lists and packages in FOLDER, and the programs lie in FOLDER/at.
set -eu

mkdir -p "$1/lists/partial" "$1/cache/archives/partial"
cd "$1"
set -- -q -y -o Dir::State::lists="$PWD/lists" -o Dir::State::status=/dev/null -o Dir::Cache="$PWD/cache" \
    -o APT::Architecture=arm64 -o APT::Architectures=arm64
apt-get "$@" update
apt-get "$@" install --download-only --no-install-recommends python3 libargon2-1
for package in cache/archives/*.deb; do dpkg -x "$package" at; done
rm -r lists cache
