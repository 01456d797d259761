#!/usr/bin/env bash
# Holds the header and the newest heading of CHANGELOG.md to the release in VERSION.
set -euo pipefail
cd "$(dirname "$0")/.."
version=$(cat VERSION)
fail() { echo "version: $1, and VERSION says '$version'"; exit 1; }
[[ $version =~ ^[0-9]+\.[0-9]+\.[0-9]+$ ]] || fail "a release is three numbers"
header=$(sed -n 's/^#define FORFOCHRY_VERSION "\(.*\)"$/\1/p' include/forfochry.h)
[ "$header" = "$version" ] || fail "include/forfochry.h says '$header'"
newest=$(sed -n '/^## /{s/^## //p;q;}' CHANGELOG.md)
[[ $newest =~ ^([^ ]+)\ \([0-9]{4}-[0-9]{2}-[0-9]{2}\)$ && ${BASH_REMATCH[1]} = "$version" ]] ||
  fail "the newest heading of CHANGELOG.md is '$newest'"
echo "version: $version in VERSION, header and CHANGELOG.md"
