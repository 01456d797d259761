#!/usr/bin/env bash
# Builds the host's test against a static library and runs it: tests/host/run.sh [ARCHIVE]
set -euo pipefail
here=$(cd "$(dirname "$0")" && pwd)
program=$(mktemp)
trap 'rm -f "$program"' EXIT
archive=${1:-$("$here/../emulated/library.sh")}
"$here/build.sh" "$archive" "$program"
timeout 120 "$program"
