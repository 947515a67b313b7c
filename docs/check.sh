#!/usr/bin/env bash
# Runs every example of the documents with the built program, and compares what they show: `docs/check.sh`. With --update it
# writes what is printed into those that differ.
set -eu
top=$(cd "$(dirname "${BASH_SOURCE[0]}")/.." && pwd)
"$top/loopw" gen 1 >/dev/null
exec python3 "$top/docs/check.py" "$@" "$top/crates/loopw/out/loopw"
