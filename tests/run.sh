#!/usr/bin/env bash
# Runs the built program over the worked rows and over some kernels made at random: tests/run.sh [CASES]. The program is that which
# the script loopw builds. Ends with status 1 where something is not as wanted.
set -u
top=$(cd "$(dirname "${BASH_SOURCE[0]}")/.." && pwd) || exit 1
command -v python3 >/dev/null 2>&1 || { echo "python3 is not installed: nothing is compared"; exit 0; }
"$top/loopw" write c "$top/examples/double/double.txt" - >/dev/null || exit 1
program=$top/crates/loopw/out/loopw
status=0
python3 -B "$top/tests/rows.py" "$program" || status=1
"$top/tests/agree.sh" "$program" "${1:-100}" || status=1
exit $status
