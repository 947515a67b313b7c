#!/usr/bin/env bash
# Prints how long each command of the program takes, how it grows, and the peak memory where GNU time is installed; bench/commands.py
# says of what. The program is that which the script loopw builds. Takes some minutes.
set -eu
top=$(cd "$(dirname "${BASH_SOURCE[0]}")/.." && pwd)
"$top/loopw" write c "$top/examples/double/double.txt" - >/dev/null
exec python3 -B "$top/bench/commands.py" "$top/crates/loopw/out/loopw"
