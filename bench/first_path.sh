#!/usr/bin/env bash
# Runs the smallest kernel a thousand times, each time in a process of its own, and prints the time of one run; then the peak
# memory of one run, where GNU time is installed.
set -eu
top=$(cd "$(dirname "${BASH_SOURCE[0]}")/.." && pwd)
kernel=$top/examples/double/double.txt
"$top/loopw" write c "$kernel" - >/dev/null
program=$top/crates/loopw/out/loopw
runs=1000
start=$(date +%s%N)
for ((run = 0; run < runs; ++run)); do
  "$program" write c "$kernel" - >/dev/null
done
taken=$(($(date +%s%N) - start))
printf 'one run: %d.%03d ms\n' $((taken / runs / 1000000)) $((taken / runs / 1000 % 1000))
if env time -f %M true 2>/dev/null; then
  printf 'peak memory: %s kB\n' "$(env time -f %M "$program" write c "$kernel" - 2>&1 >/dev/null)"
fi
