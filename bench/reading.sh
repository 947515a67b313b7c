#!/usr/bin/env bash
# Prints how fast whole kernel files are read, in megabytes per second, for files of 64 KiB to 1 MiB: of declarations, of comments,
# of one long value, and of 100,000 parentheses. Builds the program reader_cases first, which takes some minutes once.
set -eu
top=$(cd "$(dirname "${BASH_SOURCE[0]}")/.." && pwd)
program=$top/crates/reader_cases/out/reader_cases
[ -x "$program" ] || (cd "$top/crates/reader_cases" && rt run <stdin) >/dev/null
work=$(mktemp -d)
trap 'rm -rf "$work"' EXIT

head='# counted
kernel 1
domain [n] -> { [i] : 0 <= i < n }
input a: int32[n]
output out: int32[n]'

declarations() {
  printf '%s\n' "$head"
  awk -v size="$1" 'BEGIN { for (k = 0; total < size - 400; k++) { line = "temp t" k ": int32[2, 3]   # a note"; total += length(line) + 1; print line } }'
}

comments() {
  printf '%s\n' "$head"
  awk -v size="$1" 'BEGIN { for (; total < size - 400; ) { line = "# out[i, j] = 2*a[i + 1, j] + max(b[j], 65536) // 16"; total += length(line) + 1; print line } }'
}

# one instruction whose value is too deep, told at its end
value() {
  printf '%s\nout[i] = a[i]' "$head"
  awk -v size="$1" 'BEGIN { for (; total < size - 400; total += 13) printf " + 2*a[i + 1]" }'
  echo
}

parentheses() {
  printf '%s\nout[i] = ' "$head"
  awk 'BEGIN { for (k = 0; k < 100000; k++) printf "("; printf "a[i]"; for (k = 0; k < 100000; k++) printf ")"; print "" }'
}

tell() {
  local bytes start end
  bytes=$(wc -c <"$work/file")
  start=$(date +%s%N)
  "$program" <"$work/file" >"$work/out"
  end=$(date +%s%N)
  awk -v what="$1" -v bytes="$bytes" -v ns=$((end - start)) -v said="$(head -n 1 "$work/out" | cut -c1-60)" \
    'BEGIN { printf "%-13s %8d bytes: %7.1f ms, %6.1f MB/s  (%s)\n", what, bytes, ns / 1e6, bytes * 1000 / ns, said }'
}

for what in declarations comments value; do
  for size in 65536 262144 1048576; do
    "$what" "$size" >"$work/file"
    tell "$what"
  done
done
parentheses >"$work/file"
tell parentheses
