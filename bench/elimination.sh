#!/usr/bin/env bash
# Runs one stage of elimination over n lower and n upper rows, whose n * n combinations are of one direction, so that one row
# stays, or of as many, so that all do; prints the combinations made in a second, and the peak memory where GNU time is
# installed. Then prints the time in which the point of a system of 8 variables and 20 rows is found. The program is proved
# and built in a copy of the crates, which takes some minutes.
set -eu
top=$(cd "$(dirname "${BASH_SOURCE[0]}")/.." && pwd)
copy=$(mktemp -d)
trap 'rm -rf "$copy"' EXIT
bench=$copy/crates/elimination_bench
mkdir -p "$bench/src" "$bench/proofs/crossed" "$bench/proofs/typical"
tar -C "$top" --exclude=out -cf - crates/wrap_words crates/affine_rows crates/elimination | tar -C "$copy" -xf -
cp "$top/bench/elimination/main.txt" "$bench/src/main.rt"
for made in crossed typical; do
  cp "$top/bench/elimination/$made.txt" "$bench/proofs/$made/Invariants.antt"
done
grep -E '^(wrap_words|affine_rows|elimination):' "$top/crates.txt" >"$copy/crates.txt"
echo 'elimination_bench: affine_rows elimination anyhow' >>"$copy/crates.txt"
(cd "$bench" && rt run -- one 1 </dev/null >"$copy/log" 2>&1) || { tail -n 20 "$copy/log" >&2; exit 1; }
program=$bench/out/elimination_bench
for directions in one many; do
  for count in 32 64 128 256; do
    read -r left micros <<<"$("$program" "$directions" "$count")"
    printf '%s, %d by %d: %d rows stay, %d rows per second' "$directions" "$count" "$count" "$left" $((count * count * 1000000 / (micros + 1)))
    if env time -f %M true 2>/dev/null; then
      printf ', peak memory %s kB' "$(env time -f %M "$program" "$directions" "$count" 2>&1 >/dev/null)"
    fi
    printf '\n'
  done
done
read -r found micros <<<"$("$program" points 10000)"
printf 'a point found in %d.%d microseconds\n' $((micros / found)) $((micros * 10 / found % 10))
