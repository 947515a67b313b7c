#!/usr/bin/env bash
# Proves and builds the program: the crates on which it stands, each as soon as those below it are built, as many side by side as
# there are processors. What was built is kept, so that an interrupted build goes on where it stopped.
set -u
top=$(cd "$(dirname "$(readlink -f "${BASH_SOURCE[0]}")")" && pwd) || exit 1
jobs=${LOOPW_JOBS:-$(nproc)}
logs=$top/out
command -v rt >/dev/null 2>&1 || { echo "loopw: the command rt of the Rattle kit is needed to prove and build the program" >&2; exit 1; }
mkdir -p "$logs" || exit 1

declare -A below=() done_crates=()
while IFS=: read -r name rest; do
  case $name in '' | \#*) continue ;; esac
  below[${name%% *}]=$rest
done <"$top/crates.txt"

# The crates on which one stands, lowest first, and itself.
needed=()
declare -A listed=()
list() {
  [ -z "${listed[$1]-}" ] && [ -n "${below[$1]+x}" ] || return 0
  listed[$1]=1
  local lower
  for lower in ${below[$1]}; do list "$lower"; done
  needed+=("$1")
}
list loopw
count=${#needed[@]}

echo "loopw: proving and building the program, once: $count crates, $jobs side by side; this can take an hour or more and some 5 GB" >&2
say() { if [ -t 2 ]; then printf '\r\033[K%s' "$1" >&2; else printf '%s\n' "$1" >&2; fi; }

is_ready() {
  local lower
  for lower in ${below[$1]}; do
    [ -z "${below[$lower]+x}" ] || [ -n "${done_crates[$lower]-}" ] || return 1
  done
}

began=$SECONDS
declare -A running=() started=()
finished=0
while [ "$finished" -lt "$count" ]; do
  for name in "${needed[@]}"; do
    [ "${#running[@]}" -lt "$jobs" ] || break
    [ -z "${started[$name]-}" ] && is_ready "$name" || continue
    started[$name]=1
    if [ "$name" = loopw ]; then command=run; else command=lib; fi
    (cd "$top/crates/$name" && exec rt "$command") >"$logs/$name.log" 2>&1 </dev/null &
    running[$!]=$name
  done
  wait -n -p ended "${!running[@]}"
  status=$?
  name=${running[$ended]}
  unset "running[$ended]"
  # The program itself ends with status 2, since it is given no words.
  if [ "$status" -ne 0 ] && ! { [ "$name" = loopw ] && [ -x "$top/crates/loopw/out/loopw" ]; }; then
    kill "${!running[@]}" 2>/dev/null
    say "loopw: $name could not be built; see $logs/$name.log"
    [ -t 2 ] && echo >&2
    exit 1
  fi
  done_crates[$name]=1
  finished=$((finished + 1))
  say "loopw: crate $finished of $count, $name, $(((SECONDS - began) / 60)) minutes"
done
[ -t 2 ] && echo >&2
touch "$top/crates/loopw/out/loopw"
