#!/usr/bin/env bash
# Compares, for kernels, scripts and arguments made at random, what the program says with what others say; tests/agree.py tells
# what is compared: tests/agree.sh PROGRAM [CASES] [SEED].
set -u
[ $# -ge 1 ] || { echo "usage: tests/agree.sh PROGRAM [CASES] [SEED]" >&2; exit 2; }
tests=$(cd "$(dirname "${BASH_SOURCE[0]}")" && pwd) || exit 1
exec python3 -B "$tests/agree.py" "$1" --cases "${2:-2000}" --seed "${3:-1}"
