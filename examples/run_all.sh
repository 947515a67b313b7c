#!/usr/bin/env bash
# Runs each example with the built program and with what is installed of gcc, clang, gfortran and OpenCL (a C header, a library
# and a device: pocl or another), and says what is left out: examples/run_all.sh. Ends with status 1 where one does something else
# than its README.md says.
set -u
examples=$(cd "$(dirname "${BASH_SOURCE[0]}")" && pwd) || exit 1
loopw=$examples/../loopw
"$loopw" gen 1 >/dev/null || exit 1
work=$(mktemp -d) || exit 1
trap 'rm -rf "$work"' EXIT
cd "$work" || exit 1
status=0

# Runs a command in the scratch folder, and says whether it did what it should.
try() {
  local what=$1
  shift
  if "$@"; then echo "$what: as wanted"; else echo "$what: NOT as wanted"; status=1; fi
}

is_there() { command -v "$1" >/dev/null 2>&1 || { echo "$2: left out, $1 is not installed"; return 1; }; }

# Whether loopw with these words prints a file.
prints() { "$loopw" "${@:2}" | cmp - "$1"; }

doubles() {
  "$1" -std=c99 -Wall -Wno-unused-function -Werror -o double "$examples/double/double.c" "$examples/double/main.c" &&
    [ "$(./double | tr '\n' ' ')" = "2 -4 -2 " ]
}

smooths() {
  gfortran -c "$examples/smooth/smooth.f90" "$examples/smooth/main.f90" && "$1" -std=c99 -c -o loopw.o "$examples/smooth/smooth.c" &&
    gfortran -o smooth smooth.o main.o loopw.o && ./smooth >said && [ "$(cat said)" = "both store the same" ]
}

# The product on a device. Without one, launch ends with 77.
launches() {
  "$@" ./launch "$examples/product/product.cl"
  case $? in 0) ;; 77) echo "product: there is no device" ;; *) return 1 ;; esac
}

try "double: C code" prints "$examples/double/double.c" write c "$examples/double/double.txt" -
for compiler in gcc clang; do
  is_there $compiler "double with $compiler" && try "double with $compiler" doubles $compiler
done

try "smooth: C code" prints "$examples/smooth/smooth.c" write c "$examples/smooth/smooth.f90" "$examples/smooth/tiles.txt"
if is_there gfortran "smooth"; then
  for compiler in gcc clang; do
    is_there $compiler "smooth with $compiler" && try "smooth with $compiler and gfortran" smooths $compiler
  done
fi

product=$examples/product
try "product: OpenCL C code" prints "$product/product.cl" write opencl "$product/product.txt" "$product/tiles.txt"
"$loopw" eval "$product/product.txt" "$product/args.txt" >evaluated
ran() { "$loopw" run "$product/product.cl" "$product/args.txt" "$product/schedule.txt" | grep '^c = ' | cmp - <(grep '^c = ' evaluated); }
try "product: run and eval" ran
if cc -std=c99 -o launch "$product/launch.c" -lOpenCL 2>cc.log; then
  try "product on a device" launches
  is_there oclgrind "product with oclgrind" && try "product with oclgrind" launches oclgrind
else
  echo "product on a device: left out, the OpenCL header or library is not installed"
fi
exit $status
