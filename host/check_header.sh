#!/usr/bin/env bash
# The headers compile as C and as C++ with every warning an error, their names answer, and their words are what the archive accepts.
set -eu
cd "$(dirname "$0")/.."
. host/tools.sh
host_tools
mkdir -p build
for test in header names; do
  "$CC" -std=c11 -pedantic -Wall -Wextra -Werror -O2 -Iinclude host/$test.c target/staticlib/libodm.a -static -o build/${test}_c
  "$CXX" -x c++ -std=c++17 -pedantic -Wall -Wextra -Werror -O2 -Iinclude -c host/$test.c -o build/${test}_cc.o
  "$CC" build/${test}_cc.o target/staticlib/libodm.a -static -o build/${test}_cc
  $RUN build/${test}_c
  $RUN build/${test}_cc
done
