#!/usr/bin/env bash
# The product's archive and the second program, side by side: fixed cases, then generated feeds (arguments go to the comparer).
set -eu
cd "$(dirname "$0")/.."
. host/tools.sh
host_tools
mkdir -p build
"$CC" -std=c11 -pedantic -Wall -Wextra -Werror -O2 -Iinclude second/face.c target/staticlib/libodm.a -static -o build/face
(cd second && cargo build --release --offline --quiet)
second/target/release/compare "$@" --face $RUN build/face
