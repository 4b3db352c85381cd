#!/usr/bin/env bash
# The archive under a host built with the compiler's sanitizers, on a short comparison. The address sanitizer does not run under the emulator; there the
# undefined-behaviour sanitizer alone is used, and stray accesses are left to the fenced pages of second/face.c, which see into the archive too.
set -eu
cd "$(dirname "$0")/.."
. host/tools.sh
host_tools
mkdir -p build
if [ -n "$RUN" ]; then
  # Debian's cross libm.a is a linker's script whose paths are those of a native machine: a copy with its own paths is linked instead
  sed 's|/usr/lib/x86_64-linux-gnu/|/usr/x86_64-linux-gnu/lib/|g' /usr/x86_64-linux-gnu/lib/libm.a >build/libm.a
  kinds=undefined link="-static -Lbuild"
else
  kinds=address,undefined link=
fi
"$CC" -std=c11 -pedantic -Wall -Wextra -Werror -O1 -g -fsanitize=$kinds -fno-sanitize-recover=all -Iinclude second/face.c target/staticlib/libodm.a $link -o build/face_sanitized
(cd second && cargo build --release --offline --quiet)
second/target/release/compare --seed 2 --feeds 1000 --face $RUN build/face_sanitized
