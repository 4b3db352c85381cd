#!/usr/bin/env bash
# Builds what `make install` puts in place, each piece only where it is not built yet: the archive and the thin program, which are proved first, the shared
# library and the console.
set -eu
cd "$(dirname "$0")/.."
. host/tools.sh
archive=target/staticlib/libodm.a
shared=build/$(odm_shared)
console=build/odm-console

is_older() { # is_older FILE INPUT..: whether the file is not there, or one of the inputs is newer
  [ ! -e "$1" ] || [ -n "$(find "${@:2}" -newer "$1" -print -quit)" ]
}

# It needs nothing, not even the C library, and says so where that is not so. Every function is there, and what each is bound to is settled as it is loaded.
build_shared() {
  "$CC" -shared -nostdlib -Wl,-soname,"$(odm_soname)" -Wl,-z,defs -Wl,-z,relro -Wl,-z,now -Wl,--whole-archive "$archive" -o "$shared"
}

mkdir -p build
host/prove.sh odm_rows odm
echo "the archive is $archive"
if is_older "$shared" "$archive" include/odm.h host/build.sh; then
  host_tools
  build_shared
fi
echo "the shared library is $shared"
if is_older "$console" "$archive" include console/*.[ch] console/build.sh; then
  host_tools
  console/build.sh "$CC" console "$console"
fi
echo "the console is $console"
echo "the thin program is target/bin/odm_rows"
