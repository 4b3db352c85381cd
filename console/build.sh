#!/usr/bin/env bash
# Builds a console from the C files of a folder, over the archive: the console itself and the wrong ones (wrong.sh) with the same flags.
# Usage: console/build.sh COMPILER FOLDER PROGRAM, the folder and the program seen from the root of the repository.
set -eu
cd "$(dirname "$0")/.."
if [ $# -ne 3 ]; then
  echo "usage: console/build.sh COMPILER FOLDER PROGRAM"
  exit 2
fi
"$1" -std=c11 -pedantic -Wall -Wextra -Werror -O2 -Iinclude "$2"/*.c target/staticlib/libodm.a -static -o "$3"
