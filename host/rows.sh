#!/usr/bin/env bash
# The thin program on a feed: host/rows.sh FEED. It is proved and built first where it is not yet. On another processor than x86-64 Debian's emulator
# runs it, which today's kit gives no occasion to try: it proves and builds on x86-64 alone.
set -eu
cd "$(dirname "$0")/.."
if [ $# -ne 1 ] || ! [ -r "$1" ]; then
  echo "say which feed to read: host/rows.sh FEED"
  exit 1
fi
host/prove.sh odm_rows
[ "$(uname -m)" = x86_64 ] || exec qemu-x86_64 target/bin/odm_rows <"$1"
exec target/bin/odm_rows <"$1"
