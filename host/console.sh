#!/usr/bin/env bash
# The console over the archive, its stored sessions, and its wrong builds, which these must tell from it. With arguments it is run with them instead:
# host/console.sh FEED [--say CMD].
set -eu
cd "$(dirname "$0")/.."
. host/tools.sh
host_tools
mkdir -p build
console/build.sh "$CC" console build/odm-console
if [ $# -gt 0 ]; then
  exec $RUN build/odm-console "$@"
fi
console/check.sh $RUN build/odm-console
console/wrong.sh "$CC" $RUN build/odm-console
