#!/usr/bin/env bash
# The first command of README.md, once all is proved: the rows and not a word more. A file with a new time is announced in one line, and then no more.
set -eu
cd "$(dirname "$0")/.."
mkdir -p build

run() { # run WORDS: make run says these words besides its rows
  make -s run FEED=examples/figure-3-2.opm >build/run.out 2>build/run.err
  printf '%s' "$1" | diff - build/run.err
  head -n 1 build/run.out | diff - <(echo "message 1 accepted rows 51")
  [ "$(wc -l <build/run.out)" -eq 52 ]
}

run ""
touch crates/odm_rows/src/main.rt
run "proving 1 crate first, which takes about 22 seconds
"
run ""

# the thin program's own limit: a feed of 65,535 bytes is judged, one byte more is refused
head -c 65291 /dev/zero | tr '\0' '\n' | cat console/sessions/whole.oem - >build/thin.feed
[ "$(host/rows.sh build/thin.feed | head -n 1)" = "message 1 accepted rows 19" ]
echo >>build/thin.feed
[ "$(host/rows.sh build/thin.feed)" = "refused FEED_LONG" ]
echo "make run says the rows, and what it proves; the thin program keeps its limit"
