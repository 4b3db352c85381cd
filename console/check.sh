#!/usr/bin/env bash
# Runs every session in console/sessions/ from the root of the repository and compares what the console said with what is stored.
# Usage: console/check.sh COMMAND.., the command that starts the console, seen from the root: console/check.sh qemu-x86_64 build/odm-console
# A session is NAME.in (what is typed), NAME.args (one argument a line), NAME.out (what is said, and the exit status where it is not 0) and, where
# the arguments have a speech command that writes build/sessions/NAME.said, NAME.said. What was said this time stays in build/sessions/.
# Each session has a folder of its own to write to, build/sessions/NAME.files, with the files of NAME.before or empty: afterwards it holds the files of
# NAME.files and no others, and none at all where there is no NAME.files. Where there is NAME.limit, no file can grow past that many KB, as on a disk that is
# full. Where there is NAME.terminal, the console's standard output is a terminal; what it says there every two seconds is held to its words alone.
set -u
cd "$(dirname "$0")/.." || exit 1
if [ $# -eq 0 ]; then
  echo "usage: console/check.sh COMMAND.."
  exit 2
fi
. console/session.sh
stored=console/sessions
fresh=build/sessions
sessions=0
failed=0

blank_lines() { # blank_lines COUNT
  head -c "$1" /dev/zero | tr '\0' '\n'
}

make_day() { # a state for each second of a day: data line N of it, from 0, is line N + 13, has the rows from 7 x N + 12 on, and says N at X and -N at Y
  sed '/^META_STOP/q; s/^STOP_TIME.*/STOP_TIME=2000-001T23:59:59/' "$stored/whole.oem"
  awk 'BEGIN { for (n = 0; n < 86400; n++) printf "2000-01-01T%02d:%02d:%02d %d %d 0 7.5 -1 0.25\n", n / 3600, n / 60 % 60, n % 60, n, -n }'
}

make_long_lines() { # two messages with a line that is 3,000,000 bytes too long, one by letters and one by blanks
  local filling
  for filling in x ' '; do
    printf 'CCSDS_OPM_VERS=1.0\nCOMMENT'
    head -c 3000247 /dev/zero | tr '\0' "$filling"
    echo
  done
}

make_feeds() { # what a session changes or removes, what is too big to be stored, and what is another feed but for a line or the line endings
  cp "$stored/whole.oem" "$fresh/changing.oem"
  cp "$stored/whole.oem" "$fresh/vanishing.oem"
  cp "$stored/whole.oem" "$fresh/write-changed.oem"
  { cat "$stored/whole.oem"; blank_lines 16776971; } >"$fresh/full.feed" # 16,777,215 bytes, the limit
  { cat "$fresh/full.feed"; echo; } >"$fresh/long.feed"
  { cat "$stored/whole.oem"; blank_lines 65292; } >"$fresh/past.feed" # 65,536 bytes, one past the limit of earlier consoles
  { blank_lines 65536; cat "$stored/whole.oem"; } >"$fresh/late.feed" # a message that starts past that limit
  head -n 12 "$stored/whole.oem" >"$fresh/dataless.oem" # document 01's feed without its line 13, and with its line 12 twice
  sed '12p' "$stored/whole.oem" >"$fresh/stopped.oem"
  make_day >"$fresh/day.feed"
  make_long_lines >"$fresh/long-lines.feed"
  tr '\n' '\r' <"$stored/why.feed" >"$fresh/why-cr.feed" # the messages of `why` with other line endings
  awk -v ORS='\n\r' 1 "$stored/why.feed" >"$fresh/why-lf-cr.feed"
  mkfifo "$fresh/slow.feed"
}

rm -rf "$fresh"
mkdir -p "$fresh/none"
make_feeds
for typed in "$stored"/*.in; do
  name=$(basename "$typed" .in)
  if [ -e "$stored/$name.terminal" ] && ! script -qec true /dev/null </dev/null >/dev/null 2>&1; then
    echo "session $name not run: there is no terminal to be had here"
    continue
  fi
  sessions=$((sessions + 1))
  run "$name" "$@"
  if ! same "$name"; then
    echo "FAILED: session $name"
    failed=$((failed + 1))
  fi
done
if [ "$failed" -gt 0 ]; then
  echo "$failed of $sessions sessions not as stored"
  exit 1
fi
echo "$sessions sessions as stored"
