#!/usr/bin/env bash
# Builds the console wrong, once for each edit of console/must-fail/, and sees that a session whose name begins with `preview` is then not as stored.
# Usage: console/wrong.sh COMPILER COMMAND.., after console/check.sh COMMAND.., which makes the feeds. The command's last word is the console as it is, and
# the words before it run the wrong ones too: console/wrong.sh x86_64-linux-gnu-gcc qemu-x86_64 build/odm-console
# An edit is NAME.edit, of four lines: `# ` and what is right, `file: ` and a file of console/, `old: ` and a line of it, which stands there once, and
# `new: ` and the line that takes its place. A wrong console, what it said and what of that differs stay in build/wrong/NAME/.
set -u
cd "$(dirname "$0")/.." || exit 1
if [ $# -lt 2 ]; then
  echo "usage: console/wrong.sh COMPILER COMMAND.."
  exit 2
fi
. console/session.sh
stored=console/sessions
compiler=$1
shift
emulator=("${@:1:$#-1}")
found=0
failed=0

copy() { # copy FOLDER: the console's files, to be edited there
  mkdir -p "$1/none"
  cp console/*.c console/*.h "$1"
}

change() { # change FOLDER EDIT: puts the edit's new line in place of its old one
  local folder=$1 lines=() file old
  mapfile -t lines <"$2"
  if [ "${#lines[@]}" -ne 4 ] || [[ ${lines[0]} != "# "* || ${lines[1]} != "file: "* || ${lines[2]} != "old: "* || ${lines[3]} != "new: "* ]]; then
    echo "$2 has not the four lines of an edit"
    return 1
  fi
  file=$folder/${lines[1]#file: }
  old=${lines[2]#old: }
  if [ ! -f "$file" ] || [ "$(grep -cxF -e "$old" "$file")" -ne 1 ]; then
    echo "$2: its old line does not stand exactly once in ${lines[1]#file: }"
    return 1
  fi
  OLD=$old NEW=${lines[3]#new: } awk '$0 "" == ENVIRON["OLD"] { $0 = ENVIRON["NEW"] } 1' "$file" >"$folder/changed"
  mv "$folder/changed" "$file"
}

unlike() { # unlike FOLDER COMMAND..: names the sessions that are not as stored
  local fresh=$1 typed name names=
  shift
  for typed in "$stored"/preview*.in; do
    name=$(basename "$typed" .in)
    run "$name" "$@"
    same "$name" >"$fresh/$name.unlike" || names="${names:+$names and }session $name"
  done
  echo "$names"
}

try() { # try NAME: whether the wrong build is made and found
  local folder=build/wrong/$1 sessions
  copy "$folder"
  change "$folder" "console/must-fail/$1.edit" || return 1
  if ! console/build.sh "$compiler" "$folder" "$folder/console"; then
    echo "$1 does not build"
    return 1
  fi
  sessions=$(unlike "$folder" "${emulator[@]}" "$folder/console")
  if [ -z "$sessions" ]; then
    echo "$1 is not found"
    return 1
  fi
  echo "$1 is found by $sessions"
}

rm -rf build/wrong
mkdir -p build/wrong/right/none
sessions=$(unlike build/wrong/right "$@")
if [ -n "$sessions" ]; then # then finding a wrong build would tell nothing
  echo "FAILED: the console as it is goes not as stored in $sessions"
  exit 1
fi
names=()
tries=()
for edit in console/must-fail/*.edit; do # side by side, for time: each has a folder of its own
  name=$(basename "$edit" .edit)
  try "$name" >"build/wrong/$name.said" 2>&1 &
  names+=("$name")
  tries+=($!)
done
for at in "${!names[@]}"; do
  wait "${tries[at]}"
  status=$?
  cat "build/wrong/${names[at]}.said"
  if [ "$status" -eq 0 ]; then
    found=$((found + 1))
  else
    echo "FAILED: wrong build ${names[at]}"
    failed=$((failed + 1))
  fi
done
if [ "$failed" -gt 0 ]; then
  echo "$failed of $((found + failed)) wrong builds not found"
  exit 1
fi
echo "$found wrong builds found"
