# Sourced by check.sh and wrong.sh: one session of console/sessions/, as check.sh describes it, run and compared. They say where what is stored is
# (`stored`) and where what is said this time goes (`fresh`, a folder with an empty folder `none`).

on_terminal() { # on_terminal TYPED COMMAND..: with standard output on a terminal, while slow.feed takes three seconds to come
  local typed=$1 line writer status
  shift
  printf -v line '%q ' "$@"
  { sleep 3; cat "$stored/whole.oem"; } >"$fresh/slow.feed" &
  writer=$!
  SHELL=$BASH script -qec "$line <$typed" /dev/null </dev/null | tr -d '\r' | sed -E 's/^(still .*), [0-9]+ seconds$/\1, N seconds/' | uniq
  status=${PIPESTATUS[0]}
  kill "$writer" 2>/dev/null # it waits for ever where nobody has read the feed
  return "$status"
}

run() { # run NAME COMMAND..: one session
  local name=$1 status arguments terminal=()
  shift
  mapfile -t arguments <"$stored/$name.args"
  mkdir "$fresh/$name.files"
  if [ -d "$stored/$name.before" ]; then cp "$stored/$name.before"/* "$fresh/$name.files"; fi
  if [ -e "$stored/$name.terminal" ]; then terminal=(on_terminal "$stored/$name.in"); fi
  (
    if [ -e "$stored/$name.limit" ]; then ulimit -f "$(cat "$stored/$name.limit")"; fi
    "${terminal[@]}" timeout 120 "$@" "${arguments[@]}"
  ) <"$stored/$name.in" >"$fresh/$name.out" 2>&1
  status=$?
  [ "$status" -eq 0 ] || echo "exit status $status" >>"$fresh/$name.out"
}

alike() { # alike WHAT..: whether diff finds no difference; the first lines of one are printed, since a whole feed may differ
  diff "$@" >"$fresh/difference" && return 0
  head -n 100 "$fresh/difference"
  return 1
}

same() { # same NAME: whether the session went as stored
  local result=0 files=$stored/$1.files
  [ -e "$files" ] || files=$fresh/none
  alike -u "$stored/$1.out" "$fresh/$1.out" || result=1
  if [ -e "$stored/$1.said" ]; then alike -u "$stored/$1.said" "$fresh/$1.said" || result=1; fi
  alike -ru "$files" "$fresh/$1.files" || result=1
  return "$result"
}
