#!/usr/bin/env bash
# Proves and builds programs (host/prove.sh odm_rows) or the archive for C (host/prove.sh odm), or both, and lets the wait be heard: how long it takes about,
# and a line for each crate as it is proved. All of it goes to standard error, so that a program's own lines stand alone. Where no file changed since the
# last time, nothing is done and nothing said. The verdict is `make test`.
set -eu -o pipefail
cd "$(dirname "$0")/.."
names=("$@")

built_of() { if [ "$1" = odm ]; then echo target/staticlib/libodm.a; else echo "target/bin/$1"; fi; }

uses_of() { sed -n "s/^$1\( staticlib\)\{0,1\}://p" crates.txt; }

# A crate uses only those above it in crates.txt.
needed=$(tac crates.txt | awk -F: -v names="${names[*]}" 'BEGIN { n = split(names, uses, " "); for (k = 1; k <= n; k++) on[uses[k]] = 1 }
  { sub(/ staticlib$/, "", $1) } on[$1] { print $1; n = split($2, uses, " "); for (k = 1; k <= n; k++) on[uses[k]] = 1 }' | tac)

is_stale() { # whether a crate was never proved, or a file of it changed since, or a crate that it uses is stale or was proved since
  local mark=target/stamp/$1 files=(crates.txt "crates/$1") use
  [ "$1" != odm ] || mark=$(built_of odm) # the archive leaves no stamp
  [ -e "$mark" ] || return 0
  for use in $(uses_of "$1"); do
    case $stale in *" $use "*) return 0 ;; esac
    [ ! -e "target/stamp/$use" ] || files+=("target/stamp/$use")
  done
  [ -n "$(find "${files[@]}" \( -name must-fail -o -name out \) -prune -o -type f -newer "$mark" -print -quit)" ]
}

for name in "${names[@]}"; do [ -e "$(built_of "$name")" ] || rm -f "target/stamp/$name"; done
stale=" "
for crate in $needed; do
  if is_stale "$crate"; then stale="$stale$crate "; fi
done
count=$(echo "$stale" | wc -w)
[ "$count" -gt 0 ] || exit 0
wanted=() # a program or archive is stale wherever a crate under it is
for name in "${names[@]}"; do
  case $stale in *" $name "*) wanted+=("$name") ;; esac
done
if ! command -v rt >/dev/null 2>&1; then
  echo "the Rattle kit (rt) is not on this machine, and nothing is proved or built without it" >&2
  exit 1
fi

# on two cores a crate takes some 12 seconds, and a program to link some 10 more
echo "proving $count crate$([ "$count" = 1 ] || echo s) first, which takes about $((10 + count * 12)) seconds" >&2

log=build/prove.log
mkdir -p build target/stamp target/staticlib target/bin

hear() { # what the prover says, all of it into the log, and a line for each crate that is proved
  local line crate= start=$SECONDS
  while IFS= read -r line; do
    printf '%s\n' "$line" >>"$log"
    if [[ $line =~ ^"crate "([a-z_]+)": " ]]; then crate=${BASH_REMATCH[1]}; fi
    if [[ $line == logic=proved* ]]; then
      echo "$crate proved, $((SECONDS - start)) seconds" >&2
      start=$SECONDS
    fi
  done
}

prove() { # the kit proves the crates below by itself, and leaves what it builds in the crate's own out/
  local name
  for name in "${wanted[@]}"; do
    if [ "$name" = odm ]; then
      (cd crates/odm && rt lib) || return
      cp crates/odm/out/libodm.a target/staticlib/ || return
    else
      (cd "crates/$name" && rt run <stdin) || return # it is run once, on its stored input
      cp "crates/$name/out/$name" target/bin/ || return
    fi
  done
}

: >"$log"
began=build/prove.began
touch "$began"
if ! prove 2>&1 | hear; then
  tail -n 3 "$log" >&2
  echo "nothing was built: not all is proved" >&2
  exit 1
fi
# Marked with the time at which this began: a file with a new time and its old contents is not looked at again, and one changed meanwhile is.
for crate in $stale; do touch -r "$began" "target/stamp/$crate"; done
for name in "${wanted[@]}"; do touch -r "$began" "$(built_of "$name")"; done
