#!/usr/bin/env bash
# Times as ratios, in one run, and instructions beside them. The archive is for x86-64: on another processor all run under the same emulator, so the
# ratios are those of emulated instructions, and the microseconds say nothing. BEFORE=COMMIT has the archive of that commit judge the same feeds.
set -eu
cd "$(dirname "$0")/.."
. host/tools.sh
host_tools
mkdir -p build
ways=(product second)
"$CC" -O2 -Wall -Wextra -Werror -c bench/reader.c -o build/reader.o
flags=(--edition 2021 -C opt-level=3 -C "link-arg=$PWD/build/libodm-bench.a" -C "link-arg=$PWD/build/reader.o")
# Each function of an archive starts on a cache line: where a linker happens to put a loop is worth up to 17 hundredths of the time (bench/README.md).
align() { "${CROSS}objcopy" --set-section-alignment '.text*=64' "$@"; }
align target/staticlib/libodm.a build/libodm-bench.a
if [ -n "${BEFORE:-}" ]; then
  commit=$(git rev-parse --short "$BEFORE")
  earlier=build/libodm-$commit.a
  echo "the landing before: $(git log -1 --format='%h, %s' "$commit")"
  if ! [ -e "$earlier" ]; then # built elsewhere: a file of Rattle under this folder that no crate here has fails the gate
    clone=$(mktemp -d)
    git clone -q . "$clone/odm"
    git -C "$clone/odm" checkout -q "$commit"
    "$clone/odm/host/prove.sh" odm
    cp "$clone/odm/target/staticlib/libodm.a" "$earlier"
    rm -rf "$clone"
  fi
  # both archives have the same names, so those of the earlier one get a word in front
  "${CROSS}nm" --defined-only -g "$earlier" | awk '$2 == "T" { print $3, "before_" $3 }' >build/before.names
  align --redefine-syms=build/before.names "$earlier" build/libodm-before.a
  flags+=(--cfg before -C "link-arg=$PWD/build/libodm-before.a")
  ways=(product before second)
fi
if [ -n "$RUN" ]; then
  if ! [ -d /usr/lib/rustlib/x86_64-unknown-linux-gnu ]; then
    echo "installing Rust's library for x86-64"
    dpkg --add-architecture amd64
    apt-get update -qq >/dev/null 2>&1
    DEBIAN_FRONTEND=noninteractive apt-get install -y -qq rustc-web libstd-rust-web-dev:amd64 libc6-dev:amd64 >/dev/null
  fi
  echo "this processor is not x86-64: everything below runs under an emulator"
  /usr/bin/rustc "${flags[@]}" --target x86_64-unknown-linux-gnu -C linker="$CC" -C target-feature=+crt-static -C relocation-model=static bench/main.rs -o build/bench
else
  rustc "${flags[@]}" bench/main.rs -o build/bench
fi
$RUN build/bench
for length in 4096 16777215; do $RUN build/bench memory $length; done

# Instructions: what three runs over a feed take more than one does, so that the feed's making does not count. They don't hang on the machine's speed.
if [ -z "$RUN" ] && ! command -v valgrind >/dev/null; then
  echo "installing valgrind"
  { apt-get update && DEBIAN_FRONTEND=noninteractive apt-get install -y valgrind; } >/dev/null 2>&1 || true
fi
if [ -n "$RUN" ] || ! command -v valgrind >/dev/null; then
  echo "instructions are not counted: that takes valgrind on an x86-64 machine"
  exit 0
fi
instructions() { # WAY FEED
  local runs count=()
  for runs in 1 3; do
    count+=("$(valgrind --tool=callgrind --callgrind-out-file=/dev/null build/bench count "$1" "$2" "$runs" 2>&1 >build/bench.feed | sed -n 's/.*Collected : //p')")
  done
  echo $(((count[1] - count[0]) / 2))
}
echo "instructions, and the product's as a ratio:"
for feed in 0 1 2 3 4 5; do
  own=$(instructions product "$feed")
  bytes=$(cut -f 1 build/bench.feed)
  echo "$(cut -f 2 build/bench.feed): $own, $(awk "BEGIN { printf \"%.1f\", $own / $bytes }") a byte of the feed"
  for way in "${ways[@]:1}"; do
    other=$(instructions "$way" "$feed")
    case $way in before) named="the landing before" ;; *) named="the second program" ;; esac
    echo "  against $named: $(awk "BEGIN { printf \"%.3f\", $own / $other }") ($other)"
  done
done
ratio() { awk "BEGIN { printf \"%.3f\", $1 / $2 }"; }
for feed in 0 1 2 3 5; do # the one between is refused
  placed=$(instructions place "$feed")
  echo "placing $(cut -f 2 build/bench.feed): $placed, $(awk "BEGIN { printf \"%.1f\", $placed / $(cut -f 1 build/bench.feed) }") a byte of the feed"
  echo "  against judging: $(ratio "$placed" "$(instructions product "$feed")")"
  if [ -n "${BEFORE:-}" ]; then
    before=$(instructions place-before "$feed")
    echo "  in the landing before, against judging: $(ratio "$before" "$(instructions before "$feed")") ($before)"
    echo "  against placing in the landing before: $(ratio "$placed" "$before")"
  fi
done
written=$(instructions write 0)
placed=$(instructions place 0)
echo "writing a $(cut -f 2 build/bench.feed): $written, $(awk "BEGIN { printf \"%.1f\", $written / $(cut -f 1 build/bench.feed) }") a byte of the feed"
echo "  against placing it: $(awk "BEGIN { printf \"%.3f\", $written / $placed }") ($placed)"
