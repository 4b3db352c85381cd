#!/usr/bin/env bash
# What `make install` puts under an empty folder is all that a host needs: the example of README.md and that of the manual are built with what pkg-config says,
# statically and against the shared library, and say what they should; the installed programs run from another folder; `make uninstall` leaves nothing of it.
set -eu
repository=$(cd "$(dirname "$0")/.." && pwd)
cd "$repository"
. host/tools.sh
host_tools
need pkg-config pkg-config
unset MAKEFLAGS PREFIX DESTDIR # those of a make that has started this
away=$(mktemp -d)
doing="the folders to install into"
trap 'rm -rf "$away"; [ -z "$doing" ] || echo "not as it should be: $doing"' EXIT
mkdir "$away/prefix" "$away/root" "$away/elsewhere"
export PKG_CONFIG_LIBDIR=$away/prefix/lib/pkgconfig
emulator=() # it has Debian's cross C library in place of the system's own
if [ -n "$RUN" ]; then emulator=("$RUN" -L /usr/x86_64-linux-gnu -E "LD_LIBRARY_PATH=$away/prefix/lib:/lib"); fi
flags=(-std=c11 -pedantic -Wall -Wextra -Werror -O2)

version=$(echo ODM_VERSION | "$CC" -E -P -include include/odm.h - | tail -n 1 | tr -d '"') # the header's, as the compiler reads it

in_order() { LC_ALL=C sort; }

names_in() { (cd "$1" && find . ! -type d) | in_order; } # names_in FOLDER: its files and links

installed() { # what the folder of a prefix should hold
  printf './%s\n' bin/odm-console bin/odm-rows include/odm.h include/odm_names.h lib/libodm.a lib/libodm.so "lib/libodm.so.${version%%.*}" "lib/libodm.so.$version" \
    lib/pkgconfig/odm.pc share/man/man1/odm-console.1 share/man/man1/odm-rows.1 share/man/man3/odm.3
}

needs_of() { "${CROSS}readelf" -dW "$1" | sed -n 's/.*(NEEDED).*\[\(.*\)\]/\1/p; s/.*(R\(UN\)\{0,1\}PATH).*/a path of its own/p'; }

check_shared() { # its names are the header's functions, it needs nothing, and its own name has the version's first number alone
  local library=$away/prefix/lib/libodm.so
  diff <("${CROSS}nm" -D "$library" | awk '{ print $NF }') <(sed -n 's/^[a-z].*\(odm_[a-z_]*\)(.*/\1/p' include/odm.h | in_order)
  [ -z "$(needs_of "$library")" ]
  "${CROSS}readelf" -dW "$library" | grep -q "SONAME.*\[$(basename "$(readlink "$library")")\]"
}

run_shared() { LD_LIBRARY_PATH=$away/prefix/lib "${emulator[@]}" "$@"; } # run_shared PROGRAM..: the folder is none that the loader looks in by itself

build_both() { # build_both NAME: NAME.c in two ways, by the words of pkg-config alone
  local words
  read -r -a words <<<"$(pkg-config --cflags --libs odm)"
  (
    cd "$away/elsewhere"
    "$CC" "${flags[@]}" "$1.c" "${words[@]}" -static -o "$1-static"
    "$CC" "${flags[@]}" "$1.c" "${words[@]}" -o "$1-shared"
  )
  [ -z "$(needs_of "$away/elsewhere/$1-static")" ]
  needs_of "$away/elsewhere/$1-shared" | grep -q '^libodm\.so\.[0-9]*$'
}

says() { # says NAME FEED: both builds say of this feed the lines that come on standard input
  local want
  want=$(cat)
  diff <(echo "$want") <($RUN "$away/elsewhere/$1-static" "$2")
  diff <(echo "$want") <(run_shared "$away/elsewhere/$1-shared" "$2")
}

check_readme_example() {
  awk '/^```c$/ { on = 1; next } /^```$/ { on = 0 } on' README.md >"$away/elsewhere/readme.c"
  build_both readme
  says readme examples/figure-3-1.opm <<'SAYS'
row 0: CCSDS_OPM_VERS, value 1.0
row 16: about 65035 tenths of kilometres
message 2: reason 2, 0 rows
the ticket is alive
the ticket is gone
message 1 in plain form has 843 bytes
SAYS
  head -n 11 examples/figure-3-1.opm >"$away/elsewhere/cut.opm" # cut off before EPOCH
  says readme "$away/elsewhere/cut.opm" <<'SAYS'
message 1 refused: the message ends before it is complete, line 12, 0 bytes at 256
EPOCH could have stood there
SAYS
  says readme "$away" <<<"the feed cannot be read" # a folder
}

check_manual_example() {
  awk '/^\.Sh / { here = $2 == "EXAMPLES" } here && /^\.Bd/ { on = 1; next } /^\.Ed/ { on = 0 } on' man/odm.3 | sed 's/\\e/\\/g' >"$away/elsewhere/manual.c"
  build_both manual
  says manual console/sessions/whole.oem <<'SAYS'
row 0 CCSDS_OEM_VERS 1.0
row 1 CREATION_DATE 2000-01-01T00:00:00
row 2 ORIGINATOR A
row 3 META_START
row 4 OBJECT_NAME B
row 5 OBJECT_ID C
row 6 CENTER_NAME D
row 7 REF_FRAME E
row 8 TIME_SYSTEM UTC
row 9 START_TIME 2000-001T00:00:00
row 10 STOP_TIME 2000-001T00:00:00
row 11 META_STOP
row 12 EPOCH 2000-01-01T00:00:00
row 13 X 1 kilometres
row 14 Y 2 kilometres
row 15 Z 3 kilometres
row 16 X_DOT 4 kilometres per second
row 17 Y_DOT 5 kilometres per second
row 18 Z_DOT 6 kilometres per second
SAYS
  says manual "$away" <<<"the feed cannot be read" # a folder
  says manual "$away/elsewhere/cut.opm" <<'SAYS'
message 1 refused: the message ends before it is complete
line 12
EPOCH, or in an OEM a data line, could have stood there
SAYS
}

run_installed() { # run_installed PROGRAM..: from another folder, in an environment of nothing but the system's own programs
  (cd "$away/elsewhere" && env -i PATH=/usr/bin:/bin "${emulator[@]}" "$away/prefix/bin/$1" "${@:2}")
}

check_programs() {
  run_installed odm-rows <examples/figure-3-2.opm | head -n 2 | diff - <(printf '%s\n' "message 1 accepted rows 51" "0 1 0 1 22 3 1.0")
  printf '%s\n' 'load 1' 'row 13' | run_installed odm-console "$repository/console/sessions/whole.oem" | tail -n +2 | diff - <(
    printf '%s\n' '1 message' 'message 1 accepted' '19 rows' 'row 13 X' 'value 1 kilometres' 'segment 1' 'line 13'
  )
  [ "$(run_installed odm-console --version)" = "odm-console $version" ]
  # nothing is needed but Debian's own C library, of Debian 12 or later
  [ -z "$(needs_of "$away/prefix/bin/odm-console")" ]
  [ "$(needs_of "$away/prefix/bin/odm-rows")" = libc.so.6 ]
  "${CROSS}readelf" -lW "$away/prefix/bin/odm-rows" | grep -q 'interpreter: /lib64/ld-linux-x86-64.so.2'
  [ "$({ "${CROSS}readelf" -VW "$away/prefix/bin/odm-rows" | grep -o 'GLIBC_[0-9.]*'; echo GLIBC_2.36; } | sort -V | tail -n 1)" = GLIBC_2.36 ]
}

check_apart() { # no installed file names the repository or the kit
  ! grep -rlF -e "$repository" -e "$(dirname "$(dirname "$(rt doc)")")" "$away/prefix"
}

check_staged() { # DESTDIR: under it the same files, in no file its name; what was there before stays, an empty folder too
  mkdir -p "$away/root/usr/local/include" "$away/root/usr/local/lib"
  touch "$away/root/usr/local/lib/other.so"
  make -s install DESTDIR="$away/root" >/dev/null
  diff <(names_in "$away/root/usr/local") <({ installed; echo ./lib/other.so; } | in_order)
  [ "$(PKG_CONFIG_LIBDIR=$away/root/usr/local/lib/pkgconfig pkg-config --variable=prefix odm)" = /usr/local ]
  [ "$(grep -rlF "$away" "$away/root" | wc -l)" -eq 0 ]
  make -s uninstall DESTDIR="$away/root" >/dev/null
  diff <(cd "$away/root" && find . | in_order) <(printf '%s\n' . ./usr ./usr/local ./usr/local/include ./usr/local/lib ./usr/local/lib/other.so)
}

doing="make install"
make -s install PREFIX="$away/prefix" >"$away/said"
doing="the newest version in docs/CHANGES.md"
[ "$(grep -m 1 '^## ' docs/CHANGES.md)" = "## $version" ]
doing="the list of installed files"
diff <(names_in "$away/prefix") <(installed | in_order)
[ "$(pkg-config --modversion odm)" = "$version" ]
doing="the shared library's names and needs"
check_shared
doing="the example of README.md"
check_readme_example
doing="the example of odm.3"
check_manual_example
doing="the installed programs"
check_programs
doing="what installed files name"
check_apart
doing="make uninstall"
make -s uninstall PREFIX="$away/prefix" >"$away/said"
[ -z "$(ls -A "$away/prefix")" ]
doing="an install under DESTDIR"
check_staged
doing=
echo "what is installed stands by itself, and make uninstall leaves nothing of it"
