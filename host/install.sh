#!/usr/bin/env bash
# Puts what `make` built under PREFIX, or takes exactly that away again: host/install.sh install, host/install.sh uninstall. DESTDIR, where it is given,
# stands in front of every place that is written to, and in no file: so a packager fills a folder that is later unpacked at the root.
# Folders that were not there are made, and noted in build/folders-made; an uninstall from the same checkout removes those of them that are empty then.
set -eu
cd "$(dirname "$0")/.."
. host/tools.sh
PREFIX=${PREFIX:-/usr/local}
DESTDIR=${DESTDIR:-}
case $PREFIX in
  /*) ;;
  *)
    echo "PREFIX is not a path from the root: $PREFIX"
    exit 1
    ;;
esac
PREFIX=$(realpath -ms -- "$PREFIX")
[ -z "$DESTDIR" ] || DESTDIR=$(realpath -ms -- "$DESTDIR")
root=$DESTDIR$PREFIX
note=build/folders-made

files() { # what is installed: its mode, or where its link leads, the file that it is made from, and its place under the prefix
  cat <<LIST
644 include/odm.h include/odm.h
644 include/odm_names.h include/odm_names.h
644 target/staticlib/libodm.a lib/libodm.a
644 build/$(odm_shared) lib/$(odm_shared)
link $(odm_shared) lib/$(odm_soname)
link $(odm_soname) lib/libodm.so
644 build/odm.pc lib/pkgconfig/odm.pc
755 build/odm-console bin/odm-console
755 target/bin/odm_rows bin/odm-rows
644 man/odm.3 share/man/man3/odm.3
644 man/odm-console.1 share/man/man1/odm-console.1
644 man/odm-rows.1 share/man/man1/odm-rows.1
LIST
}

write_pc() { # what pkg-config says of the library
  cat <<PC
prefix=$PREFIX
libdir=\${prefix}/lib
includedir=\${prefix}/include

Name: odm
Description: Orbit messages (CCSDS OPM and OEM) judged, and spoken row by row
Version: $(odm_version)
Libs: -L"\${libdir}" -lodm
Cflags: -I"\${includedir}"
PC
}

make_folder() { # make_folder FOLDER: it and those above it, each that was not there noted
  [ ! -d "$1" ] || return 0
  make_folder "$(dirname "$1")"
  mkdir -m 755 "$1"
  printf '%s\n' "$1" >>"$note"
}

put() { # put MODE FROM PLACE
  make_folder "$(dirname "$root/$3")"
  if [ "$1" = link ]; then ln -sf "$2" "$root/$3"; else install -m "$1" "$2" "$root/$3"; fi
  echo "installed $root/$3"
}

take() { # take MODE FROM PLACE
  [ -e "$root/$3" ] || [ -L "$root/$3" ] || return 0
  rm "$root/$3"
  echo "removed $root/$3"
}

drop_folders() { # removes the folders that an install made at, under or above this prefix, if they are empty; the others stay noted
  local folder
  [ -e "$note" ] || return 0
  tac "$note" | while IFS= read -r folder; do
    case $folder/ in "$root"/*) rmdir "$folder" 2>/dev/null || true ;; esac
    case $root/ in "$folder"/*) rmdir "$folder" 2>/dev/null || true ;; esac
    [ ! -d "$folder" ] || printf '%s\n' "$folder"
  done | tac >"$note.left"
  mv "$note.left" "$note"
}

each() { # each COMMAND: for every file
  local mode from place
  files | while read -r mode from place; do "$1" "$mode" "$from" "$place"; done
}

refresh() { # the loader's list of shared libraries, where the place is this machine's own
  [ -n "$DESTDIR" ] || [ "$(id -u)" -ne 0 ] || PATH=$PATH:/sbin:/usr/sbin ldconfig
}

case ${1:-} in
  install)
    mkdir -p build
    write_pc >build/odm.pc
    each put
    refresh
    ;;
  uninstall)
    removed=$(each take)
    echo "${removed:-nothing of it is installed under $root}"
    drop_folders
    refresh
    ;;
  *)
    echo "say what to do: host/install.sh install, or host/install.sh uninstall"
    exit 2
    ;;
esac
