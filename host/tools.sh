# Sourced by the gate and the Makefile: which compilers build for the archive's processor (x86-64), what runs their programs here, and what stands before
# the names of the tools on archives.
# On another processor they are Debian's cross compilers and its user-mode emulator, installed where they are missing.
if [ "$(uname -m)" = x86_64 ]; then
  CC=${CC:-gcc} CXX=${CXX:-g++} RUN= CROSS=
else
  CC=x86_64-linux-gnu-gcc CXX=x86_64-linux-gnu-g++ RUN=qemu-x86_64 CROSS=x86_64-linux-gnu-
fi

host_tools() { # install what is missing
  if ! command -v "$CC" >/dev/null || ! command -v "$CXX" >/dev/null || { [ -n "$RUN" ] && ! command -v "$RUN" >/dev/null; }; then
    echo "installing the compilers and the emulator for x86-64"
    apt-get update -qq >/dev/null 2>&1
    if [ -n "$RUN" ]; then
      DEBIAN_FRONTEND=noninteractive apt-get install -y -qq gcc-x86-64-linux-gnu g++-x86-64-linux-gnu qemu-user >/dev/null
    else
      DEBIAN_FRONTEND=noninteractive apt-get install -y -qq gcc g++ >/dev/null
    fi
  fi
}

need() { # need COMMAND PACKAGE: install it where it is missing
  command -v "$1" >/dev/null && return
  echo "installing $2"
  apt-get update -qq >/dev/null 2>&1 || true # the package may be had without it
  DEBIAN_FRONTEND=noninteractive apt-get install -y -qq "$2" >/dev/null && return
  echo "$2 cannot be installed, and $1 is needed"
  return 1
}

odm_version() { # the version, which stands in the header and nowhere else
  sed -n 's/^#define ODM_VERSION "\([0-9.]*\)"$/\1/p' include/odm.h
}

odm_shared() { echo "libodm.so.$(odm_version)"; } # the shared library's file

odm_soname() { # the name that programs ask the loader for: it changes with the version's first number alone
  local version
  version=$(odm_version)
  echo "libodm.so.${version%%.*}"
}
