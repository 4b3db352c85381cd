#!/usr/bin/env bash
# The manual pages: mandoc has nothing against them; odm.3 has each function, field, code, unit and reason as the headers have them, and what a console says for
# each reason; odm-console.1 has every command.
set -eu
cd "$(dirname "$0")/.."
. host/tools.sh
need mandoc mandoc
need col bsdextrautils

text_of() { mandoc -T ascii "man/$1" | col -bx; } # text_of PAGE: what is read

one_line() { tr -s ' \t\n' ' '; }

lint() { # no warning, nor a remark on style, but that mandoc looks for the pages that these name among the system's own alone
  ! mandoc -T lint man/* | grep -v 'STYLE: referenced manual not found: Xr odm'
}

functions() { # the headers' functions, but for one that stands behind two others
  cat include/odm.h include/odm_names.h | one_line | grep -o '[a-z0-9_]* odm_[a-z_]*([^)]*);\|const char \*odm_[a-z_]*([^)]*) {' | sed 's/ {$/;/; s/\* *odm/* odm/'
}

functions_told() { # those of the synopsis
  text_of odm.3 | sed -n '/^SYNOPSIS/,/^DESCRIPTION/p' | sed '1,3d; /^DESCRIPTION/d' | one_line | sed 's/^ //; s/; */;\n/g' | grep odm_
}

structs() { # each struct of the header with its fields, in order
  awk '/^typedef struct/ { line = "" } /^    u?int[0-9]*_t [a-z]/ { sub(";.*", ""); line = line ", " $1 " " $2 } /^} odm_/ { sub(";", "", $2); print $2 line }' include/odm.h
}

structs_told() { # each struct with what is tagged behind it, up to the list's end
  awk '/^\.Vt odm_/ { name = $2; line = "" } /^\.It Fa / { gsub("\"", ""); line = line ", " $3 " " $4 } /^\.El/ && name != "" { print name line; name = "" }' man/odm.3
}

codes() { sed -n 's|^        /\* *\([0-9]*\) \*/ "\([A-Z0-9_]*\)",$|\1 is \2|p' include/odm_names.h | head -n 45; } # the first table

codes_told() { sed -n 's/^\([0-9]* is [A-Z][A-Z0-9_]*\)\.$/\1/p' man/odm.3; }

units() { # each unit as it is written, with its codes
  paste -d ' ' <(sed -n 's/.*names\[\] = {"", \(.*\)};/\1/p' include/odm_names.h | tr -d '" ' | tr , '\n') <(
    sed -n 's/^    if (\(.*\)) return [0-9];$/\1/p' include/odm_names.h | sed 's/code >= \([0-9]*\) && code <= \([0-9]*\)/\1 to \2/g; s/code == //g; s/[()]//g; s/ || / and /g'
  )
}

units_told() { awk '/^It is$/ { getline; unit = $2; getline; sub(/^for (the codes )?/, ""); sub(/\.$/, ""); print unit, $0 }' man/odm.3; }

names() { functions | sed 's/.*\(odm_[a-z_]*\)(.*/\1/'; }

names_told() { sed -n 's/^\.Nm \(odm_[a-z_]*\).*/\1/p' man/odm.3; }

reasons() { sed -n 's/^    ODM_\([A-Z_]*\) = \([0-9]*\).*/\1 is \2/p' include/odm.h; }

reasons_told() { sed -n 's/^\.It Dv ODM_\([A-Z_]*\) No is \([0-9]*\)$/\1 is \2/p' man/odm.3; }

words() { sed -n 's|^        /\* *\([0-9]*\) \*/ "\(.* .*\)",$|\1 \2|p' include/odm_names.h; } # for each reason: of the tables there this one alone has blanks

words_told() { awk '/^\.It Dv / { number = $NF } /^Say:$/ { getline; sub(/^\.Dq /, ""); sub(/ [.,]$/, ""); print number, $0 }' man/odm.3; }

constants() { grep -oh '\bODM_[A-Z_]*\b' include/odm.h include/odm_names.h | grep -vx 'ODM_H\|ODM_NAMES_H' | sort -u; }

commands() { sed -n 's/^    {"\([a-z]*\)", .*/\1/p' console/console.c; }

commands_told() { sed -n 's/^\.It Ic \([a-z]*\).*/\1/p' man/odm-console.1 | uniq; }

same() { # same WHAT: each one that the sources have is told, and no other
  diff <("$1" | LC_ALL=C sort) <("$1_told" | LC_ALL=C sort)
  echo "$("$1" | wc -l) $1"
}

lint
same functions
same names
same structs
same codes
same units
same reasons
same words
same commands
text=$(text_of odm.3)
for name in $(constants); do
  case $text in *"$name"*) ;; *) echo "odm.3 has nothing of $name" && exit 1 ;; esac
done
echo "the manual pages have them all, and mandoc has no warning"
