#!/bin/sh
# The header against the archive: every call that it declares is there, every
# mcp2515_ name of the archive is declared, it compiles alone as C11 and as C++,
# and its sizes are those of the calls (by the program header).
#
#   header_check.sh mcp2515.h archive header-program [cc [c++]]
set -u
header=$1 archive=$2 program=$3 cc=${4:-gcc} cxx=${5:-g++}

stop() {
    echo "header check: $*" >&2
    exit 1
}

declared=$("$cc" -std=c11 -E -P "$header" | grep -o 'mcp2515_[a-z0-9_]*[[:space:]]*(' |
    tr -d ' (' | sort -u)
present=$(nm -g --defined-only "$archive" 2>/dev/null | awk '$2 ~ /^[A-Z]$/ { print $3 }' |
    grep '^mcp2515_' | sort -u)
[ -n "$declared" ] || stop "no call found in $header"
[ -n "$present" ] || stop "no call found in $archive"

for name in $declared; do
    echo "$present" | grep -qx "$name" || stop "$name is declared and not in $archive"
done
for name in $present; do
    echo "$declared" | grep -qx "$name" || stop "$name is in $archive and not declared"
done

needs=$(nm -u "$archive" 2>/dev/null | awk '$1 == "U" { print $2 }' | sort -u)
for name in $needs; do
    case $name in memcpy | memmove | memset | memcmp) ;; *) stop "the archive needs $name" ;; esac
done

"$cc" -std=c11 -Wall -Wextra -Werror -pedantic -fsyntax-only -x c "$header" || stop "C11"
"$cxx" -std=c++11 -Wall -Wextra -Werror -pedantic -fsyntax-only -x c++ "$header" || stop "C++"
"$program" || exit 1
echo "header check: $(echo "$declared" | wc -l) calls, each in the header and in the archive"
