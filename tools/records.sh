# Records of a log, for scripts that write one; they source this file.
# shellcheck shell=bash

# record BYTE..: sixteen bytes, given in hexadecimal, zeros after them
record() {
    local given zeros='\x0\x0\x0\x0\x0\x0\x0\x0\x0\x0\x0\x0\x0\x0\x0\x0' # three characters for each
    printf -v given '\\x%s' "$@"
    printf '%b' "$given${zeros:3 * $#}"
}

# session BYTE..: select low, an exchange for each byte, select high
session() {
    record 0
    for byte in "$@"; do record 1 "$byte"; done
    record 2
}

# panel_session BYTE..: the same by the panel
panel_session() {
    record 0 0 1
    for byte in "$@"; do record 1 "$byte" 1; done
    record 2 0 1
}
