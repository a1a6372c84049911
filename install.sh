#!/bin/sh
# Puts the program and its manual page in place under a prefix, /usr/local if none is given:
#
#     ./install.sh [PREFIX]
#
# It copies PREFIX/bin/topk and PREFIX/share/man/man1/topk.1, builds nothing, and says what the program needs on another
# machine. It can not tell a proved program from one of unproved.sh.
set -eu
case ${1-} in -*) echo "install: use ./install.sh [PREFIX]" >&2; exit 2 ;; esac
[ $# -le 1 ] || { echo "install: use ./install.sh [PREFIX]" >&2; exit 2; }
prefix=${1:-/usr/local}
root=$(cd "$(dirname "$0")" && pwd)
program=$root/crates/topk/out/topk
[ -x "$program" ] || { echo "install: there is no crates/topk/out/topk: build it first, as README.md says" >&2; exit 1; }

# Behind another name until it is whole, so that a running program is not written over.
put() {
    mkdir -p "$(dirname "$3")"
    cp "$2" "$3.new"
    chmod "$1" "$3.new"
    mv "$3.new" "$3"
    echo "$3"
}
put 755 "$program" "$prefix/bin/topk"
put 644 "$root/docs/topk.1" "$prefix/share/man/man1/topk.1"

# The versions that the program itself asks of its libraries stand first; what is no part of glibc is told.
ldd -v "$prefix/bin/topk" 2>/dev/null | awk '
    /Version information:/ { versions = 1; next }
    !versions && NF && !/linux-vdso|ld-linux|libc\.so/ { others = others " " $1 }
    versions && /^\t[^\t]/ { parts++ }
    versions && parts == 1 && match($0, /\(GLIBC_[0-9.]+\)/) {
        split(substr($0, RSTART + 7, RLENGTH - 8), number, ".")
        if (number[1] * 1000 + number[2] > most) most = number[1] * 1000 + number[2]
    }
    END {
        if (!most) { print "ldd does not tell what it needs"; exit }
        print "needs Linux on x86-64-v2, glibc " int(most / 1000) "." most % 1000 " or later, and no other library" (others ? " but" others : "")
    }'
