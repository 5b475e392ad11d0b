#!/bin/sh
# shared.sh ARCHIVE OUT: makes the shared library of ARCHIVE, a built libans_c.a, in the folder OUT.
#
# It is OUT/libans_c.so.0.2, which is its soname too, and OUT/libans_c.so is a link to it, for linkers and for Python.
# The soname has the first two numbers of the version in ans.h: below 1.0 each such version may have other calls, and a
# program is to load no library but of the one that it was linked with. It has all of the archive, exports nothing but
# the calls of ans.h, and needs only the C library. CC names the compiler that links it, or it is cc.
set -eu
if [ $# -ne 2 ]; then
    echo "usage: shared.sh ARCHIVE OUT" >&2
    exit 2
fi
here=$(CDPATH='' cd -- "$(dirname -- "$0")" && pwd)
name=libans_c.so.$(sed -n 's/^#define ANS_VERSION "\([0-9]*\.[0-9]*\)\.[0-9]*"$/\1/p' "$here/ans.h")
exports=$(mktemp)
trap 'rm -f "$exports"' EXIT
echo '{ global: ans_*; local: *; };' >"$exports"
mkdir -p "$2"
"${CC:-cc}" -shared -Wl,--whole-archive "$1" -Wl,--no-whole-archive -Wl,--version-script,"$exports" \
    -Wl,-soname,"$name" -Wl,--no-undefined -Wl,--strip-all -o "$2/$name"
ln -sf "$name" "$2/libans_c.so"
echo "$2/libans_c.so"
