#!/bin/sh
# install.sh PREFIX: puts the program, its manual, the completions, the library, the page and the documents below
# PREFIX, such as /usr/local or ~/.local.
#
# Where DESTDIR is set the files go below DESTDIR and PREFIX, as packages want it, and lib/pkgconfig/ans.pc names PREFIX
# alone. What is put there is listed in PREFIX/share/anscheck/installed.
set -eu
umask 022

if [ $# -ne 1 ] || [ -z "$1" ]; then
    echo "usage: install.sh PREFIX, such as /usr/local" >&2
    exit 2
fi
case $1 in
/*) prefix=${1%/} ;;
*) prefix=$PWD/${1%/} ;;
esac
from=$(CDPATH='' cd -- "$(dirname -- "$0")" && pwd)
to=${DESTDIR:-}$prefix
list=$from/share/anscheck/installed

# Nothing is put anywhere unless all of it is here.
while IFS= read -r name; do
    if [ ! -f "$from/$name" ]; then
        echo "install.sh: $name is missing here; unpack the archive anew" >&2
        exit 1
    fi
done <"$list"

# Each file is written beside the one of its name and then takes its place, which may be in use. A link stays one.
count=0
while IFS= read -r name; do
    mkdir -p "$to/$(dirname "$name")"
    new=$to/$name.new
    case $name in
    lib/pkgconfig/ans.pc)
        printf 'prefix=%s\n' "$prefix" | sed 's/ /\\ /g' >"$new"
        sed '/^prefix=/d' "$from/$name" >>"$new"
        ;;
    *) cp -P "$from/$name" "$new" ;;
    esac
    case $name in
    bin/*) chmod 755 "$new" ;;
    *) [ -h "$new" ] || chmod 644 "$new" ;;
    esac
    mv -f "$new" "$to/$name"
    count=$((count + 1))
done <"$list"
echo "install.sh: $count files put below $to/, listed in share/anscheck/installed there"
