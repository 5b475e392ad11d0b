#!/bin/sh
# build.sh [BEFORE]: builds the checker's module, which the page and the package for JavaScript have, and writes it to
# library/js/anscheck.wasm, and to anscheck.sources beside it the stamp of the crates that it was built from.
#
# The gate takes no crate for wasm64, so this works on a copy of the crates, in which ans_c is for wasm64 instead of a
# static library. The copy is proved as the original is. What the checks of the original kept in out/ is used. That
# module has 64-bit memory; it is kept as BEFORE if that is named. The last step makes the one with 32-bit memory.
set -eu
before=${1:-}
case $before in "" | /*) ;; *) before=$PWD/$before ;; esac
command -v wasm-opt > /dev/null || { echo "build.sh: there is no wasm-opt, which binaryen has" >&2; exit 1; }
top=$(cd "$(dirname "$0")/.." && pwd)
copy=$(mktemp -d)
trap 'rm -rf "$copy"' EXIT
mkdir "$copy/crates"
touch "$copy/.git"
cp -a "$top/crates.txt" "$top/HANDLES" "$copy/"
for crate in $(sed -n 's/^\([a-z_]*\)[ :].*/\1/p' "$top/crates.txt"); do
    cp -a "$top/crates/$crate" "$copy/crates/"
done
crates=$(python3 "$top/page/stamp.py" --crates "$copy")
sed -i 's/^ans_c staticlib:/ans_c wasm64 stack=262144:/' "$copy/crates.txt"
grep -q '^ans_c wasm64 ' "$copy/crates.txt" || { echo "build.sh: crates.txt has no ans_c staticlib" >&2; exit 1; }
cd "$copy/crates/ans_c"
rt lib
[ -z "$before" ] || cp out/ans_c.wasm "$before"
module=$top/library/js/anscheck.wasm
"$top/page/lower.sh" out/ans_c.wasm "$module"
printf 'crates %s\nmodule %s\n' "$crates" "$(sha256sum "$module" | cut -c 1-64)" > "${module%.wasm}.sources"
