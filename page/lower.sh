#!/bin/sh
# lower.sh FROM TO: a module with 64-bit memory as one with 32-bit memory, by wasm-opt of binaryen.
#
# What the exports are given and answer stays as it is, 64-bit numbers too.
set -eu
exec wasm-opt --enable-memory64 --enable-bulk-memory --memory64-lowering --strip-target-features "$1" -o "$2"
