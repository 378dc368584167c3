#!/bin/sh
# Proves and builds a program of this repository, and prints where it lies. Usage: tools/program.sh NAME
# `rt run` also starts it, here on no input and without its files; what it says then goes to the log beside it.
set -eu
at=$(cd "$(dirname "$0")/../crates/$1" && pwd)
mkdir -p "$at/out"
rm -f "$at/out/$1"
(cd "$at" && rt run < /dev/null > out/run.log 2>&1) || true
if [ ! -x "$at/out/$1" ]; then
    cat "$at/out/run.log" >&2
    exit 1
fi
echo "$at/out/$1"
