#!/bin/sh
# Proves and builds a program, over what an earlier check kept, and leaves it in target/bin.
# Usage: program.sh NAME. `rt run` runs it too, on its crate's input, and compares what it writes.
set -eu
cd "$(dirname "$0")/.."
mkdir -p target/bin
(cd "crates/$1" && rt run) > "target/$1.log" 2>&1 || {
    tail -n 20 "target/$1.log"
    exit 1
}
cp "crates/$1/out/$1" "target/bin/$1"
