#!/bin/sh
# Proves the library, over what an earlier check kept, and leaves its archive in target/staticlib.
set -eu
cd "$(dirname "$0")/.."
mkdir -p target/staticlib
(cd crates/mschap && rt lib) > target/mschap.log 2>&1 || {
    tail -n 20 target/mschap.log
    exit 1
}
cp crates/mschap/out/libmschap.a target/staticlib/libmschap.a
