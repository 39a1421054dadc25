#!/bin/sh
# Lays out what a program needs to use the library, below target/mschap as it is to be installed:
# the archive that `make lib` wrote, a shared library made of it, the header and
# mschap.pc. `make lib` runs it.
#
# A program that follows mschap.pc links the archive, and needs nothing of ours when it runs; the
# shared library is for those that load one at run time. Below 1.0 each minor version may have
# another interface, so it is in the shared library's name.
set -eu
cd "$(dirname "$0")/.."
archive=target/staticlib/libmschap.a
header=host/include/mschap.h
folder=target/mschap
version=$(sed -n 's/^#define MSCHAP_VERSION_TEXT "\(.*\)"$/\1/p' "$header")
shared=libmschap.so.${version%.*}

rm -rf "$folder"
mkdir -p "$folder/include" "$folder/lib/pkgconfig"
cp "$header" "$folder/include/mschap.h"
cp "$archive" "$folder/lib/libmschap.a"

# The header's functions, and no others. -z now: so that the loader binds memcpy and memset when the
# library is loaded, and takes no stack in a call.
echo '{ global: mschap_*; local: *; };' > target/mschap.map
${CC:-cc} -shared -Wl,--whole-archive "$archive" -Wl,--no-whole-archive -Wl,-z,now -Wl,-z,defs \
    -Wl,--version-script=target/mschap.map -Wl,-soname,"$shared" -o "$folder/lib/$shared"
ln -s "$shared" "$folder/lib/libmschap.so"
sed "s|@PREFIX@|$PWD/$folder|; s|@VERSION@|$version|" host/mschap.pc.in \
    > "$folder/lib/pkgconfig/mschap.pc"
echo "lib: $folder has version $version"
