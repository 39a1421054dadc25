#!/bin/sh
# What `make install` copies is enough: from an empty folder, with what pkg-config says alone, the
# example compiles and prints what it should; the archive is linked into a shared library, which C
# and Python call; and the shared library of ours has the functions of the header and no others.
# Run in the repository, once `make lib` has written target/mschap.
set -eu
root=$PWD
scratch=$(mktemp -d)
trap 'rm -rf "$scratch"' EXIT
fail() {
    echo "install: $1"
    exit 1
}
cc=${CC:-cc}
installed="include/mschap.h lib/libmschap.a lib/libmschap.so lib/pkgconfig/mschap.pc"

# To a folder of packages first, where the prefix is another than the place.
make --no-print-directory -s install PREFIX=/opt/mschap DESTDIR="$scratch/stage"
prefix=$scratch/prefix
make --no-print-directory -s install PREFIX="$prefix"
# again, over what is there
make --no-print-directory -s install PREFIX="$prefix"
for file in $installed; do
    [ -s "$prefix/$file" ] || fail "$file is not installed"
    [ -s "$scratch/stage/opt/mschap/$file" ] || fail "$file is not below DESTDIR"
done
grep -q '^prefix=/opt/mschap$' "$scratch/stage/opt/mschap/lib/pkgconfig/mschap.pc" \
    || fail 'mschap.pc names another prefix'
if grep -rIl "$root" "$prefix"; then
    fail 'a file that was installed names this repository'
fi

nm -D --defined-only "$prefix/lib/libmschap.so" | awk '{ print $3 }' | sort > "$scratch/exported"
sed -nE 's/^(uint32_t|size_t) (mschap_[a-z0-9_]+)\(.*/\2/p' "$prefix/include/mschap.h" | sort \
    > "$scratch/declared"
diff "$scratch/declared" "$scratch/exported" || fail 'the shared library has other functions'

mkdir "$scratch/empty"
cd "$scratch/empty"
if command -v pkg-config > /dev/null; then
    PKG_CONFIG_PATH=$prefix/lib/pkgconfig
    export PKG_CONFIG_PATH
    options=$(pkg-config --cflags --libs mschap)
    version=$(pkg-config --modversion mschap)
else
    echo 'install: pkg-config is not installed; its options are given by hand'
    options="-I$prefix/include -L$prefix/lib -l:libmschap.a"
    version=$(sed -n 's/^Version: //p' "$prefix/lib/pkgconfig/mschap.pc")
fi
grep -q "^#define MSCHAP_VERSION_TEXT \"$version\"$" "$prefix/include/mschap.h" \
    || fail "mschap.pc has the version $version"

# shellcheck disable=SC2086
$cc "$root/host/example.c" $options -o example
./example | diff "$root/host/example.txt" - || fail 'the example prints something else'
if ldd ./example | grep -i mschap; then
    fail 'the example needs a shared library of ours'
fi
for program in authenticator peer; do
    # shellcheck disable=SC2086
    $cc -I "$root/host/examples" "$root/host/examples/$program.c" $options -o "$program"
done

# The archive within a shared library of another.
cat > plugin.c <<'END'
#include <mschap.h>
uint32_t plugin_version(void);
uint32_t plugin_version(void)
{
    return mschap_version();
}
END
cat > caller.c <<'END'
#include <dlfcn.h>
#include <mschap.h>
#include <stdio.h>
int main(int argc, char **argv)
{
    union { void *found; uint32_t (*call)(void); } version;
    void *library = argc == 3 ? dlopen(argv[1], RTLD_NOW) : NULL;
    if (library == NULL || (version.found = dlsym(library, argv[2])) == NULL) {
        printf("%s\n", dlerror());
        return 1;
    }
    return version.call() == MSCHAP_VERSION ? 0 : 1;
}
END
# shellcheck disable=SC2086
$cc -std=c99 -Wall -Wextra -Werror -pedantic -shared -fPIC plugin.c $options -Wl,-z,defs \
    -o libplugin.so
$cc -Wall -Wextra -Werror caller.c -I "$prefix/include" -ldl -o caller
./caller ./libplugin.so plugin_version || fail 'C cannot call a library that has the archive in it'
./caller "$prefix/lib/libmschap.so" mschap_version || fail 'C cannot load the shared library'
if command -v python3 > /dev/null; then
    python3 -c '
import ctypes, sys
sys.exit(ctypes.CDLL("./libplugin.so").plugin_version() != int(sys.argv[1], 16))
' "$(sed -nE 's/^#define MSCHAP_VERSION (0x[0-9a-f]+).*/\1/p' "$prefix/include/mschap.h")" \
        || fail 'Python cannot call a library that has the archive in it'
fi

# The header alone, as C and as C++.
echo '#include <mschap.h>' > header.c
$cc -std=c99 -Wall -Wextra -Werror -pedantic -fsyntax-only -I "$prefix/include" header.c
if command -v c++ > /dev/null; then
    c++ -x c++ -std=c++11 -Wall -Wextra -Werror -pedantic -fsyntax-only -I "$prefix/include" \
        header.c
fi
echo "install: version $version compiles, links and loads from an empty folder"
