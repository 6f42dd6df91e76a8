#!/usr/bin/env bash
# Puts the library where programs look for it, from target/lib, which is made anew first where rt is there and something has changed.
# The variables, as those of make install:
#
#   PREFIX     the folder that holds include, lib and share; /usr/local
#   LIBDIR     the folder of the libraries; PREFIX/lib
#   DESTDIR    a folder in front of every path, for packages; no file names it
#
#   include/balanced.h                                  the header
#   lib/libbalanced.a                                   the static library
#   lib/libbalanced.so, .so.1, .so.VERSION              the shared library, and the links that compiler and loader look for
#   lib/glibc-hwcaps/x86-64-v3, -v4                     the same for newer processors, which glibc picks by itself
#   lib/libbalanced_any.so                              for programs that load the library by its path (docs/LINKING.md)
#   lib/pkgconfig/balanced.pc                           for pkg-config
#   share/man/man3/balanced.3, and a link for each call the manual page, made from the header
set -euo pipefail
cd "$(dirname "$0")/.."

prefix=${PREFIX:-/usr/local}
libdir=${LIBDIR:-$prefix/lib}
root=${DESTDIR:-}
version=$(cat VERSION)
for path in "$prefix" "$libdir"; do
    case $path in
        *[!a-zA-Z0-9_./+@%:,=~-]*) echo "install: $path has a character that pkg-config would not take" >&2; exit 2 ;;
        /*) ;;
        *) echo "install: $path is no path from the root" >&2; exit 2 ;;
    esac
done
# with sudo rt may not be there: what was made before is installed
if command -v rt >/dev/null; then tools/build_library.sh; fi
if [ ! -f target/lib/made-from ]; then
    echo "install: there is no target/lib: run make library" >&2
    exit 2
fi

# a shared library by its full version, and the name that the loader looks for
shared() { # FOLDER
    local folder=$root$libdir/$1
    install -D -m 755 "target/lib/$1/libbalanced.so.1" "$folder/libbalanced.so.$version"
    ln -sfn "libbalanced.so.$version" "$folder/libbalanced.so.1"
}

config() {
    cat <<END
prefix=$prefix
includedir=\${prefix}/include
libdir=$(case $libdir in "$prefix"/*) echo "\${prefix}${libdir#"$prefix"}" ;; *) echo "$libdir" ;; esac)

Name: balanced
Description: A message over n nodes, any k of which give it back, by a proved erasure code
Version: $version
Cflags: -I\${includedir}
Libs: -L\${libdir} -lbalanced
END
}

# through a file beside it, so that no reader sees a part
put() { # PATH
    mkdir -p "$(dirname "$1")"
    cat >"$1.new"
    chmod 644 "$1.new"
    mv "$1.new" "$1"
}

install -D -m 644 include/balanced.h "$root$prefix/include/balanced.h"
install -D -m 644 target/lib/libbalanced.a "$root$libdir/libbalanced.a"
install -D -m 755 target/lib/libbalanced_any.so "$root$libdir/libbalanced_any.so"
shared .
ln -sfn libbalanced.so.1 "$root$libdir/libbalanced.so"
for level in target/lib/glibc-hwcaps/*; do shared "${level#target/lib/}"; done
config | put "$root$libdir/pkgconfig/balanced.pc"
tools/make_man.py | put "$root$prefix/share/man/man3/balanced.3"
for call in $(tools/make_man.py --calls); do echo ".so man3/balanced.3" | put "$root$prefix/share/man/man3/$call.3"; done

echo "installed balanced $version in $root$prefix"
if [ -z "$root" ] && [ "$(id -u)" = 0 ] && command -v ldconfig >/dev/null; then
    case $prefix in /usr | /usr/local) ldconfig ;; esac
fi
