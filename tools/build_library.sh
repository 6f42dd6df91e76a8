#!/usr/bin/env bash
# Proves the calls once, and makes the library of them, in target/lib:
#
#   libbalanced.a                              static, for every x86-64
#   libbalanced.so.1, libbalanced.so           shared, for every x86-64
#   glibc-hwcaps/x86-64-v3/libbalanced.so.1    shared, for processors with AVX2
#   glibc-hwcaps/x86-64-v4/libbalanced.so.1    shared, for processors with AVX-512
#   libbalanced_any.so                         empty: has glibc pick one of the three for a program that loads it by its path
#
# The calls are proved (tools/prove.py), and then the crate that exports them, whose static library the kit's clang compiles from a
# module of LLVM for every x86-64 (tools/static_library.py). The module is kept, and the same clang compiles it with the same words for
# the two newer levels; there the arrays of scratch stand at multiples of 64 bytes.
# Where nothing has changed since the library was made, nothing is done. Needs rt, Python 3 and gcc.
set -euo pipefail
cd "$(dirname "$0")/.."

# what the library is made from
sources() {
    rt version
    find crates crates.txt tools/build_library.sh tools/static_library.py tools/exports.map -path 'crates/*/out' -prune -o -type f -print0 |
        sort -z | xargs -0 sha256sum
}
sum=$(sources | sha256sum)
if [ "$(cat target/lib/made-from 2>/dev/null)" = "$sum" ]; then exit 0; fi

# a line says of each crate when it is proved
tools/prove.py balanced_c

mkdir -p target
work=$(mktemp -d "$PWD/target/library.XXXXXX")
# outside the repository, where rt ci refuses links
links=$(mktemp -d)
log=target/library.log
# quiet from here on, unless something fails
trap 'status=$?; rm -rf "$work" "$links"; if [ $status -ne 0 ]; then cat "$log" >&3; fi' EXIT
exec 3>&1 >"$log" 2>&1

kit=$(cd "$(dirname "$(rt doc)")" && pwd -P)
clang=$kit/toolchain/bin/clang
lib=$work/lib
archive=crates/balanced_c_c/out/libbalanced_c_c.a

# links to what a folder has, but for some names
link_all() { # FROM TO NAME..
    local path
    for path in "$1"/*; do
        case " ${*:3} " in *" ${path##*/} "*) ;; *) ln -s "$path" "$2/" ;; esac
    done
}

# the kit as a folder of links, but for rtlib.py, which takes the folder that it stands in for the kit, and for the clang, which keeps
# its words and the module before it compiles
keeping_kit() {
    local at=$links
    mkdir -p "$at/bin" "$at/toolchain/bin"
    link_all "$kit" "$at" bin toolchain
    link_all "$kit/bin" "$at/bin" rtlib.py
    link_all "$kit/toolchain" "$at/toolchain" bin
    link_all "$kit/toolchain/bin" "$at/toolchain/bin" clang
    cp "$kit/bin/rtlib.py" "$at/bin/"
    cat >"$at/toolchain/bin/clang" <<END
#!/bin/sh
for word in "\$@"; do case \$word in *.bc) cp "\$word" '$work/module.bc' && printf '%s\n' "\$@" >'$work/words' ;; esac; done
exec '$clang' "\$@"
END
    chmod +x "$at/toolchain/bin/clang"
}

# the module with every array of 1,000 items or more at a multiple of 64 bytes: a local array may always stand at a larger one
align() {
    "$clang" --target=x86_64-unknown-linux-gnu -S -emit-llvm -x ir "$work/module.bc" -o "$work/module.ll"
    sed -E 's/(= alloca \[[0-9]{4,} x i(8|16|32|64)\], align )[0-9]+/\164/' "$work/module.ll" >"$work/aligned.ll"
    grep -q '= alloca .* align 64' "$work/aligned.ll"
}

# compiles the module for a level with the words that compiled it for every x86-64; its functions name the level, too
compile() { # LEVEL OBJECT
    local words i
    sed "s/\"target-cpu\"=\"x86-64\"/\"target-cpu\"=\"x86-64-$1\"/" "$work/aligned.ll" >"$work/$1.ll"
    grep -q "\"target-cpu\"=\"x86-64-$1\"" "$work/$1.ll"
    mapfile -t words <"$work/words"
    for i in "${!words[@]}"; do
        case ${words[i]} in
            -march=x86-64) words[i]=-march=x86-64-$1 ;;
            *.bc) words[i]=$work/$1.ll ;;
            *.o) words[i]=$2 ;;
        esac
    done
    case " ${words[*]} " in *" -march=x86-64-$1 "*" $2 "*) ;; *) echo "the kit's clang has other words: ${words[*]}" >&2; return 1 ;; esac
    "$clang" "${words[@]}"
}

# a shared library of everything in an archive or an object, with the calls of the header for its only names
share() { # FROM FOLDER
    mkdir -p "$2"
    gcc -shared -nostartfiles -Wl,-soname,libbalanced.so.1 -Wl,--version-script=tools/exports.map -Wl,-z,defs,-z,now,-z,noexecstack \
        -Wl,--whole-archive "$1" -Wl,--no-whole-archive -o "$2/libbalanced.so.1"
}

keeping_kit
tools/static_library.py "$links" balanced_c_c
# it is proved, and rests on no function of C: its verdict has no word axioms=
if ! awk '/^logic=proved /{ proved = 1; if (/ axioms=/) axioms = 1 } END { exit !proved || axioms }' "$log"; then
    echo "the library is not proved, or rests on functions of C" >&2
    exit 1
fi
align
share "$archive" "$lib"
for level in v3 v4; do
    compile "$level" "$work/$level.o"
    share "$work/$level.o" "$lib/glibc-hwcaps/x86-64-$level"
done
install -m 644 "$archive" "$lib/libbalanced.a"
cp "$lib/libbalanced.so.1" "$lib/libbalanced.so"
gcc -shared -nostartfiles -x c /dev/null -x none -Wl,-soname,libbalanced_any.so -Wl,--disable-new-dtags,-rpath,'$ORIGIN' \
    -Wl,--no-as-needed -L"$lib" -lbalanced -o "$lib/libbalanced_any.so"
echo "$sum" >"$lib/made-from"
# put in place at once: a program that runs keeps the library that it has loaded
rm -rf target/lib
mv "$lib" target/lib
echo "target/lib has the library, static and shared, for every x86-64, and shared for x86-64-v3 and -v4" >&3
