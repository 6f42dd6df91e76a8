#!/usr/bin/env bash
# The interface for C and Rust. Makes the libraries and looks at their names; compiles the header as C99 and as C++; runs the example in
# C and the large cases with the static library and with every shared build that the processor runs, under valgrind where that is
# installed; and runs the Rust crate's tests, which compare every call with an independent implementation, on the shared build for
# every x86-64 and on the widest, and the programs of its pages with the static library; and tests/install.sh, which installs and uses it.
# Needs rt, Python 3, gcc, make and cargo; no network.
set -euo pipefail
cd "$(dirname "$0")/.."

lib=$PWD/target/lib
static=$lib/libbalanced.a
strict=(-pedantic -Wall -Wextra -Werror -Iinclude)
checked=()
if command -v valgrind >/dev/null; then
    checked=(valgrind --quiet --leak-check=full --errors-for-leak-kinds=all --error-exitcode=1)
else
    echo "valgrind is not installed: no program is run under it"
fi

# the shared builds that this processor runs, as glibc's loader says, the widest last
builds=("$lib")
find_builds() {
    local level
    for level in x86-64-v3 x86-64-v4; do
        if /lib64/ld-linux-x86-64.so.2 --help | grep -q "^ *$level (supported"; then
            builds+=("$lib/glibc-hwcaps/$level")
        else
            echo "this processor does not run the build for $level: it is not tested here"
        fi
    done
}

# the libraries have the calls of the header for their names, and nothing else, and want memcpy and memset alone from outside
names() {
    local file
    grep -o '^uint[0-9]*_t balanced_[a-z_]*' include/balanced.h | sed 's/.* //' | sort >target/examples/names
    for file in "$lib/libbalanced.so.1" "$lib"/glibc-hwcaps/*/libbalanced.so.1; do
        nm -D --defined-only "$file" | sed 's/.* //' | sort | diff target/examples/names -
    done
    nm -g --defined-only "$static" | sed -n 's/.* T //p' | sort | diff target/examples/names -
    printf 'memcpy\nmemset\n' >target/examples/wanted
    nm -u "$static" | sed -n 's/^ *[A-Za-z] //p' | sort -u | diff target/examples/wanted -
    for file in "$lib/libbalanced.so.1" "$lib"/glibc-hwcaps/*/libbalanced.so.1; do
        nm -D --undefined-only "$file" | sed 's/^ *[A-Za-z] //; s/@.*//' | sort | diff target/examples/wanted -
    done
}

# the header alone, as C and as C++
plain() {
    printf '#include "balanced.h"\nint main(void) { unsigned char b[1] = { 0 }; uint16_t s[1]; return balanced_plan(b, 0, b, 0, b, 0, b, 0, s, 0) != BALANCED_KIND; }\n' >target/examples/plain.c
    gcc -std=c99 "${strict[@]}" -o target/examples/plain target/examples/plain.c "$static"
    target/examples/plain
    if command -v g++ >/dev/null; then
        g++ -std=c++98 "${strict[@]}" -o target/examples/plain -x c++ target/examples/plain.c -x none "$static"
        target/examples/plain
    fi
}

# the texts of the numbers are the header's comments, and the version is that of VERSION
texts() {
    {
        sed -n 's|^    BALANCED_[A-Z]* = \([0-9]*\),* */\* \(.*\) \*/$|\1 \2|p' include/balanced.h
        printf 'no number of this library\n%.0s' 1 2
        cat VERSION
    } >target/examples/texts
    gcc -std=c99 "${strict[@]}" -o target/examples/print_texts tests/texts.c
    target/examples/print_texts | diff target/examples/texts -
}

# a part of a block, several blocks, whole blocks (5,120 bytes each) and no byte at all
example() { # COMMAND..
    local file
    head -c 5120 "$static" >target/examples/one_block
    head -c 15360 "$static" >target/examples/three_blocks
    : >target/examples/no_byte
    for file in examples/c/Makefile include/balanced.h target/examples/{one_block,three_blocks,no_byte}; do
        "$@" "$file"
    done | tee target/examples/store.out
    for blocks in '5120 bytes in 1 ' '15360 bytes in 3 ' '0 bytes in 0 '; do grep -q "^$blocks" target/examples/store.out; done
}

# blocks of 4,096 lanes on up to 255 nodes, held to another implementation's checksums, in 1 MiB of stack, as the manual has it
large=$(cd tests && echo large_*.c)
large=${large//.c/}
large_cases() { # PROGRAM-SUFFIX COMMAND..
    local name
    for name in $large; do
        (ulimit -s 1024 && "${@:2}" "target/examples/$name$1") >"target/examples/$name.out"
        cmp "target/examples/$name.out" "tests/reference/$name.out"
    done
}

# the same with three lanes at most, every kind of record among them, for valgrind to see
few_lanes() { # PROGRAM-SUFFIX COMMAND..
    local name
    for name in $large; do "${@:2}" "target/examples/$name$1" 3 >/dev/null; done
}

with_static_library() {
    local name
    make -s -C examples/c
    for name in $large; do gcc -std=c99 -O2 "${strict[@]}" -o "target/examples/$name" "tests/$name.c" "$static"; done
    example "${checked[@]}" target/examples/store
    large_cases ""
    if [ ${#checked[@]} -gt 0 ]; then few_lanes "" "${checked[@]}"; fi
}

# every two parameters of one type are told apart: each call held to another implementation's, and made again with them exchanged
parameters() {
    gcc -std=c99 -O2 "${strict[@]}" -o target/examples/parameters tests/parameters.c "$static"
    python3 tests/reference/parameters.py >target/examples/parameters.expected
    "${checked[@]}" target/examples/parameters >target/examples/parameters.out
    cmp target/examples/parameters.out target/examples/parameters.expected
}

# with each build in the place of the one that glibc would pick
with_shared_libraries() {
    local build on name
    gcc -std=c99 -O2 "${strict[@]}" -o target/examples/store_shared examples/c/store.c -L"$lib" -lbalanced
    for name in $large; do gcc -std=c99 -O2 "${strict[@]}" -o "target/examples/${name}_shared" "tests/$name.c" -L"$lib" -lbalanced; done
    for build in "${builds[@]}"; do
        on=(env LD_PRELOAD="$build/libbalanced.so.1")
        example "${on[@]}" target/examples/store_shared
        large_cases _shared "${on[@]}"
        if [ ${#checked[@]} -eq 0 ]; then continue; fi
        case $build in
            *v4) echo "valgrind has no AVX-512: the build for x86-64-v4 is not run under it" ;;
            *) few_lanes _shared "${on[@]}" "${checked[@]}" ;;
        esac
    done
    # left to itself, glibc picks the widest
    LD_LIBRARY_PATH=$lib LD_TRACE_LOADED_OBJECTS=1 target/examples/large_cases_shared | grep -F "=> ${builds[-1]}/libbalanced.so.1 "
}

in_c() {
    names
    plain
    texts
    with_static_library
    parameters
    with_shared_libraries
    tests/install.sh
}

# the tests with a build in the place of the one that glibc would pick; they are compiled once, over a folder that has the shared library alone
on_build() { # BUILD WORDS..
    echo "the Rust tests on ${1#"$PWD/"}/libbalanced.so.1"
    mkdir -p target/examples/shared
    cp -f "$lib/libbalanced.so.1" target/examples/shared/libbalanced.so
    BALANCED_LIB_DIR=$PWD/target/examples/shared CARGO_TARGET_DIR=$PWD/target/rust \
        CARGO_TARGET_X86_64_UNKNOWN_LINUX_GNU_RUNNER="env LD_PRELOAD=$1/libbalanced.so.1" \
        cargo test --manifest-path bindings/rust/Cargo.toml --quiet --offline --locked --test differential -- "${@:2}"
}

in_rust() {
    on_build "${builds[0]}" --show-output
    if [ ${#builds[@]} -gt 1 ]; then on_build "${builds[-1]}"; fi
    BALANCED_LIB_DIR=$lib cargo test --manifest-path bindings/rust/Cargo.toml --quiet --offline --locked --doc
}

mkdir -p target/examples
tools/build_library.sh
find_builds
log=$(mktemp)
trap 'rm -f "$log"' EXIT
# side by side
(in_c) >"$log" 2>&1 &
(in_rust)
wait $! || { cat "$log"; exit 1; }
cat "$log"
