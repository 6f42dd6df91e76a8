#!/usr/bin/env bash
# Installs the library into a temporary folder, and uses it there as others do: a program in C by pkg-config, static and shared, where the
# loader says which build it takes, and a program in Rust, by pkg-config and by BALANCED_LIB_DIR. Needs target/lib, gcc, make and cargo;
# pkg-config is installed where it is missing, or its part is left out and said so.
set -euo pipefail
cd "$(dirname "$0")/.."

work=$(mktemp -d "${TMPDIR:-/tmp}/install.XXXXXX")
trap 'rm -rf "$work"' EXIT
version=$(cat VERSION)
prefix=$work/usr
lib=$prefix/lib
unset BALANCED_LIB_DIR LIBDIR

fail() {
    echo "install: $*" >&2
    exit 1
}

# what stands in a folder of an installation
files() { (cd "$1" && find . ! -type d | sort); }

expected() {
    local level call
    echo ./include/balanced.h
    for level in "" glibc-hwcaps/x86-64-v3/ glibc-hwcaps/x86-64-v4/; do printf './lib/%slibbalanced.so.%s\n' "$level" 1 "$level" "$version"; done
    printf './lib/%s\n' libbalanced.a libbalanced.so libbalanced_any.so pkgconfig/balanced.pc
    for call in balanced $(sed -n 's/^\(uint[0-9]*_t \|static inline const char \*\)\(balanced_[a-z_]*\)(.*/\2/p' include/balanced.h); do
        echo "./share/man/man3/$call.3"
    done
}

# the files, their links and the soname; the same below DESTDIR, which nothing names
placed() {
    make -s install PREFIX="$prefix" >/dev/null
    diff <(expected | sort) <(files "$prefix")
    [ "$(readlink "$lib/libbalanced.so") $(readlink "$lib/libbalanced.so.1")" = "libbalanced.so.1 libbalanced.so.$version" ] || fail "other links"
    local file
    for file in "$lib" "$lib"/glibc-hwcaps/*; do
        readelf -d "$file/libbalanced.so.$version" | grep -q 'soname: \[libbalanced.so.1\]' || fail "$file has another soname"
    done
    make -s install PREFIX=/opt/balanced LIBDIR=/opt/balanced/lib/here DESTDIR="$work/stage" >/dev/null
    diff <(expected | sed 's|^./lib/|./lib/here/|' | sort) <(files "$work/stage/opt/balanced")
    if grep -rqF "$work" "$work/stage"; then fail "a file names DESTDIR"; fi
    grep -qx 'libdir=${prefix}/lib/here' "$work/stage/opt/balanced/lib/here/pkgconfig/balanced.pc" || fail "another folder in balanced.pc"
    # twice gives the same, and a path that pkg-config would not take is refused
    make -s install PREFIX="$prefix" >/dev/null
    diff <(expected | sort) <(files "$prefix")
    if make -s install PREFIX="$work/a b" 2>/dev/null; then fail "a path with a space is taken"; fi
    if make -s install PREFIX=usr 2>/dev/null; then fail "a path from here is taken"; fi
}

pages() {
    if command -v groff >/dev/null; then
        [ -z "$(groff -man -ww -Tutf8 "$prefix/share/man/man3/balanced.3" 2>&1 >"$work/page")" ] || fail "the manual page has warnings"
        grep -q 'balanced_roster_job' "$work/page"
    else
        echo "install: groff is not installed: the manual page is not set"
    fi
}

have_pkg_config() {
    command -v pkg-config >/dev/null && return
    (apt-get install -y -q pkg-config || { apt-get update -q && apt-get install -y -q pkg-config; }) >/dev/null 2>&1 && return
    echo "install: SKIPPED: pkg-config is not installed, and could not be: no program is built by it"
    return 1
}

# the library that the loader took, as it says
loaded() { # COMMAND..
    LD_DEBUG=libs LD_DEBUG_OUTPUT=$work/debug "$@" >/dev/null
    sed -n 's/.*trying file=\(.*libbalanced\.so\.1\)$/\1/p' "$work"/debug.* | tail -n 1
    rm -f "$work"/debug.*
}

# the widest build that this processor runs
widest() {
    local level best=$lib
    for level in x86-64-v3 x86-64-v4; do
        if /lib64/ld-linux-x86-64.so.2 --help | grep -q "^ *$level (supported"; then best=$lib/glibc-hwcaps/$level; fi
    done
    echo "$best/libbalanced.so.1"
}

in_c() {
    local took
    [ "$(pkg-config --modversion balanced)" = "$version" ] || fail "pkg-config has another version"
    gcc -std=c99 -O2 -o "$work/shared" examples/c/store.c $(pkg-config --cflags --libs balanced)
    LD_LIBRARY_PATH=$lib "$work/shared" VERSION
    took=$(LD_LIBRARY_PATH=$lib loaded "$work/shared" VERSION)
    [ "$took" = "$(widest)" ] || fail "the loader took $took, not $(widest)"
    echo "the loader takes ${took#"$prefix/"}"
    took=$(GLIBC_TUNABLES=glibc.cpu.hwcaps=-AVX2,-AVX512F LD_LIBRARY_PATH=$lib loaded "$work/shared" VERSION)
    [ "$took" = "$lib/libbalanced.so.1" ] || fail "without AVX2 the loader took $took"
    gcc -std=c99 -O2 -static -o "$work/static" examples/c/store.c $(pkg-config --static --cflags --libs balanced)
    "$work/static" VERSION
}

# a program that has the crate for a dependency, away from the repository
crate() {
    mkdir -p "$work/crate" "$work/program/src"
    cp -r bindings/rust/src bindings/rust/build.rs bindings/rust/Cargo.toml "$work/crate"
    printf '[package]\nname = "program"\nversion = "0.1.0"\nedition = "2021"\n[dependencies]\nbalanced = { path = "../crate" }\n' >"$work/program/Cargo.toml"
    cat >"$work/program/src/main.rs" <<'END'
fn main() {
    let plan = balanced::Plan::new(&[2, 11, 15, 10]).unwrap();
    let (message, mut shares) = (vec![7; plan.message_len(3)], vec![0; plan.shares_len(3)]);
    plan.encode(3, &message, &mut shares).unwrap();
    assert_eq!(plan.belongs(3, &shares), Ok(None));
    println!("balanced {} on {} nodes from Rust", balanced::VERSION, plan.n());
}
END
}

cargo_run() { CARGO_TARGET_DIR=$work/target cargo run --quiet --offline --manifest-path "$work/program/Cargo.toml"; }

in_rust() {
    local took
    crate
    cargo_run
    mkdir "$work/alone"
    ln -s "$lib/libbalanced.so.1" "$work/alone/libbalanced.so"
    BALANCED_LIB_DIR=$work/alone LD_LIBRARY_PATH=$lib cargo_run
    took=$(LD_LIBRARY_PATH=$lib loaded "$work/target/debug/program")
    [ "$took" = "$(widest)" ] || fail "for Rust the loader took $took, not $(widest)"
    # no library anywhere: the words say where it was looked for
    if PKG_CONFIG_PATH=$work/none cargo_run 2>"$work/words"; then fail "the crate was built without a library"; fi
    grep -q 'there is no libbalanced.a or libbalanced.so in' "$work/words"
}

placed
pages
if have_pkg_config; then
    export PKG_CONFIG_PATH=$lib/pkgconfig
    in_c
    in_rust
fi
echo "installed, and used from C and Rust"
