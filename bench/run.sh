#!/usr/bin/env bash
# Times the calls in each build of the library that this processor runs, beside ISA-L, Jerasure, klauspost/reedsolomon and libfec, whose results
# are compared with ours: bench/run.sh [ROUNDS]
# LIBRARY=path/to/libbalanced.a names another build of the library, static or shared, which is timed beside them in the same run, as `other`.
# Needs rt and gcc; a peer that is missing is left out.
set -euo pipefail
cd "$(dirname "$0")/.."
mkdir -p target/bench

tools/build_library.sh

# the builds, as glibc's loader says
builds=(x86-64 "$PWD/target/lib/libbalanced.so.1")
for level in x86-64-v3 x86-64-v4; do
    if /lib64/ld-linux-x86-64.so.2 --help | grep -q "^ *$level (supported"; then
        builds+=("$level" "$PWD/target/lib/glibc-hwcaps/$level/libbalanced.so.1")
    else
        echo "the build for $level is left out: this processor does not run it"
    fi
done

ours=${#builds[@]}

# a static library as a shared object, so that it can be loaded beside the others
case ${LIBRARY:-} in
    '') ;;
    *.a)
        gcc -shared -Wl,-Bsymbolic -Wl,--whole-archive "$LIBRARY" -Wl,--no-whole-archive -o target/bench/other.so
        builds+=(other "$PWD/target/bench/other.so")
        ;;
    *) builds+=(other "$(realpath "$LIBRARY")") ;;
esac

peers=()
found() { printf '#include <stdio.h>\n#include <%s>\nint main(void) { return 0; }\n' "$1" | gcc -x c - "${@:2}" -o /dev/null 2>/dev/null; }
if found isa-l.h -lisal; then peers+=(-DISAL -lisal); else echo "ISA-L is left out: apt-get install libisal-dev"; fi
if found jerasure.h -I/usr/include/jerasure -lJerasure; then peers+=(-DJERASURE -I/usr/include/jerasure -lJerasure); else echo "Jerasure is left out: apt-get install libjerasure-dev libgf-complete-dev"; fi
if found fec.h -lfec; then peers+=(-DLIBFEC -lfec); else echo "libfec is left out: apt-get install libfec-dev"; fi
# a library for C, made of Debian's sources
go_library() { GO111MODULE=off GOPATH=/usr/share/gocode GOCACHE=$PWD/target/bench/go GOFLAGS='' CGO_ENABLED=1 go build -buildmode=c-shared -o target/bench/libklauspost.so bench/klauspost.go 2>/dev/null; }
if go_library; then
    peers+=(-DKLAUSPOST -Itarget/bench -Ltarget/bench -lklauspost "-Wl,-rpath,$PWD/target/bench")
else
    echo "klauspost/reedsolomon is left out: apt-get install golang-go golang-github-klauspost-reedsolomon-dev"
fi

gcc -std=gnu11 -O2 -Wall -Wextra -Iinclude -o target/bench/bench bench/bench.c bench/ours.c bench/isal.c bench/jerasure.c bench/klauspost.c bench/libfec.c "${peers[@]}" -ldl
target/bench/bench "${1:-15}" "${builds[@]}"

# each build by itself, in a folder where the loader finds no other
for program in wide traces carry listed; do
    gcc -std=gnu11 -O2 -Wall -Wextra -Iinclude -o "target/bench/$program" "bench/$program.c" -Ltarget/lib -lbalanced
done
for ((i = 0; i < ours; i += 2)); do
    folder=target/bench/${builds[i]}
    mkdir -p "$folder"
    ln -sf "${builds[i + 1]}" "$folder/libbalanced.so.1"
    for program in wide traces carry listed; do LD_LIBRARY_PATH=$folder "target/bench/$program" "${1:-15}" | sed "s/^/${builds[i]}: /"; done
done
