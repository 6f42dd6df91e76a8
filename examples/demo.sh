#!/usr/bin/env bash
# The image store at work, in a folder of its own that is removed at the end: 15 nodes, an image of 5 MB, six faults, an update; the same
# image on six nodes, and on 51 nodes, one of which is made anew from a few bits of each symbol of the others.
#
#     make demo
set -euo pipefail
top=$(cd "$(dirname "$0")/.." && pwd)
PATH=$top/bin:$PATH
folder=$(mktemp -d)
trap 'rm -rf "$folder"' EXIT
cd "$folder"

say() { printf '\n%s\n' "$1"; }
# shows a command and runs it
try() {
    printf '$ %s\n' "$*"
    "$@"
}
# some bytes of a file, every bit of them turned round: turned FILE OFFSET COUNT
turned() {
    python3 -c '
import sys
with open(sys.argv[1], "rb") as file:
    file.seek(int(sys.argv[2]))
    sys.stdout.buffer.write(bytes(byte ^ 255 for byte in file.read(int(sys.argv[3]))))' "$@"
}
# puts standard input into a file: into FILE OFFSET
into() { dd of="$1" seek="$2" bs=1 conv=notrunc status=none; }
same() { cmp "$1" "$2" && echo "$2 is $1, byte for byte"; }

say "What a store of 15 nodes costs, any 9 of which give an image back:"
try imagestore plan --nodes 15 --needed 9

say "A store of 15 folders, and an image of 5 MB in it:"
imagestore init store.toml --needed 9 node{00..14} >/dev/null
head -c 5000000 /dev/urandom >firmware.bin
echo '$ imagestore init store.toml --needed 9 node{00..14}'
try imagestore put firmware firmware.bin

say "Five nodes are lost, and a byte of a sixth node's share is flipped:"
try rm -r node01 node04 node05 node09 node12
turned node07/firmware.share 200000 1 >byte
into node07/firmware.share 200000 <byte
echo 'node07/firmware.share: byte 200000 is another now'
try imagestore get firmware copy.bin
same firmware.bin copy.bin

say "New disks for the lost nodes: their shares are made anew. A check finds the sixth node and sets it right:"
try imagestore rebuild 1 4 5 9 12
try imagestore check --correct

say "100 bytes of the image change. They write 7 of the 15 nodes, and no other:"
turned firmware.bin 1234567 100 >patch.bin
try imagestore update firmware --at 1234567 patch.bin

say "Everything is read and compared once more, and the image got back:"
try imagestore check
into firmware.bin 1234567 <patch.bin
try imagestore get firmware copy.bin
same firmware.bin copy.bin

say "Any number of nodes from 2 to 255 will do. The image on six nodes, any five of which give it back:"
imagestore init six.toml --needed 5 six{0..5} >/dev/null
echo '$ imagestore init six.toml --needed 5 six{0..5}'
try imagestore --store six.toml put firmware firmware.bin
try rm -r six2
try imagestore --store six.toml get firmware copy.bin
same firmware.bin copy.bin

say "On 51 nodes, any 30 of which give it back, a lost node is made anew from 4 bits of each symbol of 45 others:"
imagestore init many.toml --needed 30 many{00..50} >/dev/null
echo '$ imagestore init many.toml --needed 30 many{00..50}'
imagestore --store many.toml put firmware firmware.bin >/dev/null
echo '$ imagestore --store many.toml put firmware firmware.bin'
try rm -r many07
try imagestore --store many.toml rebuild 7
