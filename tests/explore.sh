#!/usr/bin/env bash
# The learners' page (docs/explore/index.html): its arithmetic under node beside the reference's, and the page itself in a headless Chromium.
# What is missing is installed; where it cannot be, a line says what was skipped.
set -euo pipefail
cd "$(dirname "$0")/.."
apt() { DEBIAN_FRONTEND=noninteractive timeout 300 apt-get -qq -o Acquire::Retries=0 -o Acquire::http::Timeout=20 "$@" >/dev/null 2>&1; }

# needs COMMAND PACKAGE: whether the command is there, after an attempt to install it
needs() {
    command -v "$1" >/dev/null && return
    { apt install -y --no-install-recommends "$2" || { apt update && apt install -y --no-install-recommends "$2"; }; } && command -v "$1" >/dev/null
}

path=$(env -u DISPLAY -u WAYLAND_DISPLAY docs/explore/open.sh)
[ "$path" = "$PWD/docs/explore/index.html" ] || { echo "docs/explore/open.sh printed: $path"; exit 1; }
if ! needs node nodejs; then echo "SKIPPED: the learners' page is not tested, for node is not there and cannot be installed"; exit 0; fi
node tests/explore/arithmetic.mjs
if ! needs chromium chromium; then echo "SKIPPED: the learners' page is not opened, for chromium is not there and cannot be installed"; exit 0; fi
timeout 300 node tests/explore/page.mjs chromium
