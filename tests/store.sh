#!/usr/bin/env bash
# The tests of the image store: tests/store.sh [NAMES], as test_crash or test_crash.Crashes.test_put. Needs the shared library
# (`make build`). For the tests over ssh openssh-server is installed where it is missing; where that cannot be, they are left out,
# and the last lines say so.
set -euo pipefail
cd "$(dirname "$0")/store"
apt() { DEBIAN_FRONTEND=noninteractive timeout 300 apt-get -qq -o Acquire::Retries=0 -o Acquire::http::Timeout=20 "$@" >/dev/null 2>&1; }
install() { apt install -y --no-install-recommends openssh-server; }
# where no list of packages is there, as on a new machine, it is fetched first
if ! PATH=$PATH:/usr/sbin command -v sshd >/dev/null; then
    install || { apt update && install; } || true
fi
exec python3 -B run.py "$@"
