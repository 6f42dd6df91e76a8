#!/usr/bin/env bash
# Makes the library (tools/build_library.sh), and builds the Rust crate over the static one. Words are passed to cargo: build.sh --release
set -euo pipefail
cd "$(dirname "$0")/../.."
tools/build_library.sh
export BALANCED_LIB_DIR="$PWD/target/lib"
cd bindings/rust
cargo build --offline --locked "$@"
