#!/bin/sh
# build.sh OUT: puts the oracle together in the folder OUT (assemble.sh) and builds it with cargo. Two builds: OUT/target/release/oracle and,
# with overflow checks, OUT/target/checked/oracle, which is the judge.
set -eu
here=$(cd "$(dirname "$0")" && pwd -P)
[ $# -eq 1 ] || { echo "usage: build.sh OUT" >&2; exit 2; }
"$here/assemble.sh" "$1"
cd "$1"
mkdir -p .cargo
printf '[source.crates-io]\nreplace-with = "vendored"\n[source.vendored]\ndirectory = "vendor"\n[net]\noffline = true\n' >.cargo/config.toml
cargo build --release --offline
cargo build --profile checked --offline
