#!/bin/sh
# Times the compiled library beside the published Rust, from one driver on the same inputs, and prints a table.
#   bench/run.sh FOLDER     FOLDER holds the published files, as for oracle/build.sh
set -eu
if [ $# -ne 1 ]; then
    echo "usage: $0 FOLDER" >&2
    exit 2
fi
here=$(cd "$(dirname "$0")" && pwd)
root=$(dirname "$here")
"$root/oracle/build.sh" "$1" >&2
"$root/hosts/build.sh" >&2
mkdir -p "$here/target"
rustc -O --edition 2024 --crate-name bench --extern published="$root/oracle/target/libpublished.rlib" \
    -L "native=$root/target/staticlib" -l static=yubtomiq -o "$here/target/bench" "$here/src/main.rs"
"$here/target/bench"
