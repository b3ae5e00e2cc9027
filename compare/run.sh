#!/bin/sh
# Replays calls that the oracle makes up against the compiled library, and prints how many differ.
#   compare/run.sh FOLDER [COUNT [SEED]]     FOLDER holds the published files; a million calls, by the clock's seed, if nothing is said
set -eu
if [ $# -lt 1 ] || [ $# -gt 3 ]; then
    echo "usage: $0 FOLDER [COUNT [SEED]]" >&2
    exit 2
fi
here=$(cd "$(dirname "$0")" && pwd)
root=$(dirname "$here")
count=${2:-1000000}
seed=${3:-$(date +%s)}
"$root/oracle/build.sh" "$1" >&2
"$root/hosts/build.sh" >&2
mkdir -p "$here/target"
rustc -O --edition 2024 --crate-name compare -L "native=$root/target/staticlib" -l static=yubtomiq -o "$here/target/compare" "$here/src/main.rs"
echo "seed $seed, $count calls"
"$root/oracle/target/oracle" "$seed" "$count" | "$here/target/compare" "$count"
