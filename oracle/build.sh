#!/bin/sh
# Builds the oracle from the published files of orderbook-rs 0.15.3.
#   oracle/build.sh FOLDER     FOLDER holds the files that published.sha256 names
# The results are oracle/target/libpublished.rlib and oracle/target/oracle over it.
set -eu
if [ $# -ne 1 ]; then
    echo "usage: $0 FOLDER" >&2
    exit 2
fi
here=$(cd "$(dirname "$0")" && pwd)
published=$(cd "$1" && pwd)

# Only the very bytes that were published may be compiled.
(cd "$published" && sha256sum --check --strict --quiet "$here/published.sha256")

# #[path] wants a fixed name, so the files are copied to one; target/ is not committed.
mkdir -p "$here/target/published"
for name in stop_orders repricing stop_protection; do
    cp -f "$published/src--src--orderbook--$name.rs.txt" "$here/target/published/$name.rs"
    chmod u+w "$here/target/published/$name.rs"
done

rustc -O --edition 2024 --crate-type rlib --crate-name published -o "$here/target/libpublished.rlib" "$here/src/lib.rs"
rustc -O --edition 2024 --crate-name oracle --extern published="$here/target/libpublished.rlib" -o "$here/target/oracle" "$here/src/main.rs"
"$here/target/oracle" check
