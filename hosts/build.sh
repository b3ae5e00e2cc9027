#!/bin/sh
# Builds the static library for C and Rust callers from the crate yubtomiq_c, as target/staticlib/libyubtomiq.a. Needs rt.
set -eu
root=$(cd "$(dirname "$0")/.." && pwd)
(cd "$root/crates/yubtomiq_c" && rt lib)
mkdir -p "$root/target/staticlib"
cp "$root/crates/yubtomiq_c/out/libyubtomiq_c.a" "$root/target/staticlib/libyubtomiq.a"
