#!/usr/bin/env bash
# Builds the static library, and the tests of its C header and its Rust face; runs both. Needs rt, gcc and rustc, on x86-64.
set -eu
cd "$(dirname "$0")"
./build.sh
library=../target/staticlib
mkdir -p target
gcc -std=c99 -D_POSIX_C_SOURCE=200112L -Wall -Wextra -pedantic -Werror -O2 tests/test.c "$library/libyubtomiq.a" -pthread -o target/test_c
rustc --edition 2021 -D warnings -A dead_code -O tests/test.rs -L "native=$library" -l static=yubtomiq -o target/test_rust
target/test_c
target/test_rust
