#!/bin/sh
# Builds counter.wasm, with clang and wasm-ld (both 14 when it was last built).
set -eu
cd "$(dirname "$0")"
clang --target=wasm32 -Os -ffreestanding -nostdlib -Wall -Wextra -Werror \
    -Wl,--no-entry -Wl,--strip-all -o counter.wasm counter.c
chmod 644 counter.wasm
