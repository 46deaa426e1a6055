#!/bin/sh
# Builds settle and generate into a folder (default: target/second).
set -eu
sources=$(cd "$(dirname "$0")" && pwd)
target=${1:-target/second}
mkdir -p "$target"
for program in settle generate; do
    rustc --edition 2021 -D warnings -C opt-level=3 -C codegen-units=1 -C lto=fat -C panic=abort \
        -o "$target/$program" "$sources/$program.rs"
done
