#!/bin/sh
set -e
cd "$(dirname "$0")"
mkdir -p bin
cargo build --release --offline -j1
cp target/release/plain bin/plain
