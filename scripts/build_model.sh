#!/bin/sh
# Builds the model of model/, which is plain Rust without dependencies: model/target/release/model.
cd "$(dirname "$0")/.." || exit 2
if ! command -v cargo >/dev/null; then
    echo 'model: cargo is wanting: install Rust, of 1.85 or later, as https://rustup.rs says'
    exit 1
fi
cargo build --quiet --release --offline --manifest-path model/Cargo.toml
