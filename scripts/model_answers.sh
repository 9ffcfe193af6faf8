#!/bin/sh
# Shows that crates/conformance/stdout has what the model answers to the cases of crates/conformance/stdin.
set -u
cd "$(dirname "$0")/.." || exit 2
work=$(mktemp -d) || exit 2
trap 'rm -rf "$work"' EXIT

scripts/build_model.sh || exit 1
if ! model/target/release/model answers <crates/conformance/stdin >"$work/answers"; then
    echo 'model answers: FAILED: the model does not take the cases'
    exit 1
fi
if ! diff "$work/answers" crates/conformance/stdout >"$work/differences"; then
    echo 'model answers: FAILED: crates/conformance/stdout is not what the model answers:'
    head -n 5 "$work/differences"
    exit 1
fi
echo "model answers: ok, $(grep -c '^case ' crates/conformance/stdin) cases are answered as crates/conformance/stdout says"
