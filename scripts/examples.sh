#!/bin/sh
# Builds the static library, and the examples in C and Rust over it; runs them, and compares what each prints with what is due. Then
# compares the library with the second model of model/ on random cards, by the crate for Rust.
set -u
cd "$(dirname "$0")/.." || exit 2
work=$(mktemp -d) || exit 2
trap 'rm -rf "$work"' EXIT
cc=${CC:-cc}
failed=0

if ! command -v "$cc" >/dev/null; then
    echo "examples: FAILED: no C compiler '$cc': install one, such as the package gcc, or name it by CC"
    exit 1
fi
if ! command -v cargo >/dev/null; then
    echo 'examples: FAILED: no cargo: install it from https://rustup.rs'
    exit 1
fi
if ! (cd crates/card_c && rt lib) >"$work/lib" 2>&1; then
    echo 'examples: FAILED: the library is not built:'
    tail -n 3 "$work/lib"
    exit 1
fi

# The totals by arithmetic on the prices alone: record i costs 199 + 50 i cents, and record 40 is corrected to 1999.
total=0
i=0
while [ "$i" -lt 96 ]; do
    total=$((total + 199 + 50 * i))
    i=$((i + 1))
done
corrected=$((total - (199 + 50 * 40) + 1999))
# A read of the column looks for each of 96 prices, in 3 pages, of which each is met first once. By a cache over the window line 0 is a
# miss, which fetches line 1 as well; the first hit of line 1 fetches line 2, and that of line 2 meets the end.
cat >"$work/due" <<DUE
check: reason 0 number 0, cause 0 depth 0 place 0, done 0
total: $total cents, lookups 96, fills 3, line reads 0, hits 0
correct: reason 0 number 0, cause 0 depth 0 place 0, done 4
total: $corrected cents, lookups 96, fills 3, line reads 0, hits 0
total: $corrected cents, lookups 96, fills 3, line reads 3, hits 2
past the end: reason 0 number 0, cause 2 depth 0 place 384, done 128
nothing asked: reason 0 number 0, cause 1 depth 0 place 0, done 0
one frame twice: reason 25 number 2, cause 0 depth 0 place 0, done 0
DUE

# shown NAME DUE COMMAND ..: the command ends well and prints what is due
shown() {
    name=$1 due=$2
    shift 2
    if "$@" >"$work/out" 2>"$work/err" && diff "$due" "$work/out" >"$work/diff"; then
        echo "examples: ok, $name"
    else
        echo "examples: FAILED: $name:"
        cat "$work/diff" "$work/err"
        failed=1
    fi
}

# compiled NAME: the C program bindings/c/NAME.c, linked with the library
compiled() {
    "$cc" -std=c11 -Wall -Wextra -Werror -O2 -o "$work/$1" "bindings/c/$1.c" crates/card_c/out/libcard_c.a
}

echo 'edges: ok' >"$work/edges.due"
if compiled prices && compiled edges; then
    shown 'prices in C' "$work/due" "$work/prices"
    shown 'edges in C' "$work/edges.due" "$work/edges"
else
    failed=1
fi
shown 'prices in Rust' "$work/due" cargo run --quiet --manifest-path bindings/rust/Cargo.toml --example prices
if cargo test --release --quiet --manifest-path bindings/rust/Cargo.toml >"$work/out" 2>&1; then
    echo 'examples: ok, the library and the second model agree on random cards'
else
    echo 'examples: FAILED: the library and the second model:'
    cat "$work/out"
    failed=1
fi
exit "$failed"
