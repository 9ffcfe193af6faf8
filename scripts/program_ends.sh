#!/bin/sh
# Shows how the programs end: the exit status, what is said on the error output, and that nothing else is printed then.
set -u
cd "$(dirname "$0")/.." || exit 2
work=$(mktemp -d) || exit 2
trap 'rm -rf "$work"' EXIT
failed=0

# builds PROGRAM: proves and builds the program
builds() {
    if ! (cd "crates/$1" && rt run <stdin) >"$work/built" 2>&1; then
        echo "program ends: FAILED: $1 is not built:"
        tail -n 3 "$work/built"
        exit 1
    fi
}

# ends PROGRAM STATUS WORDS [ARGUMENT ..]: the program, over standard input, ends with this status and says WORDS
ends() {
    program=$1 due=$2 words=$3
    shift 3
    "crates/$program/out/$program" "$@" >"$work/out" 2>"$work/err"
    status=$?
    if [ "$due" -eq 0 ]; then said="$work/out" silent="$work/err"; else said="$work/err" silent="$work/out"; fi
    if [ "$status" -eq "$due" ] && grep -qF -- "$words" "$said" && [ ! -s "$silent" ]; then
        echo "program ends: ok, $program $*: status $status, '$words'"
    else
        echo "program ends: FAILED: $program $*: status $status where $due is due, or not '$words':"
        head -n 3 "$work/out" "$work/err"
        failed=1
    fi
}

# one line, and the reason only once, of what was said last
says_one_line() {
    if [ "$(wc -l <"$work/err")" -ne 1 ]; then
        echo "program ends: FAILED: $program says more than one line:"
        cat "$work/err"
        failed=1
    fi
}

printf '12\n4,5\n' >"$work/comma"
printf '12\r\n' >"$work/return"
printf '12\n\n' >"$work/empty"
seq 31 >"$work/short"
seq 32 >"$work/least"
seq 1024 >"$work/most"
seq 1025 >"$work/long"
builds invoice
ends invoice 0 'usage: invoice < PRICES' --help </dev/null
ends invoice 1 'usage: invoice < PRICES' --version </dev/null
ends invoice 1 'invoice: no argument is known but --help' --version </dev/null
ends invoice 1 'invoice: no argument is known but --help' --help --version </dev/null
ends invoice 1 'invoice: line 1: there is no price at all' </dev/null
ends invoice 1 'invoice: line 2: the line is empty' <"$work/empty"
ends invoice 1 'invoice: line 1: a carriage return (byte 13) is no digit' <"$work/return"
ends invoice 1 "invoice: line 2: ',' (byte 44) is no digit" <"$work/comma"
says_one_line
ends invoice 1 'invoice: line 31: the list ends here, and a line of the image takes 32 prices' <"$work/short"
ends invoice 1 'invoice: line 1025: there are more than 1024 prices' <"$work/long"
ends invoice 0 '  total: 528 cents, as the records have it one by one' <"$work/least"
ends invoice 0 '  total: 524800 cents, as the records have it one by one' <"$work/most"

# refuses WORDS LINE ..: conformance ends with status 1 at a text of these lines, and says WORDS alone
refuses() {
    words=$1
    shift
    printf '%s\n' "$@" >"$work/case"
    ends conformance 1 "conformance: $words" <"$work/case"
    says_one_line
}

builds conformance
printf '%s\n' 'case a' 'stack plain' 'bytes 0' 'end' >"$work/case"
ends conformance 0 'closed 0 CBF29CE484222325' <"$work/case"
refuses 'line 1: no case has such a line' 'hello'
refuses 'line 1: the line stands in the wrong place' 'bytes 128'
refuses 'line 2: a word is missing' 'case a' 'stack plain  c'
refuses "line 2: there is no layer 'x'" 'case a' 'stack plain x'
refuses 'line 2: a stack has at most 4 layers' 'case a' 'stack plain c c c c c'
refuses "line 3: '01' is no number" 'case a' 'stack plain' 'bytes 01'
refuses "line 3: '18446744073709551616' is no number below 2^64" 'case a' 'stack plain' 'bytes 18446744073709551616'
refuses 'line 4: the memory has no cell 256' 'case a' 'stack plain' 'bytes 300' 'cells 256 00'
refuses 'line 4: a window s has no board' 'case a' 'stack plain s' 'bytes 0' 'end'
refuses 'line 4: a byte has one digit' 'case a' 'stack plain' 'bytes 0' 'write 0 A'
refuses 'the last case has no end' 'case a' 'stack plain'
printf 'case a' >"$work/case"
ends conformance 1 'conformance: line 1: the line has no end' <"$work/case"
exit $failed
