#!/usr/bin/env bash
# Builds the program and runs it on input that is empty, broken, too long or random: it prints its answer and ends with status 0.
set -u
cd "$(dirname "$0")/.." || exit 2
book=crates/book/out/book
example=crates/book/stdin
failed=0

if ! (cd crates/book && rt run) < "$example" > /dev/null 2>&1; then
    echo "tests/book.sh: the program is not built"
    exit 1
fi

expect() { # a name, the text that must be printed; standard input is what the program reads
    local got status
    got=$("$book")
    status=$?
    if [ "$status" -ne 0 ] || [ "$got" != "$2" ]; then
        echo "tests/book.sh: $1: status $status, printed '$(printf '%s' "$got" | head -c 80)'"
        return 1
    fi
}

expect "no bytes" "L,0" < /dev/null || failed=1
head -c 159 /dev/zero | expect "a part of a leaf" "E,51,0" || failed=1
head -c 160 /dev/zero | expect "a leaf of zeros" "E,52,0" || failed=1
head -c 1000000 /dev/zero | expect "a megabyte of zeros" "E,51,0" || failed=1
head -c 655360 /dev/zero | expect "as many leaves as a book can have" "E,52,0" || failed=1
head -c 655520 /dev/zero | expect "one leaf more than a book can have" "E,51,0" || failed=1
yes 'random' | head -c 1600 | expect "text" "E,52,0" || failed=1
head -c 100000 /dev/urandom | expect "random bytes" "E,52,0" || failed=1
head -c 160 "$example" | expect "the first leaf of the example" "$(printf '%s\n' 0,0,1,0,20000,2,3,30000,7,20000 A,3,30000,0 A,7,20000,0 L,1)" || failed=1
{ head -c 480 "$example"; head -c 160 /dev/zero; tail -c +641 "$example"; } | expect "a broken leaf in the middle" "E,52,3" || failed=1
{ cat "$example"; printf x; } | expect "one byte too many" "E,51,0" || failed=1

[ "$failed" -eq 0 ] || exit 1
echo "tests/book.sh: all as expected"
