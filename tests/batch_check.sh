#!/usr/bin/env bash
# Builds the program and runs it on every sample batch, on damaged ones, and on input that is empty, too long or random: it prints its answer
# and ends with status 0.
set -u
cd "$(dirname "$0")/.." || exit 2
batch_check=crates/batch_check/out/batch_check
cases=tests/cases
failed=0

if ! (cd crates/batch_check && rt run) < crates/batch_check/stdin > /dev/null 2>&1; then
    echo "tests/batch_check.sh: the program is not built"
    exit 1
fi

run() { # the program, which gets along with 16 megabytes, its code and libraries included
    ulimit -v 16384 && exec "$batch_check"
}

expect() { # a name, the line that must be printed; standard input is what the program reads
    local got status
    got=$(run)
    status=$?
    if [ "$status" -ne 0 ] || [ "$got" != "$2" ]; then
        echo "tests/batch_check.sh: $1: status $status, printed '$(printf '%s' "$got" | head -c 80)', not '$2'"
        return 1
    fi
}

answers() { # a name; standard input is any text, which must get one line of either form
    local got status
    got=$(run)
    status=$?
    if [ "$status" -ne 0 ] || ! [[ "$got" =~ ^(E,1[1-6],[0-9]+,[0-4]|B(,[0-9]+){6})$ ]]; then
        echo "tests/batch_check.sh: $1: status $status, printed '$(printf '%s' "$got" | head -c 80)'"
        return 1
    fi
}

# What must be printed of an accepted batch, counted without the program: the first line, and how many lines have each mark.
counted() {
    awk -F, 'NR == 1 { head = $0 } $1 == "P" { postings++ } $1 ~ /^[TUSANW]$/ { lines++ } $1 == "G" { runs++ }
        END { printf "%s,%d,%d,%d\n", head, postings, lines, runs }'
}

# A batch of 102 postings and 1,628 order lines whose last line has this many bytes: with 10 it has 32,768 in all.
long() {
    awk -v last="$1" 'BEGIN {
        printf "B,1,1,1\nH,0,0\n"
        for (p = 0; p < 101; p++) { print "P"; for (i = 0; i < 16; i++) print "A,-1000000000000000" }
        print "P"; for (i = 0; i < 11; i++) print "A,-1000000000000000"
        printf "A,"; for (i = 0; i < last - 3; i++) printf "1"; printf "\n"
    }'
}

read=0
for batch in "$cases"/*.batch; do
    name=$(basename "$batch" .batch)
    first=$(head -n 1 "$cases/$name.post")
    case "$first" in
        E,*) wanted=$first ;;
        *) wanted=$(counted < "$batch") ;;
    esac
    expect "sample $name" "$wanted" < "$batch" || failed=1
    # each sample without its last byte, and with a byte of its middle changed
    head -c -1 "$batch" | answers "sample $name, cut short" || failed=1
    size=$(stat -c %s "$batch")
    { head -c $((size / 2)) "$batch"; printf '7'; tail -c +$((size / 2 + 2)) "$batch"; } | answers "sample $name, damaged" || failed=1
    read=$((read + 1))
done
if [ "$read" -ne 90 ]; then
    echo "tests/batch_check.sh: $read samples, not 90"
    failed=1
fi

expect "no bytes" "E,11,0,0" < /dev/null || failed=1
head -c 1000000 /dev/zero | expect "a megabyte of zeros" "E,11,0,0" || failed=1
head -c 32768 /dev/zero | expect "32,768 zeros" "E,12,1,0" || failed=1
head -c 32769 /dev/zero | expect "32,769 zeros" "E,11,0,0" || failed=1
head -c 1000000 /dev/urandom | expect "many random bytes" "E,11,0,0" || failed=1
head -c 30000 /dev/urandom | answers "random bytes" || failed=1
tr -dc 'BOHPTUSANWG0-9,\n-' < /dev/urandom | head -c 30000 | answers "random lines" || failed=1
long 10 | expect "a batch of 32,768 bytes" "B,1,1,1,102,1628,0" || failed=1
long 11 | expect "a batch of 32,769 bytes" "E,11,0,0" || failed=1
head -c 100000000 /dev/zero | expect "a hundred megabytes of zeros" "E,11,0,0" || failed=1

[ "$failed" -eq 0 ] || exit 1
echo "tests/batch_check.sh: all as expected"
