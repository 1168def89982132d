#!/bin/sh
# Tries run.sh: tests/run.sh JUDGE TELL. It has to do what the programs JUDGE and TELL do: from other folders, through a link, with relative
# names, on the standard input, and where they refuse. Once it runs the programs that lie in the repository, and once, in a copy with no
# program, what it builds there. The status is 1 if anything differs.
set -eu
[ $# -eq 2 ] || {
    echo "usage: tests/run.sh JUDGE TELL" >&2
    exit 1
}
judge=$(readlink -f "$1")
tell=$(readlink -f "$2")
top=$(readlink -f "$(dirname "$0")/..")
folder=$(mktemp -d)
trap 'rm -rf "$folder"' EXIT
trap 'exit 130' HUP INT TERM
status=0
count=0
mkdir "$folder/here" "$folder/links" "$folder/copy"
cp "$top/books/sums.book" "$top/books/sums.pairs" "$folder"
cp "$top/books/sums_lost.book" "$folder/here/my book"
cd "$folder/here"

# differs NAME INPUT PROGRAM ARGUMENT..: whether the program run by NAME does something else on an input. What run.sh itself says on the
# standard error is left out.
differs() {
    name=$1 input=$2 program=$3
    shift 3
    case $program in
    judge) built=$judge ;;
    tell) built=$tell ;;
    esac
    wanted=0
    "$built" "$@" <"$input" >"$folder/wanted" 2>"$folder/wanted_errors" || wanted=$?
    found=0
    "$name" "$program" "$@" <"$input" >"$folder/found" 2>"$folder/all_errors" || found=$?
    grep -v '^run\.sh: ' "$folder/all_errors" >"$folder/found_errors" || true
    [ $wanted = $found ] && cmp -s "$folder/wanted" "$folder/found" && cmp -s "$folder/wanted_errors" "$folder/found_errors" && return 1
    echo "DISAGREE $name $program $*: expected status $wanted and the output of $built, found status $found"
    cat "$folder/all_errors"
}

# Tries all calls of the program run by $1.
try() {
    for call in 'judge ../sums.book' 'judge --rows ../sums.book' 'judge --work 100 -' 'judge absent.book' 'judge --unknown' \
        'tell ../sums.book ../sums.pairs' 'tell ../sums.book' 'tell --help'; do
        count=$((count + 1))
        # The words of a call are parted.
        # shellcheck disable=SC2086
        ! differs "$1" ../sums.pairs $call || status=1
    done
    count=$((count + 2))
    ! differs "$1" ../sums.book judge "my book" || status=1
    ! differs "$1" ../sums.book tell - ../sums.pairs || status=1
}

ln -s "$top/run.sh" "$folder/links/ask"
try ../links/ask
[ "$(../links/ask 2>&1)" = "$("$judge" "$folder/sums.book")" ] || {
    echo "DISAGREE: run.sh does not run the program that lies in the repository, or tells more than it"
    status=1
}

tar -C "$top" -cf - --exclude='crates/*/out' --exclude='must-fail' run.sh toolchain.sh tools books crates crates.txt | tar -C "$folder/copy" -xf -
ln -sf ../copy/run.sh "$folder/links/ask"
try ../links/ask
[ "$(../links/ask 2>&1 >"$folder/found" | wc -l)" -eq 1 ] && "$judge" "$folder/sums.book" | cmp -s - "$folder/found" || {
    echo "DISAGREE: a program that was not proved is not told in one line"
    status=1
}
echo "$count calls of run.sh tried"
exit $status
