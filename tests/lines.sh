#!/bin/sh
# Tries in which pieces TELL writes: tests/lines.sh JUDGE TELL. Where answers and complaints go to one place, each line has to be whole, and
# the lines come in blocks: of 64 KiB of pairs, or of as many answers as 64 KiB hold, the complaints first. Answers that are held when a
# complaint can't be written are lost. The status is 1 if anything else comes.
set -eu
[ $# -eq 2 ] || {
    echo "usage: tests/lines.sh JUDGE TELL" >&2
    exit 1
}
tell=$(readlink -f "$2")
cd "$(dirname "$0")/../books"
folder=$(mktemp -d)
trap 'rm -rf "$folder"' EXIT
trap 'exit 130' HUP INT TERM
status=0

# many N LINE: the line, N times.
many() {
    awk -v n="$1" -v line="$2" 'BEGIN { while (n-- > 0) print line }'
}

# came CALL: whether what CALL wrote, in the file `found`, is what stands in `wanted`.
came() {
    cmp -s "$folder/wanted" "$folder/found" || {
        echo "DISAGREE $1: the lines do not come as they should; from the first that differs on:"
        diff "$folder/wanted" "$folder/found" | head -n 5
        status=1
    }
}

complaint() {
    echo "<stdin>:$1:1: expected a term, found \`?\`"
}

# The answers would fill 32 KiB in the middle of a line, just before a complaint.
{ many 3 '?'; many 6549 x=x; echo '?'; echo x=y; } >"$folder/pairs"
{ complaint 1; complaint 2; complaint 3; complaint 6553; many 3 'no term'; many 6549 same; echo 'no term'; echo different; } >"$folder/wanted"
"$tell" sums.book <"$folder/pairs" >"$folder/found" 2>&1
came 'tell with a short text'

# More pairs and more answers than a block has.
{ many 16383 x=x; echo '?'; many 20000 x=x; echo '?'; many 5 x=x; } >"$folder/pairs"
{
    many 13106 same
    complaint 16384
    many 3277 same
    echo 'no term'
    many 16384 same
    complaint 36385
    many 3616 same
    echo 'no term'
    many 5 same
} >"$folder/wanted"
"$tell" sums.book <"$folder/pairs" >"$folder/found" 2>&1
came 'tell with a long text'

# A complaint that can't be written.
{ many 100 x=x; echo '?'; } >"$folder/pairs"
: >"$folder/wanted"
! "$tell" sums.book <"$folder/pairs" >"$folder/found" 2>/dev/full || {
    echo "DISAGREE tell whose complaint can't be written: the status is 0"
    status=1
}
came "tell whose complaint can't be written"
echo "3 texts told with complaints between the answers"
exit $status
