#!/bin/sh
# Counts memory: tests/memory.sh JUDGE TELL. Runs the programs on the longest texts, names, rows, lines and terms that they take, and on some
# that they refuse, with the most work words, and counts what they have from malloc at once (tests/heap.c). The status is 1 if that is ever
# more than 4 MiB, or if a program says something else than is expected, since then it did not come as far as it should. Needs gcc.
set -eu
[ $# -eq 2 ] || {
    echo "usage: tests/memory.sh JUDGE TELL" >&2
    exit 1
}
command -v gcc >/dev/null || {
    echo "tests/memory.sh needs gcc, which is not on the PATH." >&2
    exit 1
}
judge=$(readlink -f "$1")
tell=$(readlink -f "$2")
here=$(readlink -f "$(dirname "$0")")
limit=4194304
folder=$(mktemp -d)
trap 'rm -rf "$folder"' EXIT
trap 'exit 130' HUP INT TERM
cd "$folder"
status=0
count=0
most=0
gcc -O2 -Wall -shared -fPIC -o heap.so "$here/heap.c"

# counted EXPECTED PROGRAM ARGUMENT..: runs a program, which has to say EXPECTED somewhere on its outputs.
counted() {
    expected=$1
    shift
    count=$((count + 1))
    rm -f peak
    HEAP_PEAK=$folder/peak LD_PRELOAD=$folder/heap.so "$@" >said 2>&1 || true
    grep -qF "$expected" said || {
        echo "DISAGREE call $count, of ${1##*/}: expected $expected, found $(tail -c 200 said)"
        status=1
    }
    peak=$(cat peak 2>/dev/null || echo 0)
    [ "$peak" -le $most ] || most=$peak
    [ "$peak" -gt 0 ] && [ "$peak" -le $limit ] || {
        echo "DISAGREE call $count, of ${1##*/}: $peak bytes at once"
        status=1
    }
}

# Writes the inputs. All names but f and x have 64 characters. Of the terms, the deep ones are f in f in f, as many as is said.
awk '
    function times(text, n,    all) {
        all = ""
        for (; n >= 1; n = int(n / 2)) {
            if (n % 2) all = all text
            text = text text
        }
        return all
    }
    function name(kind, n) { return sprintf("%s%063d", kind, n) }
    function deep(n, inner) { return times("f(", n) inner times(")", n) }
    # A text, with a comment that makes it as long as is said.
    function padded(text, bytes) { return text " #" times("-", bytes - length(text) - 2) }
    BEGIN {
        names = "signs f/1"
        for (n = 1; n < 32; n++) names = names " " name("s", n) "/" (n == 1 ? 4 : n % 2)
        names = names "\nletters x"
        for (n = 1; n < 256; n++) names = names " " name("x", n)
        side = deep(31, "x")
        sides = "\nequations"
        for (n = 0; n < 64; n++) sides = sides "\n" side " = " side
        rules = "\nrules"
        for (n = 0; n < 63; n++) rules = rules "\n" side " -> x\n = " side "\n = x"
        # 63 rules have 63 * (1 + 64 + 2) words of ways, and the last as many as may be.
        way = (16451 - 63 * 67 - 1 - 2 - 1) / 2 - 1
        last = "\n" side " -> x\n = " deep(int(way), "x") "\n = x"
        printf "%s", padded(names sides rules last, 262144) >"full.book"
        printf "%s", padded(names "\nrules\n" side " -> x\n = " deep(8222, "x") "\n = x", 262144) >"deep.book"
        printf "%s", padded(names sides rules last, 262145) >"long.book"
        printf "%s", padded(names sides rules last " =", 262144) >"fault.book"
        printf "%s", padded(names "\nrules\n" side " -> x\n = " times("f(", 8200) name("s", 1) "(x, x, x)", 262144) >"parts.book"
        wide = name("x", 4)
        for (n = 0; n < 7; n++) wide = name("s", 1) "(" name("x", 1) ", " wide ", " name("x", 2) ", " name("x", 3) ")"
        print names "\nrules\n " wide " -> " wide >"up.book"
        print names "\nequations\n f(f(x)) = f(x)\nrules\n f(f(x)) -> f(x)\n = f(x)" >"settled.book"
        line = deep(6526, "x") " = " deep(6526, "x")
        print padded(line, 262143) >"deep.pairs"
        print padded(deep(100, "x") " = " deep(6300, "x"), 262143) >"equal.pairs"
        print padded(deep(6527, "x") " = " deep(6527, "x"), 262143) >"too_deep.pairs"
        print padded(times("f(", 6526) " = x", 262143) >"fault.pairs"
        print padded("x = " times("f(", 6500) name("s", 1) "(x, x, x)", 262143) >"parts.pairs"
        print padded(line, 262144) >"long.pairs"
        print times("f", 262143) >"word.pairs"
        print "1 1 0 0 0" >"rows.book"
        print padded(times("1 0 ", 6526) "0 0 | " times("1 0 ", 6526) "0 0", 262143) >"rows.pairs"
        print padded(times("1 0 ", 6527) "0 0 | 0 0", 262143) >"too_deep_rows.pairs"
        printf "%s\n%s", times("1 ", 16451), padded(times("1 ", 16451), 262144 - 2 * 16451 - 1) >"full.rows"
        printf "%s", times("1 ", 16452) >"long.rows"
    }
'
# The name of a file may be so long.
path=$(printf '%04046d' 0 | sed 's|00|./|g')

counted few "$judge" "${path}full.book"
counted few "$judge" "${path}deep.book"
counted 'the text has more than 262144 bytes' "$judge" "${path}long.book"
counted 'found the end of the text' "$judge" "${path}fault.book"
counted 'and the next part of `s0' "$judge" "${path}parts.book"
counted 'up 0' "$judge" "${path}up.book"
counted settles "$judge" "${path}settled.book"
counted few "$judge" --rows "${path}full.rows"
counted 'at most 16451 words a row' "$judge" --rows "${path}long.rows"
for book in settled up; do
    counted small "$tell" "${path}$book.book" "${path}deep.pairs"
    counted small "$tell" "${path}$book.book" "${path}too_deep.pairs"
    counted 'expected a term, found `=`' "$tell" "${path}$book.book" "${path}fault.pairs"
    counted 'and the next part of `s0' "$tell" "${path}$book.book" "${path}parts.pairs"
    counted 'expected a line of at most 262144 bytes' "$tell" "${path}$book.book" "${path}long.pairs"
    counted 'the name of a sign or a letter' "$tell" "${path}$book.book" "${path}word.pairs"
done
counted same "$tell" "${path}settled.book" "${path}equal.pairs"
counted unsettled "$tell" "${path}up.book" "${path}equal.pairs"
counted small "$tell" "${path}full.book" "${path}equal.pairs"
counted small "$tell" --rows "${path}rows.book" "${path}rows.pairs"
counted small "$tell" --rows "${path}rows.book" "${path}too_deep_rows.pairs"
counted small "$tell" --rows "${path}full.rows" "${path}rows.pairs"
echo "$count calls take at most $most bytes at once, of $limit"
exit $status
