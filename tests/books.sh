#!/bin/sh
# Asks JUDGE of every example book, and TELL of the pairs beside it, and both with fewer work words: tests/books.sh JUDGE TELL. The status is
# 1 if any answer is another than the one in books/answers.txt or books/calls.txt, or than the comment behind the pair.
set -eu
[ $# -eq 2 ] || {
    echo "usage: tests/books.sh JUDGE TELL" >&2
    exit 1
}
judge=$(readlink -f "$1")
tell=$(readlink -f "$2")
cd "$(dirname "$0")/../books"
status=0

# Compares what is answered to a call, $1, with what is wanted, $2.
agree() {
    [ -n "$2" ] && [ "$3" = "$2" ] || {
        echo "DISAGREE $1: expected" ${2:-an answer that is not written down}", answered" ${3:-nothing}
        status=1
    }
}

books=0
for book in *.book; do
    books=$((books + 1))
    agree "judge $book" "$(sed -n "s/^$book //p" answers.txt)" "$("$judge" "$book" | head -n 1)"
done
pairs=0
for file in *.pairs; do
    wanted=$(sed -n 's/^[^#].*# *//p' "$file")
    pairs=$((pairs + $(echo "$wanted" | wc -l)))
    agree "tell $file" "$wanted" "$("$tell" "${file%.pairs}.book" "$file" 2>/dev/null || true)"
done
calls=0
while IFS=: read -r call wanted; do
    case $call in
    judge\ *) found=$("$judge" ${call#judge } </dev/null | head -n 1) ;;
    tell\ *) found=$("$tell" ${call#tell } </dev/null 2>/dev/null || true) ;;
    *) continue ;;
    esac
    calls=$((calls + 1))
    agree "$call" "$(echo "${wanted# }" | sed 's/, /\n/g')" "$found"
done <calls.txt
echo "$books example books judged, $pairs pairs told, $calls calls with fewer work words"
exit $status
