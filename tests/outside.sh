#!/bin/sh
# Checks from outside: tests/outside.sh JUDGE TELL [COUNT]
# Makes COUNT books (300 if not said), and takes the example books besides; asks the programs JUDGE and TELL and a second judge that shares
# nothing with them, and compares. The second judge tries everything within nine letters and signs (tests/brute), or, of books of many
# signs, as many terms as it can; where that is too little to tell, it says which answers are left. Each is asked with the most work words
# and with just as few as the rows want and one fewer, since `few` and `small` are exact; and that a term is too large is believed only
# where the second judge finds one, or could not follow all steps. The programs have to say the same of the readable form as of the rows.
# Last, programs that always say one thing have to be found out. The status is 1 if any two answers disagree. Needs rustc.
set -eu
[ $# -ge 2 ] || {
    echo "usage: tests/outside.sh JUDGE TELL [COUNT]" >&2
    exit 1
}
command -v rustc >/dev/null || {
    echo "tests/outside.sh needs rustc, which is not on the PATH." >&2
    exit 1
}
judge=$1
tell=$2
count=${3:-300}
here=$(dirname "$0")
most=851968
folder=$(mktemp -d)
trap 'rm -rf "$folder"' EXIT
trap 'exit 130' HUP INT TERM
status=0
rustc --edition 2024 -O -o "$folder/brute" "$here/brute/main.rs"
"$folder/brute" make "$folder" "$count"
"$folder/brute" take "$folder" "$here"/../books/*.book

# Keeps what the second judge says of each book and of its pairs.
second() {
    for rows in "$folder"/*.rows; do
        book=${rows%.rows}
        "$folder/brute" judge "$rows" >"$book.judged"
        "$folder/brute" tell "$rows" "$book.pairs" >"$book.told"
    done
}

# Prints the lines for tests/compare.awk of what the programs $1 and $2 say of the rows of the books that follow. What is said with the most
# work words stays beside the book.
by_rows() {
    asked_judge=$1 asked_tell=$2
    shift 2
    tab=$(printf '\t')
    for rows in "$@"; do
        book=${rows%.rows}
        IFS=$tab read -r ours largest words <"$book.judged"
        least=$((16384 + 64 * words))
        for work in $((least - 1)) $least $most; do
            "$asked_judge" --rows --work $work "$rows" >"$book.answer" || echo "failed" >"$book.answer"
            IFS= read -r answer <"$book.answer" || answer=nothing
            printf 'judge\t%s\t%s\t0\t%s\t%s\t%s\t%s\n' "$ours" "$largest" "$words" $work "$answer" "${book##*/}"
        done
        IFS=$tab read -r ours compared words <"$book.told"
        least=$((16384 + 64 * words))
        for work in $((least - 1)) $least $most; do
            "$asked_tell" --rows --work $work "$rows" "$book.pairs" >"$book.answers" || echo "failed" >>"$book.answers"
            paste "$book.told" "$book.answers" | awk -v OFS='\t' -F '\t' -v largest="$largest" -v work=$work -v name="${book##*/}" \
                '{ print "tell", $1, largest, $2, $3, work, $4, name ", pair " NR - 1 }'
        done
    done
}

# Asks for the readable form of what was asked for by rows. The status is 1 if anything else is said.
by_names() {
    asked=0 others=0
    for text in "$folder"/*.book; do
        book=${text%.book}
        asked=$((asked + 1))
        { head -n 1 "$book.answer" && paste "$book.names" "$book.answers" | sed -n '/^#/!s/.*\t//p'; } >"$book.expected"
        { "$judge" "$text" | head -n 1 && "$tell" "$text" "$book.names"; } >"$book.found" || echo "failed" >>"$book.found"
        cmp -s "$book.expected" "$book.found" || {
            others=$((others + 1))
            echo "DISAGREE ${book##*/} in the readable form: by rows" $(cat "$book.expected"), "by names" $(cat "$book.found")
        }
    done
    echo "$asked books asked in the readable form too, and none of these:"
    cat "$folder"/*.unwritten | sort | uniq -c
    [ $others = 0 ]
}

# Makes the program $folder/$1, which always says that word by the command $2. It is asked in place of JUDGE ($3) or TELL ($4), of few books,
# and has to be found out wherever one of the other words is right.
finds_out() {
    lie=$1
    printf '#!/bin/sh\n%s\n' "$2" >"$folder/$lie"
    chmod +x "$folder/$lie"
    by_rows "$3" "$4" "$folder/none.rows" "$folder"/sums*.rows "$folder"/up_*.rows "$folder/string.rows" "$folder/doubling.rows" \
        >"$folder/lies"
    awk -f "$here/compare.awk" "$folder/lies" >"$folder/found_out" || true
    shift 4
    for word in "$@"; do
        grep -q "^DISAGREE.* expected $word.* answered $lie\$" "$folder/found_out" || {
            echo "DISAGREE: it is not found out that a program says $lie where $word is right"
            status=1
        }
    done
}

# A term that grows, beside one that is none.
echo '1 2 1 2 1 2 1 2 1 2 1 2 1 1 1 1 1 0 | 0 16' >>"$folder/doubling.pairs"
echo "# no term" >>"$folder/doubling.names"

# Words that are no book.
printf '0\n' >"$folder/none.rows"
printf '0 0 | 0 0\n' >"$folder/none.pairs"
echo "the words are no book" >"$folder/none.unwritten"

second
by_rows "$judge" "$tell" "$folder"/*.rows >"$folder/answers"
awk -f "$here/compare.awk" "$folder/answers" || status=1
by_names || status=1
for lie in room few; do
    finds_out $lie "echo $lie" "$folder/$lie" "$tell" "no book" up apart lost stray settles
done
# The pairs are the last argument.
for lie in full unjudged small; do
    finds_out $lie "for file; do :; done; sed 's/.*/$lie/' \"\$file\"" "$judge" "$folder/$lie" unsettled "no term" same different
done
exit $status
