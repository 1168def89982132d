#!/bin/sh
# Runs a program, and builds it first where that is wanted.
#   ./run.sh [--prove] [judge] [OPTIONS] [FILE]     judges a book, by default books/sums.book
#   ./run.sh [--prove] tell [OPTIONS] BOOK [PAIRS]  compares the pairs of terms in PAIRS, or on the standard input, by a book
# A program that was proved from the sources as they stand is run at once. Where there is none, one is built with no look at the proofs, in
# half a minute, and a line on the standard error says so; with --prove, all that the program is made from is proved first. Files are named
# from the caller's folder.
set -eu
top=$(dirname "$(readlink -f "$0")")
. "$top/toolchain.sh"
. "$top/tools/programs.sh"

prove=no
if [ "${1:-}" = --prove ]; then
    prove=yes
    shift
fi
program=judge
case "${1:-}" in
judge | tell)
    program=$1
    shift
    ;;
esac
[ $# -gt 0 ] || [ "$program" = tell ] || set -- "$top/books/sums.book"

# Ends what still runs, and leaves no files.
trying=
copying=
folder=
clean() {
    [ -z "$trying$copying" ] || kill $trying $copying 2>/dev/null || true
    [ -z "$folder" ] || rm -rf "$folder"
    folder=
}
trap clean EXIT
trap 'exit 129' HUP
trap 'exit 130' INT
trap 'exit 143' TERM

sources=$(sum_of_sources "$program")
built=$(proved_program "$program")
if is_proved "$program" "$sources"; then
    [ $prove = no ] || echo "run.sh: $program was proved from these sources before" >&2
elif [ $prove = yes ]; then
    folder=$(mktemp -d)
    prove_program "$program" "$folder/log" || {
        cat "$folder/log" >&2
        exit 1
    }
    note_proved "$program" "$sources"
else
    # A program without proofs bears the checksum of its sources in its name.
    kept=$top/target/unproved
    built=$kept/$program-${sources%% *}
    if [ -x "$built" ]; then
        echo "run.sh: the proofs of this $program were not checked here; \`./run.sh --prove ..\` or \`./test.sh\` checks them" >&2
    else
        echo "run.sh: builds $program, in half a minute, without checking its proofs; \`./run.sh --prove ..\` or \`./test.sh\` checks them" >&2
        folder=$(mktemp -d)
        try_program "$program" "$folder" || {
            cat "$folder/log" "$folder/copy_log" >&2
            echo "run.sh: this built no program" >&2
            exit 1
        }
        [ "$(sum_of_sources "$program")" = "$sources" ] || {
            echo "run.sh: the sources of $program changed while it was built" >&2
            exit 1
        }
        if ! mkdir -p "$kept" 2>/dev/null || ! cp "$folder/built" "$kept/$program.$$" 2>/dev/null; then
            # Where nothing can be kept, the program runs where it was built.
            status=0
            "$folder/built" "$@" || status=$?
            exit $status
        fi
        mv "$kept/$program.$$" "$built"
        for other in "$kept/$program"-*; do
            [ "$other" = "$built" ] || rm -f "$other"
        done
    fi
fi
clean
exec "$built" "$@"
