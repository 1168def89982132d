#!/bin/sh
# The tests: proves every crate from nothing, tries the must-fail edits, runs the programs and the crates' tests. Then asks the programs
# that were built of every example book, tries in which pieces answers come, counts their memory, tries run.sh, and compares them with a
# second judge. How far the proofs are is told on the standard error. The last line is 'N passed, 0 failed', and counts what the toolchain
# ran; the status is 0 if all went well, and if each must-fail edit fits the text that it edits.
set -eu
top=$(dirname "$(readlink -f "$0")")
cd "$top"
. ./toolchain.sh
. ./tools/programs.sh
for tool in rustc gcc; do
    command -v "$tool" >/dev/null || {
        echo "The tests need $tool, which is not on the PATH." >&2
        exit 1
    }
done
folder=$(mktemp -d)
trap 'rm -rf "$folder"' EXIT
trap 'exit 130' HUP INT TERM
status=0
judge_sources=$(sum_of_sources judge)
tell_sources=$(sum_of_sources tell)

# Passes on what rt ci prints, and tells how many crates are proved. The last line waits until all else is done.
follow() {
    start=$(date +%s)
    total=$(grep -c '^[^#]*:' crates.txt)
    count=0
    echo "test.sh: proving $total crates" >&2
    held=no last=
    while IFS= read -r line; do
        [ $held = no ] || printf '%s\n' "$last"
        held=yes last=$line
        case $line in
        "rt: "*" proved" | "rt: "*" is kept: "*) ;;
        *) continue ;;
        esac
        crate=${line#rt: }
        crate=${crate%% is kept: *}
        case ${crate% proved} in
        # The tests of a crate are proved too, and of them more than a name is said.
        *[!a-z0-9_]*) ;;
        *)
            count=$((count + 1))
            echo "test.sh: $count of $total crates proved, $(time_since "$start") so far" >&2
            ;;
        esac
    done
    printf '%s\n' "$last" >"$folder/last"
}
{
    rt ci 2>&1 && echo 0 >"$folder/status" || echo $? >"$folder/status"
} | tee "$folder/log" | follow
if [ "$(cat "$folder/status")" = 0 ]; then
    note_proved judge "$judge_sources" || status=1
    note_proved tell "$tell_sources" || status=1
else
    status=1
fi
if grep -q '^rt: ok.*, [0-9][0-9]* bad' "$folder/log"; then
    echo "Some must-fail edits do not fit the text that they edit."
    status=1
fi

judge=crates/judge/out/judge
tell=crates/tell/out/tell
for test in books lines memory run outside; do
    "tests/$test.sh" "$judge" "$tell" || status=1
done
cat "$folder/last"
exit $status
