# Compares answers with those of the second judge. Each line, with tabs between: the program; the second judge's answer; the largest term
# that judging comes to, by the second judge, and the largest that comparing comes to, with a `+` where it did not follow all; how many words
# the rows have; how many work words were lent; the program's answer; and of what.
# The status is 1 if any two disagree.
BEGIN { FS = "\t" }

# Whether the answer, or its first word, is among those that the second judge leaves.
function is_left(ours, answer,    list, n, i, word) {
    word = answer
    sub(/ .*/, "", word)
    n = split(ours, list, ",")
    for (i = 2; i <= n; i++) if (list[i] == answer || list[i] == word) return 1
    return 0
}

# What to think of an answer that there is a term too large for the work words, where the largest is as told.
function too_large(largest, limit) {
    expected = expected ", as no term has more than " limit " letters and signs"
    if (largest + 0 > limit) return "agreed"
    return largest ~ /\+$/ ? "undecided" : "wrong"
}

# What to think of an answer. `expected` becomes what should have been answered.
function judged(program, ours, judging, comparing, words, work, answer,    least, few) {
    least = 16384 + 64 * words
    few = program == "judge" ? "few" : "small"
    expected = work < least ? few : ours
    if (work < least || answer == few) return work < least && answer == few ? "agreed" : "wrong"
    if (answer == (program == "judge" ? "room" : "unjudged")) return too_large(judging, int((work - 16384) / 64))
    if (program == "tell" && answer == "full") return too_large(comparing, int((work - 16384) / 64))
    if (answer == ours) return "agreed"
    return ours ~ /^undecided/ && is_left(ours, answer) ? "undecided" : "wrong"
}

{
    answer = $7
    if (answer ~ /^(up|lost) [0-9]+$/) sub(/ .*/, "", answer)
    key = $1 "\t" answer
    if (!(key in seen)) { seen[key] = 1; keys[++count] = key }
    found = judged($1, $2, $3, $4, $5, $6, $7)
    times[key, found]++
    if (found == "wrong") {
        wrongs++
        printf "DISAGREE %s %s, %d work words: expected %s, answered %s\n", $1, $8, $6, expected, $7
    }
}

END {
    printf "%-8s %-12s %8s %10s %10s\n", "program", "answer", "agreed", "undecided", "disagreed"
    for (i = 1; i <= count; i++) {
        key = keys[i]
        split(key, part, "\t")
        row = sprintf("%-8s %-12s %8d %10d %10d", part[1], part[2], times[key, "agreed"], times[key, "undecided"], times[key, "wrong"])
        print row | "sort"
    }
    close("sort")
    printf "%d answers compared, %s\n", NR, wrongs ? wrongs " of them disagree" : "none disagrees"
    exit wrongs || !NR ? 1 : 0
}
