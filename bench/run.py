"""Writes each case for both sides, runs them one after the other, and prints a table of medians and ratios."""
import os
import re
import resource
import shutil
import statistics
import struct
import subprocess
import sys

from cases import WORKLOADS, maude_text

# For the smallest size, the next and the largest: the shorter a run, the more it is disturbed.
RUNS = (15, 7, 3)
WORK_WORDS = 1 << 28


def ours(call, path, runs, book, term):
    """The median of the seconds of our calls, the code, and the words of the result."""
    with open(path, "wb") as file:
        for words in (book.row(), book.term_row(term)):
            file.write(struct.pack(f"<I{len(words)}I", len(words), *words))
    out = subprocess.run([call, path, str(runs), str(WORK_WORDS)], capture_output=True, text=True, check=True).stdout
    lines = out.splitlines()
    seconds = statistics.median(float(line) for line in lines[:runs])
    return seconds, int(lines[runs].split()[1]), [int(word) for word in lines[runs + 1].split()[1:]]


def deep_stack():
    # Maude goes down into terms by recursion.
    resource.setrlimit(resource.RLIMIT_STACK, (resource.RLIM_INFINITY, resource.RLIM_INFINITY))


def maude(path, runs, book, term):
    """The median of the seconds that Maude reports, the number of its rewrites, and its result; none if it does not answer."""
    text = maude_text(term)
    with open(path, "w") as file:
        file.write("set show timing on .\n" + book.maude() + "\n" + f"red {text} .\n" * runs + "q\n")
    command = ["maude", "-no-banner", "-no-wrap", path]
    out = subprocess.run(command, capture_output=True, text=True, preexec_fn=deep_stack).stdout
    found = re.findall(r"rewrites: (\d+) in (\d+)ms cpu", out)
    result = re.findall(r"^result T: (.*)$", out, re.M)
    if len(found) != runs or not result:
        return None
    # It counts milliseconds.
    seconds = max(statistics.median(int(ms) for _, ms in found) / 1000, 0.001)
    return seconds, int(found[0][0]), result[0].replace(" ", "")


def measure(call, folder, name, number, size, book, term, with_maude):
    """Prints a line of the table; gives the ratio, if there is one."""
    path = os.path.join(folder, f"{name}{number}")
    seconds, code, words = ours(call, path + ".rows", RUNS[number], book, term)
    line = f"{name:11} {size:>14} {seconds:9.4f}"
    if code != 0:
        print(f"{line}  no normal form: code {code}")
        return None
    peer = maude(path + ".maude", RUNS[number], book, term) if with_maude else None
    if peer is None:
        print(line + ("  Maude does not answer" if with_maude else ""), flush=True)
        return None
    theirs, rewrites, result = peer
    if book.text(words) != result:
        print(f"{line}  ANOTHER RESULT than Maude's")
        return None
    rates = f"{rewrites / seconds / 1e6:9.1f} {rewrites / theirs / 1e6:9.1f}"
    print(f"{line} {theirs:9.3f} {seconds / theirs:7.2f} {rewrites:10} {rates}", flush=True)
    return seconds / theirs


def main():
    call, folder, chosen = sys.argv[1], sys.argv[2], sys.argv[3:]
    with_maude = shutil.which("maude") is not None
    if not with_maude:
        print("Maude is not here: our times alone.")
    print(f"{'workload':11} {'size':>14} {'ours s':>9} {'Maude s':>9} {'ratio':>7} {'rewrites':>10} {'ours M/s':>9} {'Maude M/s':>9}")
    all_ratios, growth = [], []
    for name, make in WORKLOADS:
        if chosen and name not in chosen:
            continue
        ratios = [measure(call, folder, name, i, *case, with_maude) for i, case in enumerate(make())]
        if None not in ratios:
            growth.append(f"{name} {ratios[-1] / ratios[0]:.2f}")
        all_ratios += [ratio for ratio in ratios if ratio is not None]
    if all_ratios:
        print(f"\ngeometric mean of the ratios (ours / Maude's): {statistics.geometric_mean(all_ratios):.2f}")
        print("the ratio at the largest size over that at the smallest: " + ", ".join(growth))


main()
