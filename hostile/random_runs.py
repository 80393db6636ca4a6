"""Random scripts, each run in both modes and read back by the checker."""
import multiprocessing
import os
import sys
import time
from collections import Counter

import runs
import scripts
from model import CODES

MODES = ("serial", "threads")
DONE, REFUSED, YES = 0, 3, 0
# How many scripts a seed of the command line has.
SCRIPTS = 10**9


class Tried:
    """What was tried, and what of it was found."""

    def __init__(self):
        self.counts, self.codes, self.rules, self.findings = Counter(), Counter(), Counter(), []

    def add(self, other):
        self.counts += other.counts
        self.codes += other.codes
        self.rules += other.rules
        self.findings += other.findings


def entry_words(text):
    """The words of the line of each entry in a text."""
    return [words for words in (line.split(" ", 4) for line in text.split("\n")[1:]) if words[0].isdigit()]


def what_is_wrong(expected, mode, ended, checked, text, order):
    """What runs of a script in one mode, and of the checker over its text, have otherwise than they should, or None."""
    if ended.why or checked.why:
        return f"{ended}; checker: {checked}"
    status = DONE if expected.refusal is None else REFUSED
    if ended.status != status:
        return f"status {ended.status} in place of {status}"
    said = "yes\n" if expected.refusal is None else expected.refusal + "\n"
    if checked.written.decode(errors="replace") != said or checked.status != (YES if status == DONE else REFUSED):
        return f"the checker ends with status {checked.status} and says {checked.written[:80]!r}"
    if mode == "serial" or expected.refusal is not None:
        if any(left >= right for left, right in zip(order, order[1:])):
            return "the lines do not rise"
        return scripts.first_difference(expected, text)
    if sorted(order) != [it[0] for it in expected.replies]:
        return "a line is missing, or stands twice"
    return None


def try_script(dcdsim, checker, seed, tried):
    """Tries the script of a seed; the answer is the script and what is wrong with it, mode by mode."""
    expected = scripts.random_script(seed)
    orders, wrong = {}, []
    for mode in MODES:
        ended, checked = runs.run_and_check(dcdsim, ("--mode", mode), checker, expected.script)
        text = ended.written.decode(errors="replace")
        entries = entry_words(text)
        orders[mode] = [int(words[1]) for words in entries]
        tried.codes.update(words[4][18:20] + words[4][16:18] + "h" for words in entries if words[3] == "cmd")
        found = what_is_wrong(expected, mode, ended, checked, text, orders[mode])
        if found:
            wrong.append((mode, found, ended.written))
    tried.counts.update({"scripts": 1, "refused scripts": expected.refusal is not None, "lines": len(expected.replies), "bytes": len(expected.script),
                         "orders": orders["serial"] != orders["threads"]})
    tried.rules.update(expected.rules())
    return expected.script, wrong


def keep(kept, seed, script, wrong):
    """Keeps a script and the texts of its runs, and prints what is wrong with it."""
    for mode, found, text in wrong:
        print(f"FOUND: script {seed}, --mode {mode}: {found}", flush=True)
        with open(os.path.join(kept, f"{seed}-{mode}.txt"), "wb") as file:
            file.write(text)
    with open(os.path.join(kept, f"{seed}.dcds"), "wb") as file:
        file.write(script)


def try_one(dcdsim, checker, kept, seed):
    """Tries the script of a seed, and keeps it."""
    tried = Tried()
    script, wrong = try_script(dcdsim, checker, seed, tried)
    keep(kept, seed, script, wrong)
    print(f"script {seed}: {len(script)} bytes, {tried.counts['lines']} lines, kept in {kept}: {'wrong' if wrong else 'nothing is wrong'}")
    return bool(wrong)


def work(dcdsim, checker, kept, first, step, end, results):
    """Tries the scripts of every so many seeds until the time is over. What was tried goes out every few seconds."""
    seed, tried, told = first, Tried(), time.monotonic()
    while time.monotonic() < end:
        script, wrong = try_script(dcdsim, checker, seed, tried)
        if wrong:
            keep(kept, seed, script, wrong)
            tried.findings.append(seed)
        seed += step
        if time.monotonic() > told + 5:
            results.put((tried, None))
            tried, told = Tried(), time.monotonic()
    times = os.times()
    results.put((tried, times.user + times.system + times.children_user + times.children_system))


def try_scripts(dcdsim, checker, kept, seconds, jobs, seed):
    """Tries random scripts for so many seconds, and prints what they came to."""
    results, end = multiprocessing.Queue(), time.monotonic() + seconds
    workers = [multiprocessing.Process(target=work, args=(dcdsim, checker, kept, seed * SCRIPTS + job, jobs, end, results)) for job in range(jobs)]
    for worker in workers:
        worker.start()
    whole, at_work, used, told = Tried(), jobs, 0.0, time.monotonic()
    while at_work:
        tried, times = results.get()
        whole.add(tried)
        if times is not None:
            at_work, used = at_work - 1, used + times
        if time.monotonic() > told + 60:
            told = time.monotonic()
            print(f"{whole.counts['scripts']:,} scripts, {len(whole.findings)} found, {max(0, end - told):.0f} seconds left", flush=True)
    for worker in workers:
        worker.join()
    report(whole, seconds, jobs, seed, used)
    return bool(whole.findings)


def report(tried, seconds, jobs, seed, used):
    counts = tried.counts
    print(f"seed {seed}, {seconds:.0f} seconds, {jobs} jobs, {used:.0f} seconds of processors")
    print(f"{counts['scripts']:,} scripts in both modes, {counts['refused scripts']:,} of them refused; "
          f"{counts['lines']:,} lines that are no marks, {counts['bytes']:,} bytes")
    print(f"texts of threads whose order was another than the serial one: {counts['orders']:,}")
    print("replies by return code, in both modes: " + ", ".join(f"{code} {count:,}" for code, count in sorted(tried.codes.items())))
    print("commands by the first rule that they break, in a serial run: " + ", ".join(f"{rule} {tried.rules[rule]:,}" for rule in CODES))
    print(f"rules that no command broke: {', '.join(rule for rule in CODES if not tried.rules[rule]) or 'none'}")
    print(f"found: {len(tried.findings)}" + "".join(f" {seed}" for seed in sorted(tried.findings)))
    sys.stdout.flush()
