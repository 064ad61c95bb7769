#!/usr/bin/env python3
"""Runs the benchmark programs of bench/run and prints docs/BENCHMARKS.md: measure.py DIRECTORY.

DIRECTORY has the programs bench_call, bench_inline and bench_popcnt: the same library against C with gcc's library count of ones, with one
written inline, and built with -mpopcnt; and hand_sheet, the C program that target/bin/decode_sheet is held to."""
import collections
import datetime
import os
import re
import subprocess
import sys

from sheets import sheets

BUILDS = ["call", "inline", "popcnt"]
GOALS = [("(72,64)", "(72,64) decode", 1.25), ("Widths", "word of 16 or 32 data bits", 1.15), ("Golay", "Golay decode", 1.05),
         ("Leaders", "leaders", 1.15), ("Sheets of 512 words", "sheet", 1.3)]
# Against this C the goal of its section is another.
OTHER_GOALS = {"twelve tests side by side": 1.1}
# Of a word that is decoded, once the leaders stand, with 3, 11 and 12 check rows.
WORD_INSTRUCTIONS = {"Words, Hamming (7,4)": 35, "Words, perfect (23,12)": 105, "Words, extended Golay (24,12)": 105}
# Of a bit that is interleaved or deinterleaved; and the decode after it, beside these, by a decode of the same words.
BIT_INSTRUCTIONS, SAME_WORDS, SAME_WORDS_GOAL = 8, "relay_decode of the words", 1.1
# Of Describe, in thousands: of three codes, and of each case.
DESCRIBE_THOUSANDS, DESCRIBE_LIMIT = {"random (32,20), dmin 3": 110, "dense (32,20)": 110, "dense (28,16)": 130}, 1500
PROGRAM = os.path.join("target", "bin", "decode_sheet")
# The C library sets long runs of bytes by one instruction, which callgrind counts once a byte: the threshold keeps it from that. All symbols
# are bound before main.
COUNTED = dict(os.environ, GLIBC_TUNABLES="glibc.cpu.x86_rep_stosb_threshold=100000000", LD_BIND_NOW="1")

Case = collections.namedtuple("Case", "index section name plain words matters less timed")
# library: (instructions, nanoseconds); ratios: by build, of the same; no instructions where the case is timed alone
Result = collections.namedtuple("Result", "case library ratios")


def output(*command):
    return subprocess.run(command, check=True, capture_output=True, text=True).stdout


def collected(function, *command, content=b""):
    """The instructions inside a function, and what the command wrote."""
    done = subprocess.run(["valgrind", "--tool=callgrind", "--toggle-collect=" + function, "--callgrind-out-file=/dev/null", *command],
                          check=True, capture_output=True, input=content, env=COUNTED)
    return int(re.search(rb"Collected : (\d+)", done.stderr).group(1)), done.stdout


def run_instructions(program, case, words, side):
    count, times = collected("measured", program, "count", str(case.index), side, words)
    return count / int(times)


def instructions(program, case, side):
    """Of a word or bit; the run with none or fewer is subtracted where the case says so."""
    none = run_instructions(program, case, "none", side) if case.less else 0
    return (run_instructions(program, case, "all", side) - none) / case.words


def times(program, case):
    return [float(x) / case.words for x in output(program, "time", str(case.index)).split()]


def measure(directory, case, known):
    """known: the library's instructions for the cases measured before, by section and name."""
    programs = {build: os.path.join(directory, "bench_" + build) for build in (BUILDS if case.matters else BUILDS[:1])}
    key = (case.section, case.name)
    if key not in known:
        known[key] = None if case.timed else instructions(programs["call"], case, "ours")
    ratios, took = {}, []
    for build, program in programs.items():
        subprocess.run([program, "check", str(case.index)], check=True)
        ours, plain = times(program, case)
        took.append(ours)
        ratios[build] = (None if case.timed else known[key] / instructions(program, case, "plain"), ours / plain)
    return Result(case, (known[key], min(took)), ratios)


def number(x):
    if x is None:
        return ""
    if x >= 1e6:
        return "%.2f M" % (x / 1e6)
    return "%.1f k" % (x / 1e3) if x >= 1e4 else "%.0f" % x if x >= 10 else "%.2f" % x


def duration(ns):
    if ns >= 1e6:
        return "%.2f ms" % (ns / 1e6)
    return "%.1f us" % (ns / 1e3) if ns >= 1e4 else "%.1f ns" % ns


def ratio_cells(r, kind):
    """A difference of times that is not above 0 is noise, and no ratio is given."""
    cells = [r.ratios[build][kind] if build in r.ratios else None for build in BUILDS]
    return ["" if ratio is None else "%.2f" % ratio if ratio > 0 else "noise" for ratio in cells]


def table(header, rows):
    lines = [header, ["---"] * len(header)] + rows
    return "\n".join("| " + " | ".join(line) + " |" for line in lines) + "\n"


def section_table(results):
    header = ["Case", "C", "instructions", *("to C, " + b for b in BUILDS), "time", *("to C, " + b for b in BUILDS)]
    return table(header, [
        [r.case.name, r.case.plain, number(r.library[0]), *ratio_cells(r, 0), duration(r.library[1]), *ratio_cells(r, 1)]
        for r in results])


def goal_row(title, goal, plain, build, found):
    worst, name = max(found)
    return ["%s within %.2f" % (title, goal), plain, build, "%.2f (%s)" % (worst, name), "met" if worst <= goal else "not met"]


def goal_rows(title, goal, results):
    """For each C and build the greatest ratio of instructions among the cases, but for encoding and reading back."""
    found = collections.defaultdict(list)
    for r in results:
        if r.case.name not in ("encode", "read back"):
            for build, (ratio, _) in r.ratios.items():
                if ratio is not None:
                    found[r.case.plain, build if r.case.matters else ""].append((ratio, r.case.name))
    for (plain, build), ratios in found.items():
        yield goal_row(title, OTHER_GOALS.get(plain, goal), plain, build, ratios)


def interleaving_rows(results):
    """The instructions of a bit in each case, and the greatest ratio of the decode less so many a bit to that of the same words."""
    for name, moved in {r.case.name: r.library[0] for r in results if r.case.less}.items():
        yield goal_row("instructions of a bit", BIT_INSTRUCTIONS, "", "", [(moved, name)])
    decoded = [((1 - BIT_INSTRUCTIONS / r.library[0]) * r.ratios["call"][0], r.case.name)
               for r in results if r.case.plain == SAME_WORDS]
    title = "interleaved decode less %d instructions a bit" % BIT_INSTRUCTIONS
    yield goal_row(title, SAME_WORDS_GOAL, SAME_WORDS, "", decoded)


def describe_rows(results):
    figures = {r.case.name: r.library[0] / 1e3 for r in results}
    for name, goal in DESCRIBE_THOUSANDS.items():
        yield goal_row("thousand instructions of describe", goal, "", "", [(figures[name], name)])
    yield goal_row("thousand instructions of describe, each case", DESCRIBE_LIMIT, "", "", [(x, name) for name, x in figures.items()])


def word_rows(sections):
    for section, goal in WORD_INSTRUCTIONS.items():
        decoded = [(r.library[0], r.case.name) for r in sections[section] if r.case.name.startswith("decode")]
        yield goal_row("instructions of a decoded word, " + section.removeprefix("Words, "), goal, "", "", decoded)


def program_rows(directory):
    """The program and the C program on each sheet, inside main; both must write the same."""
    for sheet in sheets():
        ours, wrote = collected("main", PROGRAM, content=sheet.content)
        hand, same = collected("main", os.path.join(directory, "hand_sheet"), content=sheet.content)
        if wrote != same or wrote.startswith(b"refused"):
            sys.exit("not the same: " + sheet.name)
        yield [sheet.name, number(ours), number(hand), "%.2f" % (ours / hand), "%.2f" % sheet.goal, "met" if ours / hand <= sheet.goal else "not met"]


def machine():
    model = next((line.split(":")[1].strip() for line in open("/proc/cpuinfo") if line.startswith("model name")), "unknown")
    parts = [model, "%d cores" % os.cpu_count(), output("uname", "-sr").strip(), output("gcc", "--version").splitlines()[0],
             output("rt", "version").strip(), output("valgrind", "--version").strip()]
    return "Machine: %s. Date: %s.\n" % ("; ".join(parts), datetime.datetime.now(datetime.timezone.utc).date())


def main():
    directory = sys.argv[1]
    cases = []
    for index, line in enumerate(output(os.path.join(directory, "bench_call"), "list").splitlines()):
        section, name, plain, words, *flags = line.split("\t")
        cases.append(Case(index, section, name, plain, int(words), *(flag == "1" for flag in flags)))
    known, sections = {}, collections.defaultdict(list)
    for case in cases:
        sections[case.section].append(measure(directory, case, known))
        print(case.section, case.name, case.plain, sections[case.section][-1], sep="; ", file=sys.stderr)
    print(open(os.path.join(os.path.dirname(__file__), "head.md")).read() + machine())
    print("## Goals\n\nThe greatest ratio of instructions among the cases below; of describe, a bit and a decoded word the instructions themselves.\n")
    rows = [row for section, title, goal in GOALS for row in goal_rows(title, goal, sections[section])]
    rows += [*describe_rows(sections["Describe"]), *word_rows(sections), *interleaving_rows(sections["Interleaving"])]
    print(table(["Goal", "C", "build", "greatest ratio", ""], rows))
    print("## Programs: sheets of 512 words\n")
    print(table(["Code", "decode_sheet", "C program", "ratio", "goal", ""], list(program_rows(directory))))
    print("\n".join("## %s\n\n%s" % (section, section_table(results)) for section, results in sections.items()), end="")


main()
