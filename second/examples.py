#!/usr/bin/env python3
"""Runs the worked examples of docs/RULES.md, sections 6 and 9, that a program can show.

    second/examples.py            our programs, in target/bin or in the folder that NARDLINTEL_BIN names
    second/examples.py --second   the second program

Prints what was expected and what was printed where they differ, and the number of examples. Examples 26 to 35 and 40 to
44 are of calls that no program makes.
"""
import sys

import programs

# Section 6: word, value in binary64, value in binary32; None for no number.
WORDS = [
    ("0.1", "0xccccccccccccdp-55", "0xcccccdp-27"),
    ("-.5", "-0x1p-1", "-0x1p-1"),
    ("5.", "0x5p0", "0x5p0"),
    ("100", "0x19p2", "0x19p2"),
    ("-0", "-0x0p0", "-0x0p0"),
    ("-0.", "-0x0p0", "-0x0p0"),
    ("-0x0p0", "-0x0p0", "-0x0p0"),
    ("000000000000001", "0x1p0", "0x1p0"),
    ("123456789012345", "0x7048860ddf79p0", "0x382443p25"),
    (".000000000000001", "0x901d7cf73ab0bp-101", "0x901d7dp-73"),
    ("5.49819540977478", "0x15fe26fp-22", "0xaff137p-21"),
    ("0xAp0", "0x5p1", "0x5p1"),
    ("0x1p-0001", "0x1p-1", "0x1p-1"),
    ("0x0p9999", "0x0p0", "0x0p0"),
    ("0x80000000000000p0", "0x1p55", "0x1p55"),
    ("0x2p-1075", "0x1p-1074", None),
    ("0x1fffffffffffffp971", "0x1fffffffffffffp971", None),
    ("0xffffffp104", "0xffffffp104", "0xffffffp104"),
    ("0x2p-150", "0x1p-149", "0x1p-149"),
    ("0x1000001p0", "0x1000001p0", None),
    ("0x1p-150", "0x1p-150", None),
    ("0x1p128", "0x1p128", None),
] + [(word, None, None) for word in """
    . - -. +1 --1 1e3 1,5 inf nan 1.2.3 1234567890123456 0.000000000000000 0X1p0 0x1P0 0x10 0xp0 0x1p 0x1p-
    0x000000000000001p0 0x1p00001 0x1p+1 0x1p--1 0x-1p0 0x1.8p1 0x1p1024 0x1p-1075 0x3p-1075 0xffffffffffffffp0
    """.split()]

# Section 9.1: number, format, matrix, right side or None, order, factors or None, what `solve` prints after its first
# word or None. Where the factoring answers, the factors are what `factors` prints.
SYSTEMS = [
    (1, "", "3", "1", "0", "0x3p0", "0x15555555555555p-54"),
    (2, "32", "3", "1", "0", "0x3p0", "0xaaaaabp-25"),
    (3, "", "0", "1", "0", None, "5 0"),
    (4, "", "-0", "1", "0", None, "5 0"),
    (5, "", "0x1p-600", "0x1p600", "0", "0x1p-600", "6 solving"),
    (6, "", "0x1p600", "0x1p-600", "0", "0x1p600", "6 solving"),
    (7, "", "0x1p600", "0", "0", "0x1p600", "0x0p0"),
    (8, "", "0x1p600", "-0", "0", "0x1p600", "-0x0p0"),
    (9, "", "0x1p500", "0x1p-500", "0", "0x1p500", "0x1p-1000"),
    (10, "", "0x1p500", "0x1p-501", "0", "0x1p500", "6 solving"),
    (11, "32", "0x1p55", "0x1p-55", "0", "0x1p55", "0x1p-110"),
    (12, "32", "0x1p55", "0x1p-56", "0", "0x1p55", "6 solving"),
    (13, "32", "0x1p-64", "0x1p63", "0", "0x1p-64", "0x1p127"),
    (14, "32", "0x1p-64", "0x1p64", "0", "0x1p-64", "6 solving"),
    (15, "", "2 1 / 4 3", "3 7", "1 0", "0x1p2 0x3p0 / 0x1p-1 -0x1p-1", "0x1p0 0x1p0"),
    (16, "", "1 1 / 1 1", None, "0 1", None, "5 1"),
    (17, "", "0 0 / 0 0", None, "0 1", None, "5 0"),
    (18, "", "0 1 / -1 0", "2 3", "1 0", "-0x1p0 0x0p0 / -0x0p0 0x1p0", "-0x3p0 0x1p1"),
    (19, "", "1 1 / -1 1", None, "0 1", "0x1p0 0x1p0 / -0x1p0 0x1p1", None),
    (20, "", "0x1p-1001 1 / 1 1", "1 0", "1 0", None, "6 0"),
    (21, "", "1 0x1p1023 / -1 0x1p1023", None, "0 1", None, "6 0"),
    (22, "", "4 1 1 / 2 1 1 / 0x1p-1001 1 1", None, "0 1 2", None, "6 0"),
    (23, "", "4 2 1 / 2 1 3 / 1 2 1", "1 1 1", "0 2 1",
     "0x1p2 0x1p1 0x1p0 / 0x1p-2 0x3p-1 0x3p-2 / 0x1p-1 0x0p0 0x5p-1",
     "0x1p-56 0x19999999999999p-54 0xccccccccccccdp-54"),
    (24, "", "1 2 3 / 4 5 6 / 7 8 9", "1 2 3", "2 0 1",
     "0x7p0 0x1p3 0x9p0 / 0x9249249249249p-54 0x6db6db6db6db7p-51 0x6db6db6db6db7p-50 / "
     "0x9249249249249p-52 0x8000000000001p-52 0x1p-53",
     "-0x15555555555555p-54 0x15555555555555p-53 0x0p0"),
    (25, "", "-9 3 -3 / 9 4 9 / 5 4 1", "2 3 3", "0 1 2",
     "-0x9p0 0x3p0 -0x3p0 / -0x1p0 0x7p0 0x3p1 / -0x8e38e38e38e39p-52 0xcf3cf3cf3cf3dp-52 -0x16186186186187p-50",
     "0x2f149902f1499p-55 0x172c234f72c235p-53 -0x178a4c8178a4bp-55"),
    (25, "32", "-9 3 -3 / 9 4 9 / 5 4 1", "2 3 3", "0 1 2",
     "-0x9p0 0x3p0 -0x3p0 / -0x1p0 0x7p0 0x3p1 / -0x238e39p-22 0xcf3cf5p-24 -0x586187p-20",
     "0x5e292fp-28 0x5cb08dp-23 -0xbc5233p-30"),
]

# Sections 9.3 and 9.4: number, programs, inputs, lines printed.
THIRD = "answer; 0x15555555555555p-54"
ONES = "answer; 0x1p0; 0x1p0"
TEXTS = [
    (36, "again", ["factors 2 1 0 4 3 0.5 -0.5 3 7"], ONES),
    (37, "again", ["factors 2 1 0 1 1 0x1p-1001 1 1 0"], "answer; -0x1p0; 0x1p0"),
    (38, "again", ["factors 2 0 1 1 1 1 0 1 2"], "no answer 4"),
    (39, "again", ["factors 2 0 0 1 0 0 1 1 2"], "no answer 4"),
    (45, "solve", ["system 1 3 1"], THIRD),
    (46, "solve", ["system32 1 3 1"], "answer; 0xaaaaabp-25"),
    (47, "solve", ["system 2 2 1 3 4 3 7"], ONES),
    (48, "factors", ["system 2 2 1 3 4 3 7"], "factors 2; 1 0; 0x1p2 0x3p0; 0x1p-1 -0x1p-1"),
    (49, "again", ["factors 2 1 0 0x1p2 0x3p0 0x1p-1 -0x1p-1 3 7"], ONES),
    (50, "solve factors", ["system 2 1 1 0 1 1 0"], "no answer 5 1"),
    (51, "solve factors", ["system 2 0x1p-1001 1 0 1 1 0"], "no answer 6 0"),
    (52, "solve", ["system 1 0x1p-600 0x1p600"], "no answer 6 solving"),
    (53, "factors", ["system 1 0x1p-600 0x1p600"], "factors 1; 0; 0x1p-600"),
    (54, "solve", ["", "system", "System 1 3 1", "system 1.0 3 1", "system -1"], "no answer 7"),
    (55, "solve", ["system 0 z", "system 129 z", "system 9999999999999999999999 z"], "no answer 1"),
    (56, "solve", ["system 0000000001 3 1"], THIRD),
    (57, "solve", ["system 1 3 z", "system 1 3 1 z", "system 1 3,1", "system32 1 0x1000001p0 1"], "no answer 7"),
    (58, "solve", ["system 1 3", "system 1 3 1 1"], "no answer 8"),
    (59, "solve", ["system 1 3 1".ljust(16777217)], "no answer 1"),
    (60, "again", ["factors", "system 1 0 1 1", "factors 1 1.0 1 1", "factors 1 -0 1 1", "factors 2 0 1 1 z"],
     "no answer 7"),
    (61, "again", ["factors 0"], "no answer 1"),
    (62, "again", ["factors 1 0", "factors 2 0 1 1 0 0"], "no answer 8"),
    (63, "again", ["factors 1 0 0 z", "factors 1 7 1 1", "factors 2 0 0 1 0 0 1 1 2"], "no answer 4"),
    (64, "again", ["factors 1 0 1"], ""),
    (65, "again", ["factors 1 0 1 5 z 6"], "answer; 0x5p0; no answer 7"),
    (66, "again", ["factors 2 0 1 1 0 0 1 1 2 3"], "answer; 0x1p0; 0x1p1; no answer 8"),
    (67, "again", ["factors 2 0 1 1 0 0 1 1 2 z"], "answer; 0x1p0; 0x1p1; no answer 7"),
    (68, "again", ["factors 1 0 0x1p-600 0x1p600 1"], "no answer 6 solving; answer; 0x1p600"),
    (69, "again", ["factors32 1 0 3 1"], "answer; 0xaaaaabp-25"),
]
# The edge of example 59: the longest text that is read.
LONGEST = [("7.1", "solve", ["system 1 3 1".ljust(16777216)], THIRD)]


def lines(words):
    return "".join(line.strip() + "\n" for line in words.split(";")) if words else ""


def word_examples():
    """A 1 by 1 matrix is its own factors; a zero is shown as a solution instead."""
    for word, *values in WORDS:
        for fmt, value in zip(("", "32"), values):
            label = f"6 `{word}` {fmt or 64}"
            if value is None:
                yield label, "factors", f"system{fmt} 1 {word} 1", "no answer 7"
                yield label, "solve", f"system{fmt} 1 1 {word}", "no answer 7"
            elif value.endswith("0x0p0"):
                yield label, "solve", f"system{fmt} 1 1 {word}", f"answer; {value}"
            else:
                yield label, "factors", f"system{fmt} 1 {word} 1", f"factors{fmt} 1; 0; {value}"
                # the printed text is read back as the same value
                yield label, "factors", f"system{fmt} 1 {value} 1", f"factors{fmt} 1; 0; {value}"


def system_examples():
    for number, fmt, matrix, right, order, factors, solution in SYSTEMS:
        rows = matrix.split("/")
        sides = right.split() if right else ["1"] * len(rows)
        text = f"system{fmt} {len(rows)} " + " ".join(f"{row} {b}" for row, b in zip(rows, sides))
        refused = f"no answer {solution}"
        if factors is None:
            yield number, "factors", text, refused
        else:
            printed = f"factors{fmt} {len(rows)}; {order}; " + factors.replace("/", ";")
            yield number, "factors", text, printed
        if solution is not None:
            answered = "0x" in solution
            shown = "; ".join(["answer"] + solution.split()) if answered else refused
            yield number, "solve", text, shown
            if factors is not None:
                head = f"factors{fmt} {len(rows)} {order} {factors} ".replace("/", "")
                yield number, "again", head + " ".join(sides), shown


def text_examples():
    for number, names, inputs, printed in TEXTS + LONGEST:
        for name in names.split():
            for text in inputs:
                yield number, name, text, printed


def main():
    if sys.argv[1:] == ["--second"]:
        programs.build()
        command = programs.second
    elif len(sys.argv) == 1:
        programs.need_ours()
        command = programs.ours
    else:
        sys.exit(__doc__)
    count = wrong = 0
    for examples in word_examples(), system_examples(), text_examples():
        for label, name, text, expected in examples:
            count += 1
            printed, status = programs.run(command(name), text.encode())
            if (printed, status) != (lines(expected).encode(), 0):
                wrong += 1
                print(f"example {label}, {name}: {text.strip()[:200]}")
                print(f"  expected {lines(expected).encode()}, printed {printed[:2000]}, status {status}")
    print(f"examples: {count}, mismatches: {wrong}")
    sys.exit(wrong > 0)


main()
