#!/usr/bin/env python3
"""make_listing.py [--model]: makes crates/area_listing/stdin and stdout (docs/LISTING.md). The answers are the oracle's; model.py must
agree. With --model they are model.py's alone, for an edition of the format that the Rust has not."""
import sys
from pathlib import Path

sys.dont_write_bytecode = True
import area_lists
from area_lists import ID, OTHER, OWN, message
from case_lists import FULL, MCC, MCL, a, suffix, text
from model import LISTING_LINE_LIMIT, TOP, listing, tabbed
from oracle import build, run

ROOT = Path(__file__).resolve().parent.parent
EXAMPLE = [tabbed("s", "*", "-", 0, "*", OWN), *[tabbed(mode, "*", "-", 100, 200, message(50, 0)) for mode in "ls"]]


def listed(line):
    """A case line of areas that reads from the message's start as a line of the listing; None of any other."""
    kind, op, *reference, start, message = line.split("\t")
    if op not in "sl" or len(reference) != 4 or start != "0":
        return None
    return tabbed(op, *reference, message)


def readings():
    lines = [listed(line) for line in area_lists.areas()]
    lines = [line for line in lines if line]
    return lines[::4]


def paths():
    """A dash and the fields that are like it; components at their limits, from both sides."""
    full = text([a(len(c) // 2) for c in FULL])
    texts = ["61", "61/", "/61", "61/62", a(MCL), a(MCL + 1), full, f"{full}/61", "/" * (MCC - 1), "/" * MCC, "6", "6g", "6A", "61//62"]
    dashes = ["-", "", "/", "-/61", "61/-", "--", "-/", "/-", "- ", "2d"]
    # The reference's own path, and that with one empty component more.
    messages = [OWN, message(0, None, path=suffix([""]), end_open=1, start_added=1)]
    asked = [(path, bytes) for path in dashes for bytes in messages] + [(path, OWN) for path in texts]
    return [tabbed(mode, "*", path, 0, "*", bytes) for path, bytes in asked for mode in "sl"]


def malformed():
    good = ["s", "*", "61", 5, "*", OWN]
    bad = {
        0: ["", "S", "sl", "w", "n", " s"],
        1: ["", "-", "**", ID[:-1], ID[:-2], ID + "00", ID.upper()],
        3: ["", "*", "-1", "01", "+1", "1 ", TOP + 1, "1" * 30],
        4: ["", "-", "00", TOP + 1],
        5: ["6", "6000000", "6G", "0x60"],
    }
    lines = [tabbed(*[form if i == j else f for j, f in enumerate(good)]) for i, forms in bad.items() for form in forms]
    whole = tabbed(*good)
    return lines + ["", "s", "\t" * 5, whole.rpartition("\t")[0], whole + "\t", "\t" + whole, whole + " "]


def lengths():
    """Lines of the most bytes and more, each followed by a short one."""
    start = tabbed("l", "*", "-", 0, "*", OWN)
    lines = []
    for n in [LISTING_LINE_LIMIT - 1, LISTING_LINE_LIMIT, LISTING_LINE_LIMIT + 1, LISTING_LINE_LIMIT + 2, 9000, 70000]:
        lines += [start + "0" * (n - len(start)), tabbed("s", OTHER, "61", n, TOP, OWN)]
    return lines


def numbers():
    return [tabbed(mode, ID, "-", start, end, text) for mode in "sl" for start, end in [(0, TOP), (TOP, "*"), (TOP, TOP), (1, 0)]
            for text in ["", OWN[:2], OWN[:4], OWN, message(0, 0, start_added=1), message(0, 0, start_added=1, end_added=1), message(0, 0)[:-2],
                         "2f00ffffffffffffffff00"]]


def answers(lines):
    told = [listing(line) for line in lines]
    if sys.argv[1:] == ["--model"]:
        return told
    build()
    # The case lines that a listing asks.
    questions = []
    for line in lines:
        listing(line, lambda question: questions.append(question) or "")
    got = dict(zip(questions, run("oracle", questions), strict=True))
    for line, answer in zip(lines, told):
        if listing(line, got.get) != answer:
            sys.exit(f"oracle and model.py differ: {line}\n{listing(line, got.get)}\n{answer}")
    return told


def main():
    lines = list(dict.fromkeys([*EXAMPLE, *paths(), *numbers(), *readings(), *malformed()])) + lengths()
    crate = ROOT / "crates" / "area_listing"
    # The last line has no newline.
    (crate / "stdin").write_bytes("\n".join(lines).encode())
    (crate / "stdout").write_bytes("".join(line + "\n" for line in answers(lines)).encode())
    print(f"{len(lines)} lines")


main()
