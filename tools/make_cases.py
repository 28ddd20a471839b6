#!/usr/bin/env python3
"""make_cases.py [--model]: makes crates/case_lines/stdin and stdout (docs/CASES.md). The answers are the oracle's; its model and model.py
must agree. With --model they are model.py's alone, for an edition of the format that the Rust has not; the Rust then only generates lines."""
import sys
from pathlib import Path

sys.dont_write_bytecode = True
import area_lists
import case_lists
import entry_entry_lists
import entry_lists
import model
import path_lists
import range_lists
from case_lists import write
from model import KINDS, TAG_WIDTHS, tabbed
from oracle import build, run

ROOT = Path(__file__).resolve().parent.parent
MODEL_ALONE = sys.argv[1:] == ["--model"]


def fixed(name):
    return (ROOT / "oracle" / "cases" / f"{name}.cases").read_text().splitlines()


def examples():
    """The worked examples, and what strict reading accepts of them written."""
    lines = []
    for line in fixed("examples"):
        kind, op, *fields = line.split("\t")
        lines.append(line)
        answer, length, *value = model.answer(line).split("\t")
        if op == "s" and answer == "ok":
            lines += write(kind, fields[:-2], tabbed(*value), int(length))
    return lines


def generated(per_outcome=9, longest=400):
    """The generator's first lines of every kind, op and outcome."""
    lines = []
    for kind in KINDS:
        seen = {}
        cases = run("gen", args=["1", "20000", kind])
        for line, answer in zip(cases, answers(cases)):
            outcome = line.split("\t")[1], answer[:4] if answer.startswith("no") else "ok"
            if len(line) <= longest and seen.get(outcome, 0) < per_outcome:
                seen[outcome] = seen.get(outcome, 0) + 1
                lines.append(line)
    return lines


def question(line):
    """What the Rust is asked: of a path record that is well formed, the path's length."""
    kind, *fields = line.split("\t")
    if kind != "raw" or not model.answer(line).startswith("ok"):
        return line
    return tabbed("path", "n", model.PATH[1](model.raw_path(*fields)))


def agree(line, rust, second, told):
    """Whether oracle and model agree with model.py."""
    if rust == second == "skip":
        return told in [tabbed("no", 5), tabbed("no", 6)]
    # The one listed difference (docs/DIFFERENCES.md).
    listed = line.startswith(tabbed("path_extends", "n", "")) and told == tabbed("no", 3)
    return second == told and (rust == told or listed)


def answers(lines):
    told = [model.answer(line) for line in lines]
    if MODEL_ALONE:
        return told
    questions = [question(line) for line in lines]
    for line, *three in zip(questions, run("oracle", questions), run("model", questions), told, strict=True):
        if not agree(line, *three):
            sys.exit(tabbed("oracle, model and model.py differ:", line) + "".join(f"\n{answer}" for answer in three))
    return told


def main():
    build()
    malformed = case_lists.malformed() + area_lists.malformed() + entry_lists.malformed() + entry_entry_lists.malformed() + range_lists.malformed()
    if set(answers(malformed)) != {"no\t6"}:
        sys.exit("a malformed line is answered")
    lines = [
        *examples(),
        *fixed("edge"),
        *[line for w in TAG_WIDTHS for line in case_lists.numbers("number", w)],
        *case_lists.numbers("standalone", 8),
        *path_lists.paths(),
        *area_lists.areas(),
        *entry_lists.entries(),
        *entry_entry_lists.entries(),
        *range_lists.ranges(),
        *malformed,
        *case_lists.long_lines(),
        *generated(),
    ]
    lines = list(dict.fromkeys(lines))
    crate = ROOT / "crates" / "case_lines"
    crate.mkdir(parents=True, exist_ok=True)
    # The last line has no newline.
    (crate / "stdin").write_bytes("\n".join(lines).encode())
    (crate / "stdout").write_bytes("".join(answer + "\n" for answer in answers(lines)).encode())
    print(f"{len(lines)} lines")


main()
