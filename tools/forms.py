#!/usr/bin/env python3
"""Counts the older forms that are left in src/, point by point of docs/DESIGN-PASS.md: python3 tools/forms.py [-v], at the top of a checkout

A place is a declaration or a function, by text: what is counted is a form, and whether it should stay is judged in the page."""
import glob
import re
import sys
from collections import defaultdict

REFUSALS = {"EndOfInput", "TheirFault", "Malformed", "Refused", "NoHex", "NoRoom", "Outside", "Nowhere", "Unknown"}
FLAGS = re.compile(r"\b(answer|ok|any|found|more|open|end_open)\b")


def sources():
    for path in sorted(glob.glob("crates/*/src/**/*.rt", recursive=True)):
        yield path, open(path, encoding="utf-8").read()


def functions(path, text):
    """name, parameters, contract, body of each function"""
    for m in re.finditer(r"(?m)^( *)(?:pub(?:\(crate\))? )?(?:extern \"C\" )?fn (\w+)", text):
        rest = text[m.end():]
        end = re.search(r"\n" + m.group(1) + r"\}\n", rest)
        whole = rest[:end.end()] if end else rest
        depth = 0
        start = whole.index("(")
        for i in range(start, len(whole)):
            depth += {"(": 1, ")": -1}.get(whole[i], 0)
            if depth == 0:
                break
        parameters = whole[start + 1:i]
        brace = re.search(r"\n" + m.group(1) + r"\{\n| \{\n", whole[i:])
        cut = i + brace.start() if brace else i
        yield path, m.group(2), parameters, whole[i:cut], whole[cut:]


def shape(body):
    """the body with every name that it chooses replaced by its first place"""
    seen = {}
    out = []
    for token in re.findall(r"[A-Za-z_]\w*|\d+|\S", body):
        if re.match(r"[A-Za-z_]", token) and token not in {"if", "else", "match", "while", "loop", "for", "in", "let", "mut", "return", "Ok", "Err", "Some", "None"}:
            token = "n%d" % seen.setdefault(token, len(seen))
        out.append(token)
    return " ".join(out)


def main():
    found = defaultdict(list)
    shapes = defaultdict(list)
    facts = defaultdict(list)
    for path, text in sources():
        for m in re.finditer(r"(?m)^(?:pub )?(enum|struct) (\w+)(?:<[^>]*>)? \{\n(.*?)\n\}", text, re.S):
            kind, name, body = m.groups()
            lines = [l.strip() for l in body.split("\n")]
            if kind == "enum":
                units = {l.rstrip(",").split(" ")[0] for l in lines if "(" not in l}
                if units & REFUSALS and any("(" in l for l in lines):
                    found["1 enums with a value or a refusal"].append((path, name))
            elif any(FLAGS.search(l.split(":")[0]) for l in lines if ":" in l):
                found["1 structs with a flag or an answer beside a value"].append((path, name))
        for path, name, parameters, contract, body in functions(path, text):
            place = (path, name)
            if re.search(r"(?m)^ *('\w+: )?(while |loop \{)", body):
                found["3 while and loop"].append(place)
            if re.search(r"\b(same_bytes|byte_codec::bit|wide|above|smaller|abs_diff|width_named|width_of|tag_limit|source_bits|source_from|denial|refusal|unvalued)\(", body) and "std" not in path:
                found["4 comparing and converting by functions of our own"].append(place)
            if re.search(r"\w*(Head|Fields)\b", parameters) and re.search(r"\b\w*(path|start|end): &('a )?\[u8\]", parameters):
                found["5 a head and its lent paths as parameters of their own"].append(place)
            if re.search(r"out: &mut \[u8\],\s*at: usize", parameters):
                found["5 a buffer and a place in it as parameters"].append(place)
            if re.search(r"total: (u64|usize),\s*count: (u64|usize)", parameters):
                found["5 a total and a count as parameters"].append(place)
            if re.search(r"added: bool,\s*width: TagWidth,\s*tag: u8", parameters):
                found["5 a flag, a width and a tag as parameters"].append(place)
            if re.search(r"\[u8; MAX_BYTES\],\s*(n|k): usize", parameters) or re.search(r"buffer: &\[u8\],\s*n: usize", parameters):
                found["6 a buffer with its length beside it"].append(place)
            if re.search(r"\b(included|within): bool\b", parameters) or re.search(r"\b(program: Program|encoding: Encoding)\b", parameters):
                found["7 a switch on which step to run"].append(place)
            key = shape(body)
            if key.count(" ") > 40:
                shapes[key].append(place)
            m = re.search(r"requires \{ (.*) \}\n", contract)
            if m:
                for fact in m.group(1).split(" × "):
                    fact = re.sub(r"\b[a-z_]+\.(now|old|entry)\b", "_", fact.strip("()"))
                    facts[fact].append(place)
    for key, places in shapes.items():
        if len(places) > 1:
            found["2 functions of one shape"].extend(places)
    for fact, places in facts.items():
        if len(places) > 2:
            found["5 functions that share a required fact with two others"].extend(places)
    answers = sum(len(re.findall(r"(?m)^pub \S+ : goal\.", open(p, encoding="utf-8").read())) for p in glob.glob("crates/*/proofs/**/Answers.antt", recursive=True))
    for name in sorted(found):
        print("%4d  %s" % (len(found[name]), name))
        if "-v" in sys.argv:
            for path, place in found[name]:
                print("        %s %s" % (path, place))
    print("%4d  8 answers" % answers)


main()
