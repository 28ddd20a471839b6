#!/usr/bin/env python3
"""check_statements.py: whether docs/STATEMENTS.md names what there is. Every name in it stands in the sources; one that is followed by its file is
defined there; every file and must-fail edit named exists; every public function is named. Prints what does not hold, and ends with 1 if there is any.
Run in the repository's root."""
import glob, os, re, sys

FILE = r"([a-z0-9_]+)/(specs|proofs|src|must-fail)(?:/([A-Za-z0-9_/]+)(\.rt)?)?"
WORD = re.compile(r"[A-Za-z_][A-Za-z0-9_'-]*")
# commands and what a check prints are no names; nor is the pattern of a file's name
told = re.sub(r"`(rt |axioms |sum=|crates/\*|must-fail|(?:crates/)?codec/specs/X)[^`]*`", "", open("docs/STATEMENTS.md", encoding="utf8").read())
texts = {p: open(p, encoding="utf8").read() for p in glob.glob("crates/**/*", recursive=True) if p.endswith((".rt", ".antt")) and "/out/" not in p}
words = {w for t in texts.values() for w in WORD.findall(t)}
crates = set(os.listdir("crates"))
bad = []


def path(m):
    crate, part, name, suffix = m
    return f"crates/{crate}/{part}" + (f"/{name}{suffix or ('' if part == 'must-fail' else '.antt')}" if name else "")


def check(holds, what):
    if not holds:
        bad.append(what)


# files
for m in re.findall(FILE, told):
    check(os.path.exists(path(m)), f"no file {path(m)}")
# names, but for those that stand for a family (`x_reads`, `.._encode`)
for quoted in re.findall(r"`([^`\n]+)`", told):
    for w in WORD.findall(re.sub(r"\bx_[a-z]+|\.\._\w+", "", quoted)):
        check(w in words or w in crates, f"`{quoted}`: nothing is called {w}")
# names followed by their file, or by several
for names, files in re.findall(r"((?:`[A-Za-z][\w'-]*`(?:, | and )?)+)\s\(([a-z0-9_]+/(?:specs|proofs)[^)]*)\)", told):
    where = [path(m) for m in re.findall(FILE, files)]
    text = "\n".join(t for p, t in texts.items() if p.startswith(tuple(where)))
    for w in re.findall(r"`([^`]+)`", names):
        check(re.search(rf"^\s*(?:unfoldable |abbrev )*(?:pub )?(?:record |data )?{re.escape(w)}(?= )", text, re.M), f"{w} is not defined in {', '.join(where)}")
# edits, as `crate: label (n), label; crate: label`
edits = {(p.split("/")[1], os.path.basename(p)[:-5]) for p in glob.glob("crates/*/must-fail/*.edit")}
for row in re.findall(r"^\|.*\|\s*([a-z0-9_]+: [^|]*)\|$", told, re.M):
    for part in row.split(";"):
        crate, _, labels = part.strip().partition(": ")
        for label in re.findall(r"[a-z0-9_]+", re.sub(r"\([^)]*\)", "", labels)):
            check((crate, label) in edits, f"no edit {crate}/{label}")
# public functions
for p, text in texts.items():
    for f in re.findall(r'^\s*pub (?:extern "C" )?fn (\w+)', text, re.M) if p.endswith(".rt") else []:
        short = re.sub(r"^jakepuro_.*_(len_of_encoding|encode|decode)$", r"\1", f)
        check(re.search(rf"\b{f}\b|_{short}\b", told), f"{p}: {f} is not named")
print(*sorted(set(bad)), sep="\n", end="\n" if bad else "")
sys.exit(bool(bad))
