"""The lists of case lines of entries, for make_cases.py."""
from area_lists import ID, OTHER, fields
from case_lists import longer_forms, read, relative, write, zeros_after
from model import ENTRY_AREA, TOP, Head, tabbed, unpack

NAMESPACE = "4e" * 32
DIGEST = "d1" * 32
ALL = fields(ID, "-", 0, "*")


def entry(time, size=0, namespace=NAMESPACE, subspace=ID, path="-"):
    return tabbed(namespace, subspace, path, time, size, DIGEST)


def head_of(**parts):
    return Head(ENTRY_AREA, **parts).byte().hex()


def message(time, size=0, subspace="", path=relative(0, []), forms={}, **flags):
    """Difference and payload length in their shortest form unless another is named."""
    head = Head(ENTRY_AREA, **flags)
    rest = head.number("time_tag", time, forms.get("time")) + head.number("length_tag", size, forms.get("length"))
    return f"{head.byte().hex()}{subspace}{path}{rest.hex()}{DIGEST}"


def reads(area, text, start=0):
    return read("entry_area", [NAMESPACE, *area], text, start)


def both(area, value, length=None, refused=0):
    return write("entry_area", [NAMESPACE, *area], value, length, refused)


def headers():
    """Every header, over bytes that suffice, against an open area of any subspace and a closed one of an id."""
    lines = []
    for h in range(256):
        parts = unpack(ENTRY_AREA, h)
        rest = ID * parts["id_written"] + relative(0, []) + zeros_after(ENTRY_AREA, parts, "time_tag", "length_tag") + DIGEST
        for subspace, end in [("*", "*"), (ID, 200)]:
            lines += reads(fields(subspace, "-", 100, end), f"{h:02x}{rest}")
    return lines


def times():
    lines = []
    area = fields(ID, "-", 100, 200)
    # Each difference from both sides, ties and steps past them, and the times that they say written.
    for d in [0, 1, 49, 50, 51, 99, 100, 101, 201]:
        lines += reads(area, message(d, time_added=1)) + reads(area, message(d))
    for time in [99, 100, 101, 149, 150, 151, 199, 200, 201]:
        lines += both(area, entry(time), refused=37)
    # Sums and differences past 64 bits; ranges that include one time or none; an open end is no closed one at top.
    for start, end in [(TOP, "*"), (TOP - 1, TOP), (0, 5), (5, 0), (7, 7), (7, 8), (0, "*"), (0, TOP)]:
        for d in [0, 1, 2, 5, 6, 7, 8, TOP - 1, TOP]:
            lines += reads(fields(ID, "-", start, end), message(d, time_added=1)) + reads(fields(ID, "-", start, end), message(d))
        for time in [0, 5, 7, 8, TOP - 1, TOP]:
            lines.append(tabbed("entry_area", "n", NAMESPACE, *fields(ID, "-", start, end), entry(time)))
    # Width boundaries of a time and of a payload length, and longer forms.
    for n in [255, 256, 65535, 65536, 2**32 - 1, 2**32, TOP // 2, TOP // 2 + 1, TOP]:
        lines += both(ALL, entry(n)) + both(ALL, entry(0, n))
        lines += reads(ALL, message(0, n, time_added=1)) + reads(ALL, message(n, time_added=1)) + reads(ALL, message(n))
    for form in longer_forms(5, dict(ENTRY_AREA)["time_tag"]):
        lines += reads(area, message(5, time_added=1, forms={"time": form})) + reads(area, message(0, 5, time_added=1, forms={"length": form}))
    return lines


def names():
    """Namespaces, subspaces and paths."""
    lines = []
    for subspace in ["*", ID]:
        area = fields(subspace, "-", 0, "*")
        for value in [entry(0), entry(0, subspace=OTHER), entry(0, namespace=ID)]:
            lines += both(area, value, refused=37 + 32 * (subspace == "*"))
        for text in [message(0, subspace=ID, id_written=1, time_added=1), message(0, time_added=1), head_of(id_written=1) + ID[:-2]]:
            lines += reads(area, text)
    for ref, path, shared, rest in [("-", "-", 0, []), ("-", "61", 0, ["61"]), ("61", "61", 1, []), ("61", "61/62", 1, ["62"]), ("61", "62", 0, ["62"]),
                                    ("61/62", "61", 1, []), ("61", "-", 0, []), ("61", "61", 0, ["61"]), ("", "", 1, []), ("61/62", "61/63", 1, ["63"])]:
        area = fields(ID, ref, 0, "*")
        text = message(0, path=relative(shared, rest), time_added=1)
        # The prefix is tested before the time is read.
        lines += both(area, entry(0, path=path), len(text) // 2 + 1) + reads(area, text) + reads(area, head_of(time_added=1) + relative(shared, rest))
    return lines


def cuts():
    """A cut everywhere, and starts in the middle and past the end."""
    area = fields("*", "61", 0, 1000)
    whole = message(300, 70000, ID, relative(1, ["62"]), id_written=1, time_added=1)
    lines = [line for n in range(0, len(whole) + 1, 2) for line in reads(area, whole[:n])]
    return lines + [line for start in [1, 3, len(whole) // 2, 200, TOP] for line in reads(area, "eeee" + whole, start)]


def malformed():
    """Lines that are not in their form."""
    good = entry(0).split("\t")
    text = message(0, time_added=1)
    lines = ["entry_area", "entry_area\ts", tabbed("entry_area", "a", NAMESPACE, *ALL, 0, text), tabbed("entry_are", "s", NAMESPACE, *ALL, 0, text)]
    ids = ["", "*", ID[:-1], ID[:-2], ID + "00", ID.upper()]
    bad = {0: ids, 1: ids, 2: ["6", "61/6"], 3: ["", "*", "01", TOP + 1], 4: ["", "*", "01", TOP + 1], 5: ids}
    for i, forms in bad.items():
        for form in forms:
            wrong = [form if i == j else f for j, f in enumerate(good)]
            lines += [tabbed("entry_area", "n", NAMESPACE, *ALL, *wrong), tabbed("entry_area", "w", NAMESPACE, *ALL, *wrong, "ee")]
    lines += [tabbed("entry_area", "l", namespace, *ALL, 0, text) for namespace in ids]
    lines += [tabbed("entry_area", "l", NAMESPACE, *fields(subspace, path, start, end), 0, text)
              for subspace, path, start, end in [("-", "-", 0, "*"), (ID, "6", 0, "*"), (ID, "-", "*", "*"), (ID, "-", 0, "")]]
    for line in [tabbed("entry_area", "n", NAMESPACE, *ALL, *good), tabbed("entry_area", "w", NAMESPACE, *ALL, *good, "eeee"), tabbed("entry_area", "s", NAMESPACE, *ALL, 0, text)]:
        lines += [line.rpartition("\t")[0], line + "\t", line + "\t0"]
    return lines


def entries():
    return [*headers(), *times(), *names(), *cuts()]
