"""The lists of case lines of entries against an entry, for make_cases.py. Reading is lenient only; strict is not in its form."""
from area_lists import ID, OTHER
from case_lists import first_long, read, relative, write, zeros_after
from entry_lists import DIGEST, NAMESPACE, entry
from model import ENTRY_ENTRY, TOP, Head, tabbed, unpack

IDS_WRITTEN = dict(namespace_written=1, subspace_written=1)


def message(time, size=0, ids="", path=relative(0, []), form=None, **flags):
    """Distance and payload length in their shortest form unless another is named."""
    head = Head(ENTRY_ENTRY, **flags)
    rest = head.number("time_tag", time) + head.number("length_tag", size, form)
    return f"{head.byte().hex()}{ids}{rest.hex()}{path}{DIGEST}"


def reads(reference, text, start=0):
    return read("entry_entry", [reference], text, start, modes="l")


def both(reference, value, length=None):
    return write("entry_entry", [reference], value, length)


def headers():
    """Every header, over bytes that suffice."""
    lines = []
    for h in range(256):
        parts = unpack(ENTRY_ENTRY, h)
        ids = NAMESPACE * parts["namespace_written"] + ID * parts["subspace_written"]
        lines += reads(entry(100, 7), f"{h:02x}{ids}{zeros_after(ENTRY_ENTRY, parts, 'time_tag', 'length_tag')}{relative(0, [])}{DIGEST}")
    return lines


def times():
    lines = []
    # Each difference from both sides, and past 64 bits.
    for reference in [0, 1, 100, TOP - 1, TOP]:
        for d in [0, 1, 2, 99, 100, 101, 255, 256, TOP - 1, TOP]:
            lines += reads(entry(reference), message(d, time_added=1)) + reads(entry(reference), message(d))
        for time in [0, 1, 99, 100, 101, 355, 356, TOP - 1, TOP]:
            lines += both(entry(reference), entry(time))
    # Width boundaries of a payload length, and longer forms.
    least = first_long(ENTRY_ENTRY, "length_tag")
    for n in [0, least - 1, least, 255, 256, 65535, 65536, 2**32 - 1, 2**32, TOP]:
        lines += both(entry(0), entry(0, n)) + reads(entry(0), message(0, n))
    for form, n in enumerate([least - 1, least, 256, 5]):
        lines += reads(entry(0), message(0, n, form=form))
    # A time out of bounds comes before the payload length.
    size = len(f"{relative(0, [])}{DIGEST}")
    early = [message(1)[:-size], message(1, 0, form=0)[:-size - 2]]
    return lines + reads(entry(0), early[0]) + reads(entry(0), early[1]) + reads(entry(TOP), message(1, time_added=1)[:-size])


def names():
    """Namespaces, subspaces and paths; an id that is written may be the reference's."""
    lines = []
    for namespace in [NAMESPACE, OTHER]:
        for subspace in [ID, OTHER]:
            lines += both(entry(5), entry(5, 2, namespace, subspace))
            lines += reads(entry(5), message(0, 2, namespace + subspace, **IDS_WRITTEN))
    for ids in ["", NAMESPACE[:-2], NAMESPACE, NAMESPACE + ID[:-2]]:
        lines += reads(entry(5), f"{Head(ENTRY_ENTRY, **IDS_WRITTEN).byte().hex()}{ids}")
    for ref, path, shared, rest in [("-", "61", 0, ["61"]), ("61", "61", 1, []), ("61", "61/62", 1, ["62"]), ("61", "62", 0, ["62"]),
                                    ("61/62", "61", 1, []), ("61", "-", 0, []), ("61", "61", 0, ["61"]), ("", "", 1, []), ("61", "61", 2, [])]:
        text = message(0, path=relative(shared, rest))
        lines += both(entry(0, path=ref), entry(0, path=path), len(text) // 2) + reads(entry(0, path=ref), text)
    return lines


def cuts():
    """A cut everywhere, and starts in the middle and past the end."""
    reference = entry(1000, path="61")
    whole = message(300, 70000, OTHER + OTHER, relative(1, ["62"]), time_added=1, **IDS_WRITTEN)
    lines = [line for n in range(0, len(whole) + 1, 2) for line in reads(reference, whole[:n])]
    return lines + [line for start in [1, 3, len(whole) // 2, 300, TOP] for line in reads(reference, "eeee" + whole, start)]


def malformed():
    """Lines that are not in their form."""
    good = entry(0).split("\t")
    text = message(0)
    lines = ["entry_entry", "entry_entry\tl", *[tabbed("entry_entry", op, *good, 0, text) for op in ["s", "a", ""]]]
    bad = {0: ["", "*", ID[:-2], ID.upper()], 1: ["*", ID + "00"], 2: ["6"], 3: ["*", TOP + 1], 4: ["01"], 5: ["", ID[:-1]]}
    for i, forms in bad.items():
        for form in forms:
            wrong = [form if i == j else f for j, f in enumerate(good)]
            lines += [tabbed("entry_entry", "l", *wrong, 0, text), tabbed("entry_entry", "n", *good, *wrong), tabbed("entry_entry", "w", *good, *wrong, "ee")]
    for line in [tabbed("entry_entry", "n", *good, *good), tabbed("entry_entry", "w", *good, *good, "eeee"), tabbed("entry_entry", "l", *good, 0, text)]:
        lines += [line.rpartition("\t")[0], line + "\t", line + "\t0"]
    return lines


def entries():
    return [*headers(), *times(), *names(), *cuts()]
