"""The lists of case lines of 3d ranges, for make_cases.py. Reading is lenient only; strict is not in its form."""
from area_lists import ID, OTHER
from case_lists import read, relative, zeros_after
from model import BYTES, RANGE3D, RANGE3D_TIMES, START, TOP, Head, tabbed, unpack

THIRD = "7b" * 32
OPEN = (ID, "*", "-", "*", 0, "*")
CLOSED = (ID, OTHER, "61/62", "61/63", 100, 200)
# Header bytes: all counted from the reference's start and added, with open ends; and the same with the times' end closed.
FIRST = dict(subspace_start=START, path_start_from_start=1, path_end_open=1, time_end_open=1)
CLOSED_TIMES = {**FIRST, "time_end_open": 0}
SECOND = dict(start_from_start=1, start_added=1)
SAME_PATH = relative(0, [])


def first(parts=FIRST, **changes):
    return Head(RANGE3D, **{**parts, **changes}).byte().hex()


def times_of(start, end=None, forms={}, **flags):
    """The second header byte, and the bytes of the times."""
    head = Head(RANGE3D_TIMES, **flags)
    rest = "".join(head.number(f"{name}_tag", d, forms.get(name)).hex() for name, d in [("start", start), ("end", end)] if d is not None)
    return head.byte().hex(), rest


# The second header byte of a start at the reference's, and its distance; the open range of an id, the empty path and 0 against itself.
SAME_START, DISTANCE = times_of(0, **SECOND)
OWN = first() + SAME_START + SAME_PATH + DISTANCE


def reads(reference, text, start=0):
    return read("range3d_range3d", reference, text, start, modes="l")


def both(reference, value):
    """Written length, and writing into buffers that some and all ranges of these lists fit."""
    lines = [tabbed("range3d_range3d", "n", *reference, *value)]
    return lines + [tabbed("range3d_range3d", "w", *reference, *value, "ee" * n) for n in [5, 100]]


def changed(reference, **parts):
    names = ["subspace", "subspace_end", "path", "path_end", "start", "end"]
    return tuple(parts.get(name, part) for name, part in zip(names, reference))


def headers():
    """Every first header and every second one, over bytes that suffice for most, against an open and a closed reference."""
    lines = []
    for reference in [OPEN, CLOSED]:
        for h in range(256):
            parts = unpack(RANGE3D, h)
            ids = THIRD * (parts["subspace_start"] == BYTES) + THIRD * (parts["subspace_end"] == BYTES)
            paths = SAME_PATH * (1 if parts["path_end_open"] else 2)
            head, rest = times_of(0, 0, **SECOND)
            lines += reads(reference, f"{h:02x}{head}{ids}{paths}{rest}")
        for h in range(256):
            rest = f"{h:02x}{SAME_PATH}" + zeros_after(RANGE3D_TIMES, unpack(RANGE3D_TIMES, h), "start_tag", "end_tag")
            lines += reads(reference, first(CLOSED_TIMES) + rest) + reads(reference, first() + rest)
    return lines


def subspaces():
    lines = []
    for reference in [OPEN, CLOSED, changed(CLOSED, subspace_end=ID)]:
        for start in [ID, OTHER, THIRD]:
            for end in ["*", ID, OTHER, THIRD]:
                lines += both(reference, changed(OPEN, subspace=start, subspace_end=end))
        # An id that a flag could name, before the next field; an id that ends early.
        for id in [ID, OTHER, THIRD, ID[:-2], ""]:
            rest = SAME_START + id
            lines += reads(reference, first(subspace_start=BYTES) + rest) + reads(reference, first(subspace_end=BYTES) + rest)
            lines += reads(reference, first(subspace_start=BYTES, subspace_end=BYTES) + SAME_START + THIRD + id)
            lines += reads(reference, first(subspace_start=BYTES) + rest + SAME_PATH + DISTANCE)
    return lines


def paths():
    lines = []
    references = [("61", "*"), ("61", "62"), ("61/62", "61/62/63"), ("62", "61"), ("", "-")]
    values = ["-", "61", "62", "61/62", "61/62/63", "61/64", "62/61", ""]
    for start, end in references:
        reference = changed(OPEN, path=start, path_end=end)
        for path in values:
            lines += both(reference, changed(OPEN, path=path)) + both(reference, changed(OPEN, path_end=path))
        # Against start and end, sharing none, one and too many.
        closed = dict(path_end_open=0, time_end_open=0)
        for head in [first(path_start_from_start=0), first(), first(path_start_from_start=0, **closed), first(path_end_from_start=1, **closed)]:
            for shared, rest in [(0, []), (0, ["61"]), (1, []), (1, ["62"]), (9, [])]:
                path, (times, differences) = relative(shared, rest), times_of(0, 0, **SECOND)
                lines += reads(reference, f"{head}{times}{path}{path}{differences}") + reads(reference, f"{head}{times}{path}")
    return lines


def times():
    lines = []
    times = [0, 99, 100, 149, 150, 151, 200, 201, 456, TOP - 1, TOP]
    for start, end in [(100, 200), (100, "*"), (0, "*"), (0, TOP), (TOP, "*"), (200, 100)]:
        reference = changed(OPEN, start=start, end=end)
        for time in times:
            lines += both(reference, changed(OPEN, start=time)) + both(reference, changed(OPEN, end=time))
        # Every flag with differences at and past the bounds; a flag that names an open end, after its difference.
        for from_start, added in [(0, 0), (0, 1), (1, 0), (1, 1)]:
            starts, ends = dict(start_from_start=from_start, start_added=added), dict(end_from_start=from_start, end_added=added, **SECOND)
            for d in [0, 100, 101, 201, None, TOP]:
                # None is a difference of which nothing follows.
                cut = -2 if d is None else None
                head, rest = times_of(d or 0, **starts)
                lines += reads(reference, first() + head + SAME_PATH + rest[:cut])
                head, rest = times_of(0, d or 0, **ends)
                lines += reads(reference, first(CLOSED_TIMES) + head + SAME_PATH + rest[:cut])
    # The start time out of bounds, before the end's difference.
    early = [first(CLOSED_TIMES) + head + SAME_PATH + rest for head, rest in [times_of(1, start_from_start=1), times_of(1)]]
    return lines + reads(changed(OPEN, end=5), early[0]) + reads(OPEN, early[1])


def cuts():
    """A cut everywhere, and starts in the middle and past the end."""
    head, times = times_of(1, 2, {"start": 1, "end": 1}, end_added=1)
    ids = f"{THIRD}{'7c' * 32}"
    whole = first({}, subspace_start=BYTES, subspace_end=BYTES) + head + ids + relative(1, ["64"]) + relative(2, ["65"]) + times
    lines = [line for n in range(0, len(whole) + 1, 2) for line in reads(CLOSED, whole[:n])]
    return lines + [line for start in [1, 3, len(whole) // 2, 300, TOP] for line in reads(CLOSED, "eeee" + whole, start)]


def malformed():
    """Lines that are not in their form."""
    kind = "range3d_range3d"
    lines = [kind, f"{kind}\tl", *[tabbed(kind, op, *OPEN, 0, OWN) for op in ["s", "a", ""]]]
    bad = {0: ["", "*", ID[:-2]], 1: ["", ID[:-2], ID.upper()], 2: ["*", "6"], 3: ["6", "**"], 4: ["*", "01", ""], 5: ["", "01", TOP + 1]}
    for i, forms in bad.items():
        for form in forms:
            wrong = [form if i == j else f for j, f in enumerate(OPEN)]
            lines += [tabbed(kind, "l", *wrong, 0, OWN), tabbed(kind, "n", *OPEN, *wrong), tabbed(kind, "w", *OPEN, *wrong, "ee")]
    for line in [tabbed(kind, "n", *OPEN, *OPEN), tabbed(kind, "w", *OPEN, *OPEN, "eeee"), tabbed(kind, "l", *OPEN, 0, OWN)]:
        lines += [line.rpartition("\t")[0], line + "\t", line + "\t0"]
    return lines


def ranges():
    return [*headers(), *subspaces(), *paths(), *times(), *cuts()]
