"""The lists of case lines of areas, for make_cases.py."""
from case_lists import MCL, b, longer_forms, read, suffix, write, zeros_after
from model import AREA, TOP, Head, tabbed, unpack

ID = "5a" * 32
OTHER = "a5" * 32


def fields(subspace, path, start, end):
    return [subspace, path, start, end]


def message(start, end, subspace="", path=suffix([]), forms={}, **flags):
    """Differences in their shortest form unless another is named; None where there is none."""
    head = Head(AREA, **flags)
    rest = "".join(head.number(f"{name}_tag", d, forms.get(name)).hex() for name, d in [("start", start), ("end", end)] if d is not None)
    return f"{head.byte().hex()}{subspace}{rest}{path}"


# The open area of any subspace, against itself.
OWN = message(0, None, end_open=1, start_added=1)


def both(reference, area, refused=0):
    return write("area_area", fields(*reference), tabbed(*fields(*area)), refused=refused)


def headers():
    """Every header, over bytes that suffice for most, against a closed and an open reference with and without an id."""
    lines = []
    for h in range(256):
        parts = unpack(AREA, h)
        tags = ["start_tag"] if parts["end_open"] else ["start_tag", "end_tag"]
        rest = ID * parts["id_written"] + zeros_after(AREA, parts, *tags) + suffix([])
        for subspace, end in [("*", "*"), (ID, 200)]:
            lines += read("area_area", fields(subspace, "-", 100, end), f"{h:02x}{rest}")
    return lines


def times():
    lines = []
    reference = fields("*", "-", 100, 200)
    # Each difference from both sides, ties and steps past them; the end is read at the reference's own.
    for d in [0, 1, 49, 50, 51, 99, 100, 101, 201]:
        for added in [1, 0]:
            lines += read("area_area", reference, message(d, 0, start_added=added))
        for added in [1, 0]:
            lines += read("area_area", reference, message(0, d, start_added=1, end_added=added))
    for start in [99, 100, 101, 149, 150, 151, 199, 200, 201]:
        for end in [99, 100, 149, 150, 151, 200, 201, "*"]:
            lines.append(tabbed("area_area", "n", *reference, *fields("*", "-", start, end)))
        lines += both(("*", "-", 100, 200), ("*", "-", start, 200), refused=4)
    # Sums and differences past 64 bits.
    for ref in [fields("*", "-", TOP, "*"), fields("*", "-", TOP - 1, TOP), fields("*", "-", 0, 5), fields("*", "-", 5, 0)]:
        for d in [0, 1, 2, 5, 6, TOP]:
            for flags in [dict(start_added=start, end_added=end) for end in [0, 1] for start in [0, 1]]:
                lines += read("area_area", ref, message(d, 0, **flags)) + read("area_area", ref, message(0, d, **flags))
    # Width boundaries, in a reference so wide that both sides hold them.
    wide = ("*", "-", 0, "*")
    for d in [255, 256, 65535, 65536, 2**32 - 1, 2**32, TOP // 2, TOP // 2 + 1]:
        for start, end in [(d, TOP - d), (TOP - d, d), (d, "*")]:
            lines += both(wide, ("*", "-", start, end))
    # An open end lies above every closed one; a closed one at top is no open one.
    for ref_end in ["*", TOP, TOP - 1]:
        for end in ["*", TOP, TOP - 1]:
            lines += both(("*", "-", 0, ref_end), ("*", "-", 0, end), refused=4 - (end == "*"))
    # An end below the start is carried; nothing lies inside a reference with one.
    lines += both(("*", "-", 0, 10), ("*", "-", 9, 3)) + read("area_area", fields("*", "-", 0, 10), message(1, 3, end_added=1))
    lines += both(("*", "-", 9, 3), ("*", "-", 9, 3), refused=4) + read("area_area", fields("*", "-", 9, 3), message(0, 0, start_added=1))
    # Longer forms of a difference.
    for form in longer_forms(5, dict(AREA)["start_tag"]):
        lines += read("area_area", reference, message(5, 0, start_added=1, forms={"start": form}))
        lines += read("area_area", reference, message(0, 5, start_added=1, end_added=1, forms={"end": form}))
    return lines


def subspaces():
    lines = []
    for reference in ["*", ID]:
        for area in ["*", ID, OTHER]:
            lines += both((reference, "-", 0, "*"), (area, "-", 0, "*"), refused=3 + 32 * (area != reference))
        for subspace in [ID, OTHER, ID[:-2], ""]:
            for path in [suffix([]), ""]:
                lines += read("area_area", fields(reference, "-", 0, "*"), message(0, None, subspace, path, id_written=1, end_open=1, start_added=1))
        lines += read("area_area", fields(reference, "-", 0, "*"), message(0, None, end_open=1, start_added=1))
    # The id is compared before the times are read.
    return lines + read("area_area", fields(ID, "-", 0, "*"), message(None, None, OTHER, "", id_written=1))


def paths():
    lines = []
    for ref, path, rest in [("-", "-", []), ("-", "61", ["61"]), ("61", "61", []), ("61", "61/62", ["62"]), ("61", "62", []),
                            ("61/62", "61", []), ("", "", []), ("", "-", []), ("61", "61/" + b(MCL), [b(MCL)])]:
        lines += both(("*", ref, 0, "*"), ("*", path, 0, "*"), refused=3)
        lines += read("area_area", fields("*", ref, 0, "*"), message(0, None, path=suffix(rest), end_open=1, start_added=1))
    # A cut everywhere, and starts in the middle and past the end.
    whole = message(3, 300, ID, suffix(["61", "62"]), id_written=1, end_added=1)
    reference = fields("*", "-", 0, 1000)
    lines += [line for n in range(0, len(whole) + 1, 2) for line in read("area_area", reference, whole[:n])]
    return lines + [line for start in [1, 3, len(whole) // 2, 100, TOP] for line in read("area_area", reference, "eeee" + whole, start)]


def malformed():
    """Lines that are not in their form."""
    good = ["*", "-", 0, "*"]
    lines = ["area_area", "area_area\ts", tabbed("area_area", "a", *good, 0, OWN), tabbed("area_are", "s", *good, 0, OWN)]
    bad = {0: ["", "**", "* ", "-", ID[:-1], ID[:-2], ID + "00", ID.upper(), "g" * 64], 1: ["6", "*", "61/6"],
           2: ["", "*", "-", "01", TOP + 1], 3: ["", "**", "-", "01", TOP + 1]}
    for i, forms in bad.items():
        for form in forms:
            wrong = [form if i == j else f for j, f in enumerate(good)]
            lines += [tabbed("area_area", "n", *wrong, *good), tabbed("area_area", "n", *good, *wrong),
                      tabbed("area_area", "w", *good, *wrong, "ee"), tabbed("area_area", "l", *wrong, 0, OWN)]
    for line in [tabbed("area_area", "n", *good, *good), tabbed("area_area", "w", *good, *good, "eeee"), tabbed("area_area", "s", *good, 0, OWN)]:
        lines += [line.rpartition("\t")[0], line + "\t", line + "\t0"]
    return lines


def areas():
    return [*headers(), *times(), *subspaces(), *paths()]
