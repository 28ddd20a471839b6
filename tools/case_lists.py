"""What the lists of case lines of make_cases.py are made with, and those of numbers and of lines not in their form. Bytes are in hex; a path
is a list of components in hex. Limits, tags and header bytes are those of model.py."""
from model import FORM_LENGTHS, LINE_LIMIT, STANDALONE, SUFFIX, TAG_WIDTHS, TOP, tabbed
from model import MAX_COMPONENT_COUNT as MCC, MAX_COMPONENT_LENGTH as MCL, MAX_PATH_LENGTH as MPL
from model import answer, bytes_after, encode_number, encode_tagged, form_of

MODES = "sl"


# ---- encodings

def first_long(layout, name):
    """The least number above zero that a tag does not hold."""
    return max(-form_of(0, dict(layout)[name]), 1)


def number(v, w, form=None):
    """The tag and the bytes after it."""
    tag, rest = encode_number(v, w, form)
    return tag, rest.hex()


def longer_forms(v, w):
    return range(max(form_of(number(v, w)[0], w) + 1, 0), len(FORM_LENGTHS))


def zeros_after(layout, parts, *names):
    """As many zeros as the tags in a header byte announce."""
    return "".join("00" * bytes_after(parts[name], dict(layout)[name]) for name in names)


def standalone(v, form=None):
    return encode_tagged(STANDALONE, {"tag": form}, tag=v).hex()


def header(total, count, /, **forms):
    return encode_tagged(SUFFIX, forms, total=total, count=count).hex()


def counted(comps):
    """Components, each preceded by its length."""
    return "".join(standalone(len(c) // 2) + c for c in comps)


def start_of(comps):
    return header(sum(len(c) for c in comps) // 2, len(comps))


def suffix(comps):
    return start_of(comps) + counted(comps[:-1]) + "".join(comps[-1:])


def relative(shared, comps):
    """Components after so many shared ones."""
    return standalone(shared) + suffix(comps)


def text(comps):
    return "/".join(comps) if comps else "-"


def a(n):
    return "61" * n


def b(n):
    return "62" * n


# A path of as many bytes as there may be, in few components; the least numbers that the tags of paths do not hold.
FULL = [(a, b)[i % 2](min(MCL, MPL - at)) for i, at in enumerate(range(0, MPL, MCL))]
LONG_TOTAL, LONG_COUNT, LONG_LENGTH = first_long(SUFFIX, "total"), first_long(SUFFIX, "count"), first_long(STANDALONE, "tag")


# ---- lines

def read(kind, ref, message, start=0, modes=MODES):
    return [tabbed(kind, mode, *ref, start, message) for mode in modes]


def write(kind, ref, value, length=None, refused=0):
    """Written length, and writing into a buffer one byte short, exact, one byte longer; than `refused` where the value is."""
    lines = [tabbed(kind, "n", *ref, value)]
    if length is None:
        told, number = answer(lines[0]).split("\t")
        length = int(number) if told == "ok" else refused
    return lines + [tabbed(kind, "w", *ref, value, "ee" * n) for n in range(max(length - 1, 0), length + 2)]


def numbers(kind, w):
    """`number` with tags of w bits, or `standalone`."""
    lines = []
    own = kind == "standalone"
    ref = [] if own else [w]

    def reads(v, form=None, cut=0, modes=MODES):
        tag, rest = number(v, w, form)
        message = f"{tag:02x}{rest}" if own else rest
        return read(kind, ref + [tag] * (not own), message[:len(message) - 2 * cut], modes=modes)

    bounds = {0, 1, LONG_LENGTH - 1, LONG_LENGTH, LONG_LENGTH + 1, 255, 256, 65535, 65536, 2**32 - 1, 2**32, TOP}
    for v in sorted(bounds | {v for v in range(2**w - 5, 2**w + 1) if v >= 0}):
        lines += write(kind, ref, v) + reads(v)
        if own or number(v, w)[1]:
            lines += reads(v, cut=1)
        for form in longer_forms(v, w):
            lines += reads(v, form) + reads(v, form, cut=1, modes="s")
    # Starts in the middle, at the end and past it.
    tag = number(256, w)[0]
    message = "ee" + f"{tag:02x}" * own + "010007"
    for start in [1, 2, 3, 4, 5, 6, 2**32, 2**63, TOP]:
        lines += read(kind, [] if own else [w, tag], message, start)
    if form_of(1, w) < 0 and not own:
        lines += read(kind, [w, 1], "", 7)
    return lines


def malformed():
    """Lines that are not in their form."""
    zeros = ",".join("0" * MCC)
    lines = ["", "\t", "\t\t", "-", "path", "path\t", "path\t\t0\t00", "\ts\t0\t00", "paths\ts\t0\t00",
             "Path\ts\t0\t00", "pat\ts\t0\t00", "path_\ts\t0\t00", "path s 0 00", " path\ts\t0\t00",
             "path\tr\t0\t00", "path\tS\t0\t00", "path\tsl\t0\t00", "number", "number\ts",
             "number\ta\t4\t1\t0\t", "standalone\tx\t1", "path_path\ta\t61\t0\t00",
             "path_extends\ta\t61\t0\t00", "raw"]
    # A field less and more.
    for line in ["number\ts\t4\t12\t0\tff", "number\tw\t8\t300\teeee", "number\tn\t2\t0", "standalone\tl\t0\tfc0c",
                 "standalone\tw\t7\tee", "standalone\tn\t7", "path\ts\t0\t00", "path\tw\t61\teeee", "path\tn\t61/6263",
                 "path_path\tl\t61\t0\t0100", "path_path\tw\t61\t62\teeeeee", "path_path\tn\t61\t62",
                 "path_extends\ts\t61\t0\t00", "path_extends\tw\t61\t61/62\teeeeee", "path_extends\tn\t61\t61/62",
                 f"raw\t0\t{zeros}\t"]:
        lines += [line.rpartition("\t")[0], line + "\t", line + "\t0", line + "\t\t0"]
    # Bytes.
    for bad in ["0", "000", "0A", "FF", "0g", "0x00", " 00", "00 ", "0 ", "-", "é", "00/00"]:
        lines += [tabbed("path", "l", 0, bad), tabbed("path", "w", "61", bad), tabbed("standalone", "s", 0, bad),
                  tabbed("number", "l", 4, 12, 0, bad), tabbed("number", "w", 4, 12, bad),
                  tabbed("path_path", "s", "61", 0, bad), tabbed("path_extends", "w", "61", "61", bad)]
    # Numbers.
    for bad in ["", "00", "01", "+1", "-1", "1 ", " 1", "1.0", "0x1", "a", "1a", "*", "1_0", TOP + 1, 10 * TOP, 10**20]:
        lines += [tabbed("path", "l", bad, "00"), tabbed("path_path", "l", "61", bad, "0000"),
                  tabbed("path_extends", "l", "61", bad, "00"), tabbed("standalone", "n", bad),
                  tabbed("standalone", "w", bad, "ee" * 9), tabbed("standalone", "l", bad, "00"),
                  tabbed("number", "n", 4, bad), tabbed("number", "w", 4, bad, "ee" * 9),
                  tabbed("number", "l", 4, bad, 0, "00"), tabbed("number", "l", 4, 1, bad, "00"),
                  tabbed("number", "n", bad, 1)]
    # Tag widths and tags.
    for w in [*range(TAG_WIDTHS[0]), TAG_WIDTHS[-1] + 1, 10, 16, 64, TOP]:
        lines += [tabbed("number", "n", w, 0), tabbed("number", "l", w, 0, 0, "00"), tabbed("number", "w", w, 0, "ee")]
    for w in TAG_WIDTHS:
        for tag in [2**w, 2**w + 1, 256, 2**32, TOP]:
            lines += read("number", [w, tag], "00" * 8)
    # Paths.
    for bad in ["6", "6A", "61/6", "61/g1", "61//6", "61-", "-61", "--", "-/", "/-", "61/-", "*", " ", "61 ", "61 /62",
                "61,62", "/" * MCC, "61/" * MCC]:
        lines += [tabbed("path", "n", bad), tabbed("path", "w", bad, "ee"), tabbed("path_path", "n", bad, "61"),
                  tabbed("path_path", "n", "61", bad), tabbed("path_path", "l", bad, 0, "0000"),
                  tabbed("path_extends", "n", "-", bad), tabbed("path_extends", "l", bad, 0, "00")]
    for bad in [[a(MCL + 1)], [a(MCL + 1), ""], ["", a(MCL + 1)], [*FULL, "63"], [a(MPL // MCC + 1)] * MCC]:
        lines += [tabbed("path", "n", text(bad)), tabbed("path_path", "n", "61", text(bad)),
                  tabbed("path_path", "l", text(bad), 0, "0000"), tabbed("path_extends", "l", text(bad), 0, "00")]
    # Records.
    for bad in ["", "0", zeros[2:], zeros + ",0", zeros + ",", "," + zeros, "," + zeros[2:], zeros.replace("0,0", "0,,", 1),
                zeros.replace("0,0", "0,00", 1), zeros.replace(",", "/"), zeros.replace("0,0", "0, 0", 1), "a" + zeros[1:],
                str(TOP + 1) + zeros[1:], "-"]:
        lines.append(tabbed("raw", 0, bad, ""))
    lines += [tabbed("raw", bad, zeros, "") for bad in ["", "00", "-1", "s", TOP + 1]]
    return lines + [tabbed("raw", 0, zeros, bad) for bad in ["0", "0A", "g0", "00" * (MPL + 1), "-"]]


def long_lines():
    """Lines of the most bytes and more, each followed by a short one."""
    lines = []
    for i, (line, length) in enumerate([("path\tl\t10\t", LINE_LIMIT), ("standalone\tw\t10\t", LINE_LIMIT),
                                        ("path\tl\t100\t", LINE_LIMIT + 1), ("path\tl\t10\t", 33000)]):
        lines += [line + "00" * ((length - len(line)) // 2), tabbed("path", "n", a(i + 2))]
    return lines
