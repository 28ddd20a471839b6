"""The lists of case lines of paths, for make_cases.py."""
from case_lists import FULL, LONG_COUNT, LONG_LENGTH, LONG_TOTAL, MCC, MCL, MODES, MPL
from case_lists import a, b, counted, header, read, relative, standalone, start_of, suffix, text, write
from model import TOP, tabbed

LENGTHS = [len(c) // 2 for c in FULL]


def read_suffix(ref, message, modes=MODES):
    """A suffix, plain, after all of a reference, and as an extension of it."""
    lines = read("path", [], message, modes=modes)
    lines += read("path_path", [text(ref)], standalone(len(ref)) + message, modes=modes)
    return lines + read("path_extends", [text(ref)], message, modes=modes)


def limits():
    lines = []
    # A component of the most bytes and of one more, first and last; then nothing after its length.
    for comps in [[a(MCL)], [a(MCL + 1)], [a(MCL), ""], [a(MCL + 1), ""], ["", a(MCL)], ["", a(MCL + 1)]]:
        message = suffix(comps)
        lines += read_suffix(["62"], message, "s") + read_suffix(["62"], message.split(a(MCL))[0])
    # The most components and one more; then the header alone.
    for count in [MCC, MCC + 1]:
        for shared in [0, 1, MCC - 1, MCC]:
            comps = [""] * (count - shared)
            lines += read_suffix([""] * shared, suffix(comps)) + read_suffix([""] * shared, start_of(comps))
    # The most bytes and one more, strict; then a byte less, lenient, and the header alone.
    *first, last = FULL
    for ref, comps in [
        ([], FULL), ([], [*FULL, "63"]), ([], [*first, *[""] * (MCC - len(FULL)), last]),
        (first, [last]), (first, [last[2:], "63"]), (first, [last, "63"]), (FULL, [""]), (FULL, ["63"]),
    ]:
        message = suffix(comps)
        lines += read_suffix(ref, message, "s") + read_suffix(ref, message[:-2], "l")
        lines += read_suffix(ref, start_of(comps), "l")
    # Numbers far past the limits.
    for message in [header(TOP, 1), header(TOP, 2), header(0, TOP), header(TOP, TOP), header(0, 2) + standalone(TOP), header(1, 2) + standalone(TOP)]:
        lines += read_suffix(["61"], message) + read_suffix([], message)
    for shared in [2, LONG_LENGTH - 1, LONG_LENGTH, 256, TOP]:
        for message in ["", suffix([]), suffix([""])]:
            lines += read("path_path", ["61"], standalone(shared) + message)
    return lines


def overruns():
    """Lengths that run over the total by one, two and three components; a byte less; a byte more."""
    lines = []
    for total, comps in [
        (0, ["61"]), (1, ["6162"]), (2, ["61", "6263"]), (3, ["616263", "64"]), (3, ["616263", ""]),
        (1, ["6162", "63"]), (1, ["6162", ""]), (2, ["6162", "63", "64"]), (1, ["6162", "63", "64"]),
        (1, ["61", "62", "63", "64"]), (0, ["61", "62", "63"]), (11, [a(12), a(1), a(1)]),
    ]:
        message = header(total, len(comps) + 1) + counted(comps)
        for m in [message, message[:-2], message + "00"]:
            lines += read_suffix(["61"], m)
    # Past the most bytes too.
    for total, comps in [(MPL, [*FULL, "63"]), (MPL - 1, FULL)]:
        message = header(total, len(comps) + 1) + counted(comps)
        lines += read_suffix(["61"], message, "s") + read_suffix(["61"], message[:-2], "l")
    message = header(0, MCC) + counted([a(MCL)] * (MCC - 1))
    lines += read("path", [], message, modes="s") + read("path", [], message[:-2], modes="l")
    two, three = header(0, 2) + counted(["63"]), header(0, 3) + counted(["63", "6465"])
    for message in [two, two[:-2], three[:-2], three]:
        lines += read("path_path", [text(FULL)], standalone(len(FULL)) + message, modes="l")
    # A total above zero and no component.
    totals = [1, LONG_TOTAL - 1, LONG_TOTAL, 255, 256, MPL, MPL + 1]
    for message in [*[header(n, 0) for n in totals], header(LONG_TOTAL - 1, 0, total=0), header(LONG_TOTAL, 0)[:-2], header(MPL, 0)[:-2]]:
        lines += read_suffix(["61"], message) + read_suffix([], message)
    return lines


def forms():
    """Longer forms in a path; shared counts that are and are not the largest."""
    lines = []
    both_long = header(LONG_TOTAL, LONG_COUNT)
    for message in [
        header(0, 0, count=0), header(0, 1, count=0), header(0, 0, total=0), header(0, 0, total=1) + "00", header(0, 1, count=1) + "00",
        header(1, 1, total=0) + "61", header(1, 1, total=1) + "61", header(3, 255), header(3, 2) + standalone(1, 0) + "616263",
        header(3, 2) + standalone(1, 1) + "616263", header(1, 2) + standalone(0) + "61", header(1, 2) + standalone(0, 0) + "61",
        header(12, 2) + standalone(10, 0) + a(12), header(LONG_TOTAL - 1, LONG_COUNT, total=0)[:-2], both_long[:-2], both_long,
    ]:
        lines += read_suffix(["61"], message) + read("path_path", ["61"], standalone(1, 0) + message)
    abc = ["61", "62", "63"]
    for ref, messages in [
        (abc, [relative(0, []), relative(1, []), relative(3, []), relative(4, []), relative(1, ["62"]), relative(1, ["64"]),
               relative(1, ["62", "63"])[:-2], relative(1, ["62", "63"]), relative(0, abc)[:-2], relative(0, abc),
               relative(0, ["61", "62", "64"]), relative(3, ["64"])]),
        ([""], [relative(0, [""]), relative(1, [""]), relative(0, ["61"])[:-2], relative(0, ["61"])]),
        (["", ""], [relative(0, [""]), relative(1, [""])]),
        (["61"], [relative(0, ["6162"])]),
        (["6162"], [relative(0, ["61"]), relative(0, ["61", "62"])]),
        ([], [relative(0, []), relative(1, []), relative(0, ["61"])]),
        ([a(MCL)], [relative(0, [a(MCL - 1) + "62"]), relative(0, [a(MCL)])]),
    ]:
        for message in messages:
            lines += read("path_path", [text(ref)], message)
    return lines


def writing():
    lines = []
    for comps in [[a(MCL)], FULL, [""] * MCC, [a(LONG_TOTAL - 1)], [a(LONG_TOTAL)], [a(LONG_LENGTH - 1), "62"], [a(LONG_LENGTH), "62"],
                  [a(255)], [a(256)], [a(1)] * (LONG_COUNT - 1), [a(1)] * LONG_COUNT, ["00"], ["", "61", ""], ["ff00", "00ff"]]:
        lines += write("path", [], text(comps))
    for ref, comps in [
        ([], []), ([], ["61"]), (["61"], []), (["61"], ["61"]), (["61"], ["62"]),
        (["61"], ["61", "62"]), (["61", "62"], ["61"]), (["61"], ["6162"]), (["6162"], ["61", "62"]),
        (["61", "62"], ["6162"]), ([""], []), ([""], [""]), ([""], ["", ""]), (["", ""], [""]),
        ([""], ["61"]), (["61"], [""]), (["61", "62", "63"], ["61", "64", "63"]),
        (["61", "6263"], ["61", "6264", "65"]), (["00"], ["", "00"]), (FULL[:-1], FULL),
        ([a(MCL)], [a(MCL - 1) + "62"]), ([""] * MCC, [""] * MCC), ([""] * (MCC - 1), [""] * MCC),
        ([""] * MCC, [""] * (MCC - 1)), ([a(1)] * MCC, [a(1)] * (MCC - 1) + [b(1)]),
    ]:
        lines += write("path_path", [text(ref)], text(comps))
        # Where the reference is no prefix it is 3 with every buffer, else 4 with a short one.
        lines += write("path_extends", [text(ref)], text(comps), refused=1)
        lines.append(tabbed("path_extends", "w", text(ref), text(comps), ""))
        if comps[:len(ref)] != ref:
            lines.append(tabbed("path_extends", "w", text(ref), text(comps), "ee" * 40))
    return lines


def raw(count, lengths, data=""):
    return tabbed("raw", count, ",".join(str(n) for n in [*lengths, *[0] * (MCC - len(lengths))]), data)


def raw_lines():
    zeros = "00" * (MPL - 1)
    full, most, even = len(LENGTHS), a(MPL), MPL // MCC
    less = [*LENGTHS[:-1], LENGTHS[-1] - 1]
    return [
        # well formed
        raw(0, []), raw(0, [], zeros + "00"), raw(1, [0]), raw(1, [1], "61"), raw(2, [1, 2], "616263"),
        raw(2, [1, 2], "61626300"), raw(1, [5], "61"), raw(1, [5]), raw(1, [MCL], a(MCL)), raw(full, LENGTHS, most),
        raw(full, LENGTHS), raw(full + 1, [*LENGTHS, 0], most), raw(full + 1, [0, *LENGTHS]), raw(MCC, []),
        raw(MCC, [even] * MCC, a(even * MCC)), raw(LONG_COUNT, [1] * LONG_COUNT, a(LONG_COUNT)), raw(2, [LONG_LENGTH, 1], a(LONG_LENGTH + 1)),
        # count
        raw(MCC + 1, []), raw(MCC + 1, [1] * MCC, a(MCC)), raw(256, []), raw(TOP, []),
        # a used length
        raw(1, [MCL + 1], a(MCL + 1)), raw(1, [MCL + 1]), raw(2, [0, MCL + 1]), raw(MCC, [0] * (MCC - 1) + [MCL + 1]), raw(1, [65536]),
        raw(1, [TOP]),
        # the sum
        raw(full + 1, [*LENGTHS, 1], most), raw(3, [MPL // 3, MPL // 3, MPL - MPL // 3 * 2 + 1]),
        raw(MCC, [even] * (MCC - 1) + [MPL - even * (MCC - 1) + 1]), raw(2, [TOP, 2], "61"),
        # an unused length
        raw(0, [1]), raw(1, [1, 1], "6162"), raw(1, [1, 1], "61"), raw(MCC - 1, [0] * (MCC - 1) + [1]), raw(0, [0] * (MCC - 1) + [1]),
        raw(1, [1, 65536], "61"), raw(1, [1, TOP], "61"),
        # a byte after the total
        raw(0, [], "01"), raw(0, [], zeros + "01"), raw(1, [0], "61"), raw(1, [1], "6162"), raw(1, [1], "610062"),
        raw(full, less, most), raw(full, less, zeros + "80"), raw(MCC, [], zeros + "01"),
    ]


def paths():
    return [*limits(), *overruns(), *forms(), *writing(), *raw_lines()]
