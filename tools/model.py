#!/usr/bin/env python3
"""model.py [--listing]: answers the case lines (docs/CASES.md) on standard input by the rules of docs/FORMAT.md, or the lines of an area
listing (docs/LISTING.md). Another edition of the format, with other limits or header bytes, is another first part of this file."""
import re
import sys

MAX_COMPONENT_LENGTH = 300
MAX_COMPONENT_COUNT = 20
MAX_PATH_LENGTH = 600

# Header bytes: their parts with widths in bits, the highest bit first. Bits that must be zero are "spare".
STANDALONE = [("tag", 8)]
SUFFIX = [("total", 4), ("count", 4)]
AREA = [("id_written", 1), ("end_open", 1), ("start_added", 1), ("end_added", 1), ("start_tag", 2), ("end_tag", 2)]
ENTRY_AREA = [("id_written", 1), ("time_added", 1), ("time_tag", 2), ("length_tag", 2), ("spare", 2)]
ENTRY_ENTRY = [("namespace_written", 1), ("subspace_written", 1), ("time_added", 1), ("time_tag", 2), ("length_tag", 3)]
RANGE3D = [("subspace_start", 2), ("subspace_end", 2), ("path_start_from_start", 1), ("path_end_open", 1),
           ("path_end_from_start", 1), ("time_end_open", 1)]
RANGE3D_TIMES = [("start_from_start", 1), ("start_added", 1), ("start_tag", 2), ("end_from_start", 1), ("end_added", 1), ("end_tag", 2)]
assert all(sum(dict(head).values()) == 8 for head in [STANDALONE, SUFFIX, AREA, ENTRY_AREA, ENTRY_ENTRY, RANGE3D, RANGE3D_TIMES])

TOP = 2**64 - 1
OPEN_TIME = TOP + 1  # an open end, above every closed one
ID_LENGTH = 32
FORM_LENGTHS = [1, 2, 4, 8]
TAG_WIDTHS = range(2, 9)
LINE_LIMIT, LISTING_LINE_LIMIT = 16384, 4096
OPEN, START, END, BYTES = range(4)  # where a 3d range's subspace is taken from


class Refused(Exception):
    """A refusal's number, and the buffer of a writing."""


def need(holds, refusal):
    if not holds:
        raise Refused(refusal)


# ---- header bytes and numbers

def pack(layout, **parts):
    """A header byte; parts that are not named are zero."""
    byte = 0
    for name, width in layout:
        byte = byte * 2**width + parts.pop(name, 0)
    assert not parts
    return byte


def unpack(layout, byte):
    parts = {}
    for name, width in reversed(layout):
        parts[name], byte = byte % 2**width, byte // 2**width
    return parts


def form_of(tag, width):
    """Which of FORM_LENGTHS a tag announces; negative if the tag is the number."""
    return tag - (2**width - len(FORM_LENGTHS))


def bytes_after(tag, width):
    """How many bytes follow a tag."""
    return FORM_LENGTHS[form_of(tag, width)] if form_of(tag, width) >= 0 else 0


def encode_number(number, width, form=None):
    """The tag and the bytes after it, in the shortest form unless one is named."""
    if form is None and form_of(number, width) < 0:
        return number, b""
    form = next(i for i, n in enumerate(FORM_LENGTHS) if number < 256**n) if form is None else form
    return form - form_of(0, width), number.to_bytes(FORM_LENGTHS[form], "big")


class Head(dict):
    """A header byte's parts, by name."""

    def __init__(self, layout, **parts):
        super().__init__(parts)
        self.layout = layout

    def byte(self):
        return bytes([pack(self.layout, **self)])

    def number(self, name, number, form=None):
        """Sets a tag; gives the bytes after it."""
        self[name], rest = encode_number(number, dict(self.layout)[name], form)
        return rest

    def difference(self, name, *time_and_range):
        """Sets a difference's flag and tag; gives the bytes after them."""
        self[f"{name}_added"], number = difference(*time_and_range)
        return self.number(f"{name}_tag", number)


# ---- paths, which are tuples of components, and times

def is_path(components):
    lengths = [len(component) for component in components]
    return max(lengths, default=0) <= MAX_COMPONENT_LENGTH and len(lengths) <= MAX_COMPONENT_COUNT and sum(lengths) <= MAX_PATH_LENGTH


def is_prefix(path, other):
    return other[:len(path)] == path


def longest_common_prefix(path, other):
    """How many leading components are shared."""
    return next((i for i, (p, q) in enumerate(zip(path, other)) if p != q), min(len(path), len(other)))


def difference(time, start, end):
    """Whether it is added, and how much."""
    from_start, to_end = time - start, min(end, TOP) - time
    return from_start <= to_end, min(from_start, to_end)


# ---- reading

class Reader:
    """A message read from a start on; a method for each kind, which gets the reference and gives the value."""

    def __init__(self, message, start, strict):
        self.message, self.strict = message, strict
        self.start = self.place = min(start, len(message))

    def take(self, length):
        need(length <= len(self.message) - self.place, 1)
        self.place += length
        return self.message[self.place - length:self.place]

    def id(self):
        return self.take(ID_LENGTH)

    def head(self, layout):
        head = Head(layout, **unpack(layout, self.take(1)[0]))
        need(not head.get("spare"), 2)
        return head

    def compact(self, width, tag):
        rest = self.take(bytes_after(tag, width))
        number = int.from_bytes(rest, "big") if rest else tag
        need(not self.strict or encode_number(number, width)[0] == tag, 2)
        return number

    def number(self, head, name):
        return self.compact(dict(head.layout)[name], head[name])

    def standalone(self):
        return self.number(self.head(STANDALONE), "tag")

    def path(self, reference=(), shared=0):
        """A suffix after a reference's first components."""
        head = self.head(SUFFIX)
        total, count = self.number(head, "total"), self.number(head, "count")
        need(shared <= len(reference), 2)
        path = list(reference[:shared])
        need(len(path) + count <= MAX_COMPONENT_COUNT and sum(map(len, path)) + total <= MAX_PATH_LENGTH and (count or not total), 2)
        for left in reversed(range(count)):
            length = self.standalone() if left else total
            need(0 <= length <= MAX_COMPONENT_LENGTH, 2)
            path.append(self.take(length))
            total -= length
        return tuple(path)

    def path_path(self, reference):
        shared = self.standalone()
        path = self.path(reference, shared)
        need(not self.strict or longest_common_prefix(path, reference) == shared, 2)
        return path

    def path_extends(self, reference):
        path = reference + self.path()
        need(is_path(path), 2)
        return path

    def difference(self, head, name, start, end, larger_too=False):
        number, added = self.number(head, f"{name}_tag"), head[f"{name}_added"]
        time = start + number if added else min(end, TOP) - number
        need(start <= time <= min(end, TOP), 2)
        written = difference(time, start, end)
        need(written == (added, number) if self.strict else written[1] == number or larger_too, 2)
        return time

    def distance(self, head, name, base):
        number = self.number(head, f"{name}_tag")
        need(base != OPEN_TIME, 2)
        time = base + number if head[f"{name}_added"] else base - number
        need(0 <= time <= TOP, 2)
        return time

    def area_area(self, subspace, path, *times):
        head = self.head(AREA)
        need(not (self.strict and head["end_open"] and (head["end_added"] or head["end_tag"])), 2)
        if head["id_written"]:
            written = self.id()
            need(subspace is None or subspace == written and not self.strict, 2)
            subspace = written
        start = self.difference(head, "start", *times)
        need(not (head["end_open"] and head["end_added"]), 2)
        end = OPEN_TIME if head["end_open"] else self.difference(head, "end", *times)
        need(times[0] <= start and end <= times[1], 2)
        return subspace, self.path_extends(path), start, end

    def entry_area(self, namespace, subspace, prefix, *times):
        head = self.head(ENTRY_AREA)
        need(head["id_written"] == (subspace is None), 2)
        subspace = self.id() if subspace is None else subspace
        path = self.path_path(prefix)
        need(is_prefix(prefix, path), 2)
        time = self.difference(head, "time", *times, larger_too=True)
        need(time < times[1], 2)
        length = self.number(head, "length_tag")
        return namespace, subspace, path, time, length, self.id()

    def entry_entry(self, namespace, subspace, path, time, _, __):
        head = self.head(ENTRY_ENTRY)
        namespace = self.id() if head["namespace_written"] else namespace
        subspace = self.id() if head["subspace_written"] else subspace
        time = self.distance(head, "time", time)
        length = self.number(head, "length_tag")
        return namespace, subspace, self.path_path(path), time, length, self.id()

    def subspace(self, source, start, end):
        subspace = self.id() if source == BYTES else {START: start, END: end}.get(source)
        need(subspace is not None and not (source == BYTES and subspace in [start, end]), 2)
        return subspace

    def range3d_range3d(self, subspace, subspace_end, path, path_end, time, time_end):
        first, second = self.head(RANGE3D), self.head(RANGE3D_TIMES)

        def path_against(from_start):
            need(from_start or path_end is not None, 2)
            return self.path_path(path if from_start else path_end)

        return (
            self.subspace(first["subspace_start"], subspace, subspace_end),
            None if first["subspace_end"] == OPEN else self.subspace(first["subspace_end"], subspace, subspace_end),
            path_against(first["path_start_from_start"]),
            None if first["path_end_open"] else path_against(first["path_end_from_start"]),
            self.distance(second, "start", time if second["start_from_start"] else time_end),
            OPEN_TIME if first["time_end_open"] else self.distance(second, "end", time if second["end_from_start"] else time_end),
        )


# ---- writing: reference and value give the bytes

def encode_tagged(layout, forms={}, **numbers):
    """A header byte of tags, and the bytes after them."""
    head = Head(layout)
    rest = b"".join(head.number(name, number, forms.get(name)) for name, number in numbers.items())
    return head.byte() + rest


def encode_standalone(number):
    return encode_tagged(STANDALONE, tag=number)


def encode_path(path):
    preceded = b"".join(encode_standalone(len(component)) + component for component in path[:-1])
    return encode_tagged(SUFFIX, total=sum(map(len, path)), count=len(path)) + preceded + b"".join(path[-1:])


def encode_path_path(reference, path):
    shared = longest_common_prefix(path, reference)
    return encode_standalone(shared) + encode_path(path[shared:])


def encode_path_extends(reference, path):
    need(is_prefix(reference, path), 3)
    return encode_path(path[len(reference):])


def encode_area_area(ref_subspace, ref_path, ref_start, ref_end, subspace, path, start, end):
    need(ref_subspace in [None, subspace] and is_prefix(ref_path, path), 3)
    need(ref_start <= start <= ref_end and ref_start <= end <= ref_end, 3)
    head = Head(AREA, id_written=subspace != ref_subspace, end_open=end == OPEN_TIME)
    times = head.difference("start", start, ref_start, ref_end)
    times += b"" if end == OPEN_TIME else head.difference("end", end, ref_start, ref_end)
    return head.byte() + (subspace if head["id_written"] else b"") + times + encode_path_extends(ref_path, path)


def encode_entry_area(ref_namespace, ref_subspace, ref_path, start, end, namespace, subspace, path, time, length, digest):
    need(namespace == ref_namespace and ref_subspace in [None, subspace] and is_prefix(ref_path, path) and start <= time < end, 3)
    head = Head(ENTRY_AREA, id_written=ref_subspace is None)
    rest = encode_path_path(ref_path, path) + head.difference("time", time, start, end) + head.number("length_tag", length)
    return head.byte() + (subspace if head["id_written"] else b"") + rest + digest


def encode_entry_entry(ref_namespace, ref_subspace, ref_path, ref_time, _, __, namespace, subspace, path, time, length, digest):
    head = Head(ENTRY_ENTRY, namespace_written=namespace != ref_namespace, subspace_written=subspace != ref_subspace, time_added=time > ref_time)
    ids = namespace * head["namespace_written"] + subspace * head["subspace_written"]
    rest = head.number("time_tag", abs(time - ref_time)) + head.number("length_tag", length)
    return head.byte() + ids + rest + encode_path_path(ref_path, path) + digest


def encode_range3d_range3d(ref_subspace, ref_subspace_end, ref_path, ref_path_end, ref_time, ref_time_end,
                           subspace, subspace_end, path, path_end, time, time_end):
    first, second = Head(RANGE3D, path_end_open=path_end is None, time_end_open=time_end == OPEN_TIME), Head(RANGE3D_TIMES)

    def put_subspace(name, id):
        first[name] = {ref_subspace_end: END, ref_subspace: START, None: OPEN}.get(id, BYTES)
        return id if first[name] == BYTES else b""

    def put_path(name, path):
        from_start = ref_path_end is None or longest_common_prefix(path, ref_path) >= longest_common_prefix(path, ref_path_end)
        first[f"{name}_from_start"] = from_start
        return encode_path_path(ref_path if from_start else ref_path_end, path)

    def put_time(name, time):
        from_start = abs(time - ref_time) <= (TOP if ref_time_end == OPEN_TIME else abs(time - ref_time_end))
        base = ref_time if from_start else ref_time_end
        second[f"{name}_from_start"], second[f"{name}_added"] = from_start, time >= base
        return second.number(f"{name}_tag", abs(time - base))

    rest = put_subspace("subspace_start", subspace) + put_subspace("subspace_end", subspace_end)
    rest += put_path("path_start", path) + (b"" if path_end is None else put_path("path_end", path_end))
    rest += put_time("start", time) + (b"" if time_end == OPEN_TIME else put_time("end", time_end))
    return first.byte() + second.byte() + rest


# ---- the text of fields: forms, each a reader and a printer

def tabbed(*fields):
    return "\t".join(str(field) for field in fields)


def matched(form, text):
    need(re.fullmatch(form, text), 6)
    return text


def to_number(text):
    number = int(matched("0|[1-9][0-9]{0,19}", text))
    need(number <= TOP, 6)
    return number


def to_path(text):
    path = () if text == "-" else tuple(HEX[0](component) for component in text.split("/"))
    need(is_path(path), 6)
    return path


def or_star(form, star=None):
    return lambda text: star if text == "*" else form[0](text), lambda value: "*" if value == star else form[1](value)


HEX = lambda text: bytes.fromhex(matched("(?:[0-9a-f]{2})*", text)), bytes.hex
ID = lambda text: bytes.fromhex(matched(f"[0-9a-f]{{{2 * ID_LENGTH}}}", text)), bytes.hex
WIDTH = lambda text: int(matched(f"[{TAG_WIDTHS[0]}-{TAG_WIDTHS[-1]}]", text)), str
NUMBER = to_number, str
PATH = to_path, lambda path: "/".join(component.hex() for component in path) if path else "-"
TIMES = [NUMBER, or_star(NUMBER, OPEN_TIME)]
AREA_FORMS = [or_star(ID), PATH, *TIMES]
ENTRY_FORMS = [ID, ID, PATH, NUMBER, NUMBER, ID]
RANGE3D_FORMS = [ID, or_star(ID), PATH, or_star(PATH), *TIMES]
# Of each kind: the fields of reference and value, reading, writing.
KINDS = {
    "number": ([WIDTH], [NUMBER], Reader.compact, lambda width, number: encode_number(number, width)[1]),
    "standalone": ([], [NUMBER], Reader.standalone, encode_standalone),
    "path": ([], [PATH], Reader.path, encode_path),
    "path_path": ([PATH], [PATH], Reader.path_path, encode_path_path),
    "path_extends": ([PATH], [PATH], Reader.path_extends, encode_path_extends),
    "area_area": (AREA_FORMS, AREA_FORMS, Reader.area_area, encode_area_area),
    "entry_area": ([ID, *AREA_FORMS], ENTRY_FORMS, Reader.entry_area, encode_entry_area),
    "entry_entry": (ENTRY_FORMS, ENTRY_FORMS, Reader.entry_entry, encode_entry_entry),
    "range3d_range3d": (RANGE3D_FORMS, RANGE3D_FORMS, Reader.range3d_range3d, encode_range3d_range3d),
}
READ_LENIENTLY_ONLY = ["entry_entry", "range3d_range3d"]


# ---- answers

def taken(forms, fields):
    need(len(fields) == len(forms), 6)
    return [to(field) for (to, _), field in zip(forms, fields)]


def reading(kind, strict, fields):
    reference_forms, value_forms, decode, _ = KINDS[kind]
    forms = [*reference_forms, NUMBER] if kind == "number" else reference_forms
    *reference, start, message = taken([*forms, NUMBER, HEX], fields)
    need(kind != "number" or reference[1] < 2**reference[0], 6)
    reader = Reader(message, start, strict)
    value = decode(reader, *reference)
    values = [value] if len(value_forms) == 1 else value
    return [reader.place - reader.start, *[text(part) for (_, text), part in zip(value_forms, values)]]


def writing(kind, fields):
    reference_forms, value_forms, _, encode = KINDS[kind]
    *given, room = taken([*reference_forms, *value_forms, HEX], fields)
    try:
        encoding = encode(*given)
        need(len(encoding) <= len(room), 4)
    except Refused as refused:
        raise Refused(*refused.args, room.hex())
    tag = [encode_number(*given[::-1])[0]] if kind == "number" else []
    return [len(encoding), *tag, (encoding + room[len(encoding):]).hex()]


def raw_path(count, lengths, data):
    """The path of a record, if that is well formed."""
    count, lengths, data = to_number(count), [to_number(length) for length in lengths.split(",")], HEX[0](data)
    need(len(lengths) == MAX_COMPONENT_COUNT and len(data) <= MAX_PATH_LENGTH, 6)
    data, used = data.ljust(MAX_PATH_LENGTH, bytes(1)), lengths[:count]
    path = tuple(data[sum(used[:i]):sum(used[:i + 1])] for i in range(len(used)))
    need(count == len(used) and [len(component) for component in path] == used and is_path(path), 5)
    need(not any(lengths[count:]) and not any(data[sum(used):]), 5)
    return path


def asked(line):
    need(len(line) <= LINE_LIMIT, 6)
    kind, *fields = line.split("\t")
    if kind == "raw":
        need(len(fields) == 3, 6)
        return [len(encode_path(raw_path(*fields)))]
    need(kind in KINDS and fields, 6)
    op, *fields = fields
    need(op in ["l", "w", "n"] or op == "s" and kind not in READ_LENIENTLY_ONLY, 6)
    if op == "n":
        reference_forms, value_forms, _, encode = KINDS[kind]
        return [len(encode(*taken(reference_forms + value_forms, fields)))]
    return writing(kind, fields) if op == "w" else reading(kind, op == "s", fields)


def answer(line):
    """The answer to a case line."""
    try:
        return tabbed("ok", *asked(line))
    except Refused as refused:
        return tabbed("no", *refused.args)


def listing(line, answer_of=answer):
    """The answer to a line of the area listing, which is that to a case line."""
    mode, *fields = line.split("\t")
    if len(line) > LISTING_LINE_LIMIT or mode not in ["s", "l"] or len(fields) != 5:
        return tabbed("no", 6)
    *reference, message = fields
    return answer_of(tabbed("area_area", mode, *reference, 0, message))


if __name__ == "__main__":
    answer_of = listing if sys.argv[1:] == ["--listing"] else answer
    for line in sys.stdin.buffer:
        print(answer_of(line.removesuffix(b"\n").decode("latin-1")))
