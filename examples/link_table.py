"""Link tables as texts (examples/make says what stands in one) and as link files (docs/RULES.md); shared by make, show and draw."""
import signal
import sys
from typing import NamedTuple, Optional

# What each line of a text takes: in words, and the bytes of each number; a wanted line takes any number of nodes.
TAKES = {"nodes": "one number", "origin": "one node", "wanted": "nodes", "link": "three numbers: from, to, length"}
SIZES = {"nodes": [2], "origin": [2], "link": [2, 2, 4]}
MOST_LISTED = 65535
DOWN = 4294967295  # the length of a link that is down; a text has the word for it


class Fault(Exception):
    """What is wrong with a text or a file."""


class Table(NamedTuple):
    nodes: int
    origin: int
    wanted: Optional[list]  # None: all nodes
    links: list  # of tail, head, length


# Texts.


def number(word, size):
    """The number that a word says, for a field of that many bytes; one of 4 bytes is a length."""
    if size == 4 and word == "down":
        return DOWN
    most, other = 256**size - 1, " or 'down'" if size == 4 else ""
    digits = word.lstrip("0") or "0"
    if not (word.isascii() and word.isdigit() and len(digits) <= 10 and int(digits) <= most):
        raise Fault(f"'{shown(word)}' is not a whole number from 0 to {most}{other}")
    return int(digits)


def read_words(name, words):
    """The numbers of a line of that name."""
    sizes = SIZES.get(name, [2] * len(words))
    if len(words) != len(sizes):
        raise Fault(f"'{name}' takes {TAKES[name]}")
    if len(words) > MOST_LISTED:
        raise Fault(f"more than {MOST_LISTED} nodes")
    return [number(word, size) for word, size in zip(words, sizes)]


def shown(text):
    """A text as an error message shows it."""
    text = "".join(letter if letter.isprintable() else "?" for letter in text.strip())
    return text if len(text) <= 60 else text[:57] + "..."


def read_text(text):
    """The table of a text; otherwise a fault with a line for each line that is wrong."""
    lines = text.removesuffix("\n").split("\n")
    found, numbers, faults = {}, {name: [] for name in TAKES}, []
    for place, line in enumerate(lines, 1):
        name, *words = line.split("#")[0].split() or [None]
        try:
            if name is None:
                continue
            if name not in TAKES:
                raise Fault("a line begins with nodes, origin, wanted or link")
            if found.setdefault(name, place) != place and name != "link":
                raise Fault(f"'{name}' stands in line {found[name]} already")
            numbers[name].append(read_words(name, words))
        except Fault as fault:
            faults.append(f"line {place}: {shown(line)}: {fault}")
    if "nodes" not in found:
        faults.append(f"line {len(lines)}: the text ends here: a line 'nodes N' is missing")
    if faults:
        raise Fault("\n".join(faults))
    [[nodes]], [[origin]] = numbers["nodes"], numbers["origin"] or [[0]]
    [wanted] = numbers["wanted"] or [None]
    return Table(nodes, origin, wanted, [tuple(link) for link in numbers["link"]])


def write_text(table):
    lines = [f"nodes {table.nodes}"]
    if table.origin != 0:
        lines.append(f"origin {table.origin}")
    if table.wanted is not None:
        lines.append(" ".join(["wanted", *map(str, table.wanted)]))
    lines += [f"link {tail} {head} {'down' if length == DOWN else length}" for tail, head, length in table.links]
    return "\n".join(lines) + "\n"


# Link files.


def little(*values, size=2):
    return b"".join(value.to_bytes(size, "little") for value in values)


def record(tail, head, length, before):
    """A link as a record: a bit map, and the fields that the link before it does not imply."""
    implied = (None, None, None) if before is None else (before[0], before[1] + 1, before[2])
    bits, fields = 0, b""
    for place, (value, size) in enumerate([(tail, 2), (head, 2), (length, 4)]):
        if value != implied[place]:
            bits |= 1 << place
            fields += little(value, size=size)
    return bytes([bits]) + fields


def write_file(table):
    bits, fields = 1, little(table.nodes)
    if table.origin != 0:
        bits |= 2
        fields += little(table.origin)
    if table.wanted is not None and table.wanted != list(range(table.nodes)):
        bits |= 4
        fields += little(len(table.wanted), *table.wanted)
    befores = [None, *table.links]
    return bytes([bits]) + fields + b"".join(record(*link, before) for link, before in zip(table.links, befores))


class Reader:
    """The unread rest of a file."""

    def __init__(self, file):
        self.file, self.at = file, 0

    def field(self, size):
        if self.at + size > len(self.file):
            raise Fault(f"byte {len(self.file)}: the file ends inside a field, or is empty")
        self.at += size
        return int.from_bytes(self.file[self.at - size : self.at], "little")

    def bits(self, needed):
        """A bit map that has the needed bits."""
        bits = self.field(1)
        if bits > 7 or bits & needed != needed:
            raise Fault(f"byte {self.at - 1}: this is no bit map of a link file")
        return bits

    def header(self):
        bits = self.bits(needed=1)
        nodes = self.field(2)
        origin = self.field(2) if bits & 2 else 0
        wanted = [self.field(2) for _ in range(self.field(2))] if bits & 4 else None
        return nodes, origin, wanted

    def link(self, before):
        start = self.at
        bits = self.bits(needed=0 if before else 7)
        tail = self.field(2) if bits & 1 else before[0]
        head = self.field(2) if bits & 2 else before[1] + 1
        length = self.field(4) if bits & 4 else before[2]
        if head > 65535:
            raise Fault(f"byte {start}: the head left out here would be 65536")
        return tail, head, length


def read_file(file):
    """The table of a link file that make could have written; the planner may refuse it all the same."""
    reader, links = Reader(file), []
    header = reader.header()
    while reader.at < len(file):
        links.append(reader.link(links[-1] if links else None))
    table = Table(*header, links)
    again = write_file(table)
    if again != file:
        place = next(place for place, byte in enumerate(file) if again[place : place + 1] != bytes([byte]))
        raise Fault(f"byte {place}: a field stands here that has to be left out")
    return table


# Commands.


def read_bytes(words):
    with open(words[0], "rb") if words else open(0, "rb", closefd=False) as source:
        return source.read()


def command(doc, convert, options={}):
    """Writes what convert makes of the file that is named, or of standard input; a fault goes to standard error, with status 1.
    An option that stands first has a convert of its own."""
    for usual in signal.SIGPIPE, signal.SIGINT:
        signal.signal(usual, signal.SIG_DFL)
    words = sys.argv[1:]
    if words and words[0] in options:
        convert = options[words.pop(0)]
    if words in (["-h"], ["--help"]):
        print(doc.strip())
        return
    if len(words) > 1 or words and words[0].startswith("-"):
        sys.exit(doc.split("\n")[0])
    try:
        made = convert(read_bytes(words))
        with open(1, "wb", closefd=False) as output:
            output.write(made)
    except Fault as fault:
        sys.exit(str(fault))
    except OSError as fault:
        sys.exit(f"{fault.filename or 'standard input or output'}: {fault.strerror}")
