"""A reader of journals and of the rows in them, from docs/FORMATS.md alone. Nothing here calls the program under test."""

MAGIC = b"SNSYNC-JOURNAL"
LONGEST = 1 << 30
LAST_STAMP = 253402300799999999
KINDS = {b"S": (1, 2, 3, 4), b"D": (17, 18, 19), b"SD": (1, 2, 3, 4, 17, 18, 19)}


class Foreign(Exception):
    """No journal of this owner; the first place that differs from its header."""


class Damaged(Exception):
    """A journal of which no batch begins at this place."""


class Fault(Exception):
    """Bytes that spell no changes; the kind of their first fault, and its place."""


def header(owner):
    """The first bytes of a journal of this owner, its format's number at their end."""
    return MAGIC + owner + b"1"


def payloads(file, owner):
    """The payloads of the batches of a file, none where it is a start that was never finished."""
    begins = header(owner)
    if len(file) <= 1 or (len(file) <= 17 and file[0] == 0):
        return []
    if len(file) == 17 and file[1:] == begins[1:] + b"\0" and file[:1] != begins[:1]:
        return []
    if file[:16] != begins:
        raise Foreign(next((n for n in range(min(len(file), 16)) if file[n] != begins[n]), len(file)))
    found, gate = [], 16
    while True:
        if gate >= len(file):
            raise Damaged(gate)
        if file[gate] != 1:
            return found
        begin = gate + 5
        length = int.from_bytes(file[gate + 1 : begin], "big")
        if begin > len(file) or length > LONGEST or begin + length > len(file):
            raise Damaged(gate)
        found.append(file[begin : begin + length])
        gate = begin + length


class Cells:
    """Columns, one after the other, of which the first begins at this place."""

    def __init__(self, data, begin=0):
        self.data, self.begin, self.place = data, begin, 0

    def require(self, right, kind, behind=0):
        """Raises a fault of this kind so many bytes before this place, where this isn't right."""
        if not right:
            raise Fault(kind, self.begin + self.place - behind)

    def bytes(self, count):
        self.require(len(self.data) - self.place >= count, "Short")
        self.place += count
        return self.data[self.place - count : self.place]

    def inner(self):
        """The columns of so many bytes as stand before them."""
        data = self.bytes(self.number(4))
        return Cells(data, self.begin + self.place - len(data))

    def number(self, count=8, least=0, most=(1 << 64) - 1, kind="Range"):
        value = int.from_bytes(self.bytes(count), "big")
        self.require(least <= value <= most, kind, count)
        return value

    def text(self, least=0, most=33554432):
        data = self.bytes(self.number(4))
        self.require(least <= len(data) <= most, "Range", len(data))
        try:
            return data.decode()
        except UnicodeDecodeError:
            self.require(False, "Range", len(data))

    def token(self):
        text = self.text(1, 1024)
        self.require(all("!" <= character <= "~" for character in text), "Range", len(text.encode()))
        return text

    def string(self):
        text = self.text(0, 1 << 30).encode()
        before, colon, after = text.rpartition(b":")
        if not colon:
            before, after = text, b""
        self.require(len(before) <= 1048576 and len(after) <= 8192, "Range", len(text))
        return text.decode()

    def flag(self):
        return self.number(1, 0, 1)

    def body(self):
        kind = self.number(1, 0, 2)
        return ("none", "deleted")[kind] if kind < 2 else (self.string(), self.string())

    def rest(self):
        self.require(self.place == len(self.data), "Extra")


def key(kind, cells):
    if kind in (1, 17):
        return ()
    if kind == 3:
        return cells.number(), cells.number()
    return (cells.bytes(16) if kind == 4 else cells.number(1, 0, 2) if kind == 18 else cells.number(),)


def item(cells):
    account = cells.number()
    kind, created, updated = cells.text(0, 255), cells.number(most=LAST_STAMP), cells.number(most=LAST_STAMP)
    deleted = cells.flag()
    cells.require(kind != "" or deleted, "Range", 17)
    strings = [cells.text(0, 1048576), cells.text(0, 1048576)]
    return account, kind, created, updated, deleted, *strings


def value(kind, cells):
    if kind == 1:
        return cells.bytes(32), cells.number(most=LAST_STAMP), cells.number()
    if kind == 2:
        return cells.text(1, 254), cells.number(), cells.bytes(32)
    if kind == 3:
        return cells.number(4, least=1), cells.text(1, 256)
    if kind == 4:
        return item(cells)
    if kind == 17:
        return cells.text(1, 254), cells.bytes(16), cells.token(), cells.text(), cells.text(), cells.number()
    if kind == 18:
        return cells.number(4, least=1), cells.text(1, 256), cells.bytes(32), cells.bytes(32), cells.bytes(32)
    columns = cells.bytes(16), cells.text(1, 255), cells.flag(), cells.number(most=LAST_STAMP)
    cells.require(columns[2] or columns[3] == 0, "Range", 8)
    return *columns, cells.flag(), cells.body(), cells.body(), cells.body()


def changes(payload, owner):
    """What a payload spells: puts as kind, key and value, removes as kind and key."""
    cells, found = Cells(payload), []
    while cells.place < len(payload):
        put, kind = cells.number(1, 0, 1, "Kind"), cells.number(1)
        cells.require(kind in KINDS[owner], "Kind", 1)
        parts = []
        for column in (key, value)[: 1 + put]:
            inner = cells.inner()
            parts.append(column(kind, inner))
            inner.rest()
        found.append((kind, *parts))
    return found


def moments(file, owner):
    """What each batch of a file leaves, in turn; it is changed by the next."""
    table = {}
    for payload in payloads(file, owner):
        for kind, name, *put in changes(payload, owner):
            if put:
                table[kind, name] = put[0]
            else:
                table.pop((kind, name), None)
        yield table


def rows(file, owner):
    """What the batches of a file leave."""
    table = {}
    for table in moments(file, owner):
        pass
    return table
