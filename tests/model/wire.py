"""The wire: fields, rows and events, each with its faults in their order."""

LONGEST_ROW = 1 << 24
TYPES = {1, 2, 3, 4, 5, 11, 12, 13, 14, 15, 17, 19}
GTID, BEGIN, COMMIT, ROLLBACK, ROW, FIELD, VGTID = 1, 2, 3, 4, 12, 13, 15


class Wire(Exception):
    """Bytes that are no list of fields (or of varints), by the place of the first that is none."""

    def __init__(self, cause, place):
        super().__init__(cause)
        self.cause, self.place = cause, place


class BadEvent(Exception):
    def __init__(self, cause, details=b""):
        super().__init__(cause)
        self.cause, self.details = cause, details


def varint(data, at, end):
    """The value of a varint and where it ends, or the number of its fault."""
    value = 0
    for i in range(10):
        if at + i >= end:
            return None, 1
        byte = data[at + i]
        if i == 9 and byte > 1:
            return None, 2
        value |= (byte & 127) << 7 * i
        if byte < 128:
            return value, at + i + 1


def field(data, at, end):
    """One field as (number, wire type, payload) and where it ends. A payload of bytes is where they stand."""
    tag, after = varint(data, at, end)
    if tag is None:
        raise Wire(after, at)
    number, kind, payload = tag >> 3, tag & 7, None
    if kind in (0, 2):
        payload, after = varint(data, after, end)
        if payload is None:
            raise Wire(after, at)
    size = {1: 8, 5: 4, 2: payload}.get(kind, 0)
    if size > end - after:
        raise Wire(1, at)
    if kind == 2:
        payload = (after, after + size)
    if not 1 <= number < 1 << 29:
        raise Wire(5, at)
    if kind in (3, 4):
        raise Wire(3, at)
    if kind in (6, 7):
        raise Wire(4, at)
    return (number, kind, payload), after + size


def fields(data, span):
    """All fields up to the first that is none, and that one's fault."""
    (at, end), found = span, []
    while at < end:
        try:
            one, at = field(data, at, end)
        except Wire as fault:
            return found, fault
        found.append(one)
    return found, None


def varints(data, span):
    (at, end), found = span, []
    while at < end:
        value, after = varint(data, at, end)
        if value is None:
            raise Wire(after, at)
        found.append(value)
        at = after
    return found


def read_row(data, span):
    """The columns of a row: bytes, or nothing for NULL."""
    if span[1] - span[0] > LONGEST_ROW:
        raise BadEvent(14)
    found, fault = fields(data, span)
    lengths, values = [], b""
    for number, kind, payload in found:
        if (number, kind) == (1, 0):
            lengths.append(payload)
        elif (number, kind) == (1, 2):
            try:
                lengths += varints(data, payload)
            except Wire as bad:
                raise BadEvent(bad.cause) from None
        elif (number, kind) == (2, 2):
            values = data[payload[0] : payload[1]]
    if fault:
        raise BadEvent(fault.cause)
    if len(lengths) > 256:
        raise BadEvent(13)
    columns, at = [], 0
    for length in lengths:
        if length & 1:
            columns.append(None)
        else:
            columns.append(values[at : at + length // 2])
            at += length // 2
    if at > len(values):
        raise BadEvent(12)
    return columns


class Message:
    """The fields of a message. `embedded` has the numbers of messages in it, with how each is read."""

    def __init__(self, data, span, event, embedded=(), single=()):
        self.data, self.within = data, {}
        self.fields, fault = fields(data, span)
        event.faults += [fault] if fault else []
        for number, read in dict(embedded).items():
            self.within[number] = [read(data, it, event) for it in self.spans(number)]
        event.twice |= any(len(self.spans(number)) > 1 for number in single)

    def spans(self, number):
        return [payload for at, kind, payload in self.fields if (at, kind) == (number, 2)]

    def text(self, number):
        return self.data[slice(*([(0, 0)] + self.spans(number))[-1])]

    def number(self, number):
        return ([0] + [payload for at, kind, payload in self.fields if (at, kind) == (number, 0)])[-1]

    def one(self, number):
        return (self.within[number] or [None])[0]


def row_change(data, span, event):
    it = Message(data, span, event, single=(1, 2))
    event.other |= any(number not in (1, 2) for number, _, _ in it.fields)
    event.rows += it.spans(1) + it.spans(2)
    return it


def row_event(data, span, event):
    return Message(data, span, event, {2: row_change})


def plain(data, span, event):
    return Message(data, span, event)


def field_event(data, span, event):
    return Message(data, span, event, {2: plain})


def vgtid(data, span, event):
    return Message(data, span, event, {1: plain})


class Event:
    """One event, or the fault that it has."""

    def __init__(self, data, span):
        self.faults, self.rows, self.twice, self.other = [], [], False, False
        it = Message(data, span, self, {5: row_event, 6: field_event, 7: vgtid}, (5, 6, 7))
        if self.faults:
            raise BadEvent(min(self.faults, key=lambda fault: fault.place).cause)
        if self.twice:
            raise BadEvent(22)
        self.type = it.number(1)
        if self.type not in TYPES:
            raise BadEvent(23, b" type %d" % self.type)
        row, columns, entries = it.one(5), it.one(6), it.one(7)
        self.gtid = it.text(3)
        table = {ROW: row, FIELD: columns}.get(self.type)
        self.table = table.text(1) if table else b""
        self.columns = [(one.text(1), one.number(2)) for one in columns.within[2]] if columns else []
        self.entries = [(one.text(1), one.text(2), one.text(3)) for one in entries.within[1]] if entries else []
        for text in self.used():
            try:
                text.decode()
            except UnicodeDecodeError:
                raise BadEvent(24) from None
        if self.other:
            raise BadEvent(25)
        for one in sorted(self.rows):
            read_row(data, one)
        self.changes = [
            [read_row(data, change.spans(number)[0]) if change.spans(number) else None for number in (1, 2)]
            for change in (row.within[2] if row else [])
        ]

    def used(self):
        if self.type == GTID:
            return [self.gtid]
        if self.type == FIELD:
            return [self.table] + [name for name, _ in self.columns]
        if self.type == VGTID:
            return [text for entry in self.entries for text in entry]
        return [self.table]
