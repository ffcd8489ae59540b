"""A plain reader of sensor tables, written from docs/MANUAL.md."""
from plain.words import Refused, limit, number_of


def records(text):
    """The records of comma separated values: lists of fields. Empty lines are no records."""
    text = text.removeprefix(b"\xef\xbb\xbf")
    found, at = [], 0
    while True:
        while at < len(text) and text[at] in b"\r\n":
            at += 1
        if at >= len(text):
            return found
        fields, at = record(text, at)
        found.append(fields)


def record(text, at):
    """The fields of the record that begins here, and the place after it."""
    fields = []
    while True:
        field, at = (quoted if text[at : at + 1] == b'"' else plain)(text, at)
        fields.append(field)
        if text[at : at + 1] != b",":
            return fields, at + (2 if text[at : at + 2] == b"\r\n" else 1)
        at += 1


def plain(text, at):
    end = at
    while end < len(text) and text[end] not in b",\r\n":
        end += 1
    return text[at:end], end


def quoted(text, at):
    """A field that begins with a quote: two quotes are one of its own, and what follows its last one belongs to it."""
    field, at = b"", at + 1
    while at < len(text):
        if text[at] != 0x22:
            field += text[at : at + 1]
            at += 1
        elif text[at + 1 : at + 2] == b'"':
            field += b'"'
            at += 2
        else:
            rest, at = plain(text, at + 1)
            return field + rest, at
    return field, at


def refuse(row, cause):
    raise Refused(7, f"sensors row {row}: {cause}")


def read(text, sensors):
    """The rows, each the vectors of the sensors (name, length) by name."""
    found = records(text)
    header = [b"k"] + [f"{name}.{j}".encode() for name, length in sensors for j in range(length)]
    if not found or found[0] != header:
        refuse(0, "S1 BadHeader")
    rows = []
    for number, fields in enumerate(found[1:], 1):
        if number > 10_000:
            raise limit("reactions", number, 10_000)
        if len(fields) != len(header):
            refuse(number, f"S2 BadCount {len(fields)} {len(header)}")
        values = [number_of(field) for field in fields]
        if values[0] != number - 1:
            refuse(number, "S3 BadIndex")
        if None in values:
            refuse(number, f"S4 BadNumber {values.index(None)}")
        row, at = {}, 1
        for name, length in sensors:
            row[name], at = values[at : at + length], at + length
        rows.append(row)
    return rows
