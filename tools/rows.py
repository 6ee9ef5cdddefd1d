"""What stands in the rows of a job and of an answer, by version. The tools in Python write and read rows by these tables alone.

A row is its fields in order, each a name and what stands there: a letter of Python's struct, big-endian. `#` before a name: how many the
list of that name has. The list itself stands where its name does: of rows, by the row's name, of floats (f), or bytes (s).
"""
import struct

VERSION_AT = 4  # in both records; before it stands the length of what follows


def row(fields):
    return [tuple(field.split(":")) for field in fields.split()]


JOBS = {
    1: {
        "job": row("mode:B #fonts:B fonts:font #dx:H dx:f #dy:H dy:f #rotate:H rotate:f #chunks:B chunks:chunk"),
        "font": row("units:H ascent:h descent:h xheight:H underline:h thickness:H through:h subscript:h superscript:h"),
        "chunk": row("flags:B x:f y:f anchor:B flow:B #text:H text:s #spans:B spans:span"),
        "span": row("start:H end:H font:B size:f letter:f word:f fixed:B length:f adjust:B dominant:B alignment:B decorations:B "
                    "#shifts:B shifts:shift #glyphs:H glyphs:glyph"),
        "shift": row("kind:B number:f"),
        "glyph": row("id:I index:H length:B dx:i dy:i width:i font:B tag:4s orientation:B"),
    },
}
ANSWERS = {
    1: {
        "answer": row("#chunks:B chunks:chunk"),
        "chunk": row("#clusters:H #spans:B pen_x:f pen_y:f clusters:cluster spans:span"),
        "cluster": row("index:H flags:B width:f advance:f spacing:f ascent:f descent:f nudge:f scale:f x:f y:f angle:f "
                       "#glyphs:H glyphs:glyph"),
        "glyph": row("id:I font:B x:f y:f"),
        "span": row("index:B x:f y:f baseline:f thickness:f under:f over:f through:f #runs:H runs:run"),
        "run": row("first:H width:f"),
    },
}


def record(version, rows, length=None):
    """Rows with the record's length and version before them."""
    return struct.pack(">IB", len(rows) + 1 if length is None else length, version) + rows


# ---- writing

def written(table, name, values):
    """A row's bytes. A value may be given as its bytes, a list as that of its rows; a count is that of the list if none is given."""
    out = b""
    for field, form in table[name]:
        value = values.get(field)
        if value is None:
            value = len(values[field[1:]])
        if isinstance(value, bytes):
            out += value
        elif isinstance(value, (list, tuple)):
            out += b"".join(value)
        else:
            out += struct.pack(">" + form, value)
    return out


# ---- reading

class Reader:
    def __init__(self, table, record):
        self.table, self.record, self.at = table, record, VERSION_AT + 1

    def number(self, form):
        value, = struct.unpack_from(">" + form, self.record, self.at)
        self.at += struct.calcsize(">" + form)
        return value

    def items(self, count, form):
        if form == "s":
            return self.number(f"{count}s")
        return [self.row(form) if form in self.table else self.number(form) for _ in range(count)]

    def row(self, name):
        values = {}
        for field, form in self.table[name]:
            listed = "#" + field in values
            values[field] = self.items(values["#" + field], form) if listed else self.number(form)
        return values


def read(tables, name, record):
    """A record's rows as dictionaries, by its version byte."""
    reader = Reader(tables[record[VERSION_AT]], record)
    values = reader.row(name)
    assert struct.unpack_from(">I", record)[0] == len(record) - VERSION_AT == reader.at - VERSION_AT
    return values


def read_job(record):
    return read(JOBS, "job", record)


def read_answer(record):
    """An answer's chunks."""
    return read(ANSWERS, "answer", record)["chunks"]
