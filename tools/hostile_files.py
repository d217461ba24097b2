"""Small files that are made to cost: each asks a reader for far more work or memory than it has bytes.

`hostile_files()` gives, for each, a name, its bytes, and the bytes of memory that its data takes beyond
what any file of its size takes: docs/FORMATS.md, 'Limits', says how much an attribute takes.
"""

import struct

ATTRIBUTE_BYTES = 48
ROW_BYTES = 24


def uleb(number):
    out = bytearray()
    while True:
        low, number = number & 127, number >> 7
        out.append(low | (128 if number else 0))
        if not number:
            return bytes(out)


def elf_of(sections):
    """An ELF file of these named sections, with their bytes and names behind the header."""
    names = b"\0" + b"".join(name.encode() + b"\0" for name, _ in sections) + b".shstrtab\0"
    bodies = b"".join(data for _, data in sections) + names
    headers = [bytes(64)]
    name, place = 1, 64
    for title, data in sections:
        headers.append(struct.pack("<IIQQQQIIQQ", name, 1, 0, 0, place, len(data), 0, 0, 1, 0))
        name, place = name + len(title) + 1, place + len(data)
    headers.append(struct.pack("<IIQQQQIIQQ", name, 3, 0, 0, place, len(names), 0, 0, 1, 0))
    head = header_of(64 + len(bodies), len(headers), len(headers) - 1)
    return head + bodies + b"".join(headers)


def header_of(table, count, names):
    ident = b"\x7fELF" + bytes([2, 1, 1]) + bytes(9)
    return ident + struct.pack("<HHIQQQIHHHHHH", 2, 62, 1, 0, 0, table, 0, 64, 0, 0, 64, count, names)


def unit_of(entries, table=0):
    body = struct.pack("<HBBI", 5, 1, 8, table) + entries
    return struct.pack("<I", len(body)) + body


def declaration(code, tag, pairs, children=0):
    return uleb(code) + uleb(tag) + bytes([children]) + b"".join(uleb(n) + uleb(f) for n, f in pairs) + b"\0\0"


def line_program(tables, operations):
    fields = bytes([1, 1, 1, 0xfb, 14, 13]) + bytes([0, 1, 1, 1, 1, 0, 0, 0, 1, 0, 0, 1])
    rest = fields + tables
    body = struct.pack("<HBBI", 5, 8, 0, len(rest)) + rest + operations
    return struct.pack("<I", len(body)) + body


ONE_FILE = b"\1\1\x08\1/\0" + b"\2\1\x08\2\x0b\1a\0\0"
FLAG_PRESENT, SEC_OFFSET, LINE_STRP, DATA1, STRP = 0x19, 0x17, 0x1f, 0x0b, 0x0e
STMT_LIST, RANGES, NAME, EXTERNAL, ADDR_BASE = 0x10, 0x55, 0x03, 0x3f, 0x73


def many_names(headers, length):
    """Section 1 is the names' section; of each other section only the name counts, a part of one text."""
    text = b"a" * length + b"\0"
    table = [bytes(64), struct.pack("<IIQQQQIIQQ", 0, 3, 0, 0, 64 + 64 * headers, len(text), 0, 0, 1, 0)]
    table += [struct.pack("<I", number) + bytes(60) for number in range(2, headers)]
    return header_of(64, headers, 1) + b"".join(table) + text


def many_attributes(attributes, entries):
    """Entries of one byte, each with attributes that take no byte."""
    table = declaration(1, 0x34, [(EXTERNAL, FLAG_PRESENT)] * attributes) + b"\0"
    return elf_of([(".debug_abbrev", table), (".debug_info", unit_of(b"\1" * entries))])


def many_paths(paths, length):
    """Directories that all name places of one long text, in a header that is refused behind them."""
    formats = bytes([1]) + uleb(1) + uleb(LINE_STRP) + uleb(paths)
    places = b"".join(struct.pack("<I", place % length) for place in range(paths))
    refused = bytes([1]) + uleb(1) + uleb(DATA1) + uleb(0)
    table = declaration(1, 0x11, [(STMT_LIST, SEC_OFFSET)]) + b"\0"
    return elf_of([(".debug_abbrev", table), (".debug_info", unit_of(b"\1\0\0\0\0")),
                   (".debug_line", line_program(formats + places + refused, b"")),
                   (".debug_line_str", b"a" * length + b"\0")])


def many_declarations(count):
    """Each entry has the last of many declarations, so that each is found by a walk over all."""
    table = b"".join(declaration(code, 0x34, []) for code in range(1, count + 1)) + b"\0"
    return elf_of([(".debug_abbrev", table), (".debug_info", unit_of(uleb(count) * count))])


def many_units_on_a_table(units, count):
    """Units whose root has the last of many declarations of one table."""
    table = b"".join(declaration(code, 0x11, []) for code in range(1, count + 1)) + b"\0"
    return elf_of([(".debug_abbrev", table), (".debug_info", unit_of(uleb(count)) * units)])


def many_units_on_a_program(units, operations):
    """Units that name one line program, which makes no row."""
    table = declaration(1, 0x11, [(STMT_LIST, SEC_OFFSET)]) + b"\0"
    return elf_of([(".debug_abbrev", table), (".debug_info", unit_of(b"\1\0\0\0\0") * units),
                   (".debug_line", line_program(ONE_FILE, b"\6" * operations))])


def many_overlapping_programs(units, operations):
    """Units that each name a program of version 4 of their own, all up to the section's end: each header of 64 bytes is
    passed over by the programs before it. Its last three bytes are the first of its program: an operation of one byte, and
    an unknown one that passes over the length and the first byte of the version behind it. The second byte of that and the
    header's length are an unknown operation again, and three bytes of one operation each stand before its program."""
    fields = bytes([1, 1, 1, 0xfb, 14, 1]) + b"\0" + b"a\0\0\0\0" + b"\0"
    rest = fields + bytes(51 - 3 - len(fields)) + b"\x20" * 3
    length = 64 * units + operations
    headers = b"".join(struct.pack("<IHI", length - 64 * unit - 4, 4, len(rest)) + rest + b"\1\0\5" for unit in range(units))
    table = declaration(1, 0x11, [(STMT_LIST, SEC_OFFSET)]) + b"\0"
    entries = b"".join(unit_of(b"\1" + struct.pack("<I", 64 * unit)) for unit in range(units))
    return elf_of([(".debug_abbrev", table), (".debug_info", entries), (".debug_line", headers + b"\x20" * operations)])


def many_rows(operations):
    """A line program that makes a row of each byte."""
    table = declaration(1, 0x11, [(STMT_LIST, SEC_OFFSET)]) + b"\0"
    return elf_of([(".debug_abbrev", table), (".debug_info", unit_of(b"\1\0\0\0\0")),
                   (".debug_line", line_program(ONE_FILE, b"\x20" * operations))])


def many_lists(attributes, entries):
    """Attributes that name one range list, whose entries of two bytes set the base and give no range."""
    root = declaration(1, 0x11, [(ADDR_BASE, SEC_OFFSET)], children=1)
    table = root + declaration(2, 0x34, [(RANGES, SEC_OFFSET)]) + b"\0"
    entry = unit_of(b"\1\0\0\0\0" + b"\2\0\0\0\0" * attributes + b"\0")
    return elf_of([(".debug_abbrev", table), (".debug_info", entry), (".debug_addr", bytes(8)),
                   (".debug_rnglists", b"\1\0" * entries + b"\0")])


def many_texts(entries, length):
    """Entries that all name places of one long text; a last one is refused, so that nothing is printed."""
    table = declaration(1, 0x34, [(NAME, STRP)]) + b"\0"
    places = b"".join(b"\1" + struct.pack("<I", number % 7) for number in range(entries))
    refused = b"\1" + struct.pack("<I", length + 1)
    return elf_of([(".debug_abbrev", table), (".debug_info", unit_of(places + refused)),
                   (".debug_str", b"a" * length + b"\0")])


def hostile_files():
    return [
        ("2000 section names in one text", many_names(2000, 1 << 16), 0),
        ("2 million attributes without a byte", many_attributes(500, 4000), 500 * 4000 * ATTRIBUTE_BYTES),
        ("100000 paths in one text", many_paths(100000, 100000), 0),
        ("1500 entries behind 1500 declarations", many_declarations(1500), 0),
        ("1000 units behind 1000 declarations", many_units_on_a_table(1000, 1000), 0),
        ("4000 units on one line program", many_units_on_a_program(4000, 100000), 0),
        ("200 units on overlapping line programs", many_overlapping_programs(200, 20000), 200 * 20400 * ROW_BYTES),
        ("100000 rows", many_rows(100000), 0),
        ("20000 attributes on one list", many_lists(20000, 20000), 0),
        ("400 values in one text", many_texts(400, 10000), 0),
    ]
