"""ELF images of class 64, the least byte first, that the scripts of bench/ and tools/ make."""
import os
import struct

PROGBITS, SYMTAB, STRTAB = 1, 2, 3
RELOCATABLE, SHARED = 1, 3
TEXT = (PROGBITS, 6, bytes(16), 0, 0, 16, 0)


def section(kind, offset, size, link=0, info=0, align=1, entry=0, flags=0, name=0):
    """A section header."""
    return struct.pack("<IIQQQQIIQQ", name, kind, flags, 0, offset, size, link, info, align, entry)


def assembled(content, headers, names, of=RELOCATABLE):
    """An image whose contents follow its ELF header, and are followed by its section headers.
    Counts that do not fit the ELF header are in section 0 as it is handed over."""
    count, shoff = len(headers), 64 + len(content)
    counts = (0, 0xFFFF) if count >= 0xFF00 else (count, names)
    ident = b"\x7fELF\x02\x01\x01" + bytes(9)
    front = struct.pack("<HHIQQQIHHHHHH", of, 62, 1, 0, 0, shoff, 0, 64, 0, 0, 64, *counts)
    return ident + front + content + b"".join(headers)


def image(sections, names=(), of=SHARED):
    """An image with these sections after section 0: type, flags, body, link, info, alignment and
    size of an entry. A last one holds their names, which are empty where none are given."""
    count = len(sections) + 2
    first = section(0, 0, count, count - 1, align=0) if count >= 0xFF00 else bytes(64)
    content, headers = bytearray(), [first]
    places, strings = names_of([*names, b".shstrtab"] if names else [b""] * (count - 1))
    sections = sections + [(STRTAB, 0, strings, 0, 0, 1, 0)]
    for name, (kind, flags, body, link, info, align, entry) in zip(places, sections):
        content += bytes(-(64 + len(content)) % align)
        place = 64 + len(content)
        headers.append(section(kind, place, len(body), link, info, align, entry, flags, name))
        content += body
    content += bytes(-len(content) % 8)
    return assembled(bytes(content), headers, count - 1, of)


def names_of(names):
    """The place of each name in a string table, and the table."""
    places, strings = [], bytearray(b"\0")
    for name in names:
        places.append(len(strings) if name else 0)
        strings += name + b"\0" if name else b""
    return places, bytes(strings)


def tables(names):
    """A table of a global function of each name, and its string table."""
    strings, symbols, at = [b"\0"], [bytes(24)], 1
    for i, name in enumerate(names):
        symbols.append(struct.pack("<IBBHQQ", at, 0x12, 0, 1, 0x401000 + 16 * i, 16))
        strings.append(name + b"\0")
        at += len(name) + 1
    return b"".join(symbols), b"".join(strings)


def many_symbols(count):
    symbols, strings = tables(b"symbol_%x" % i for i in range(count))
    return image([TEXT, (SYMTAB, 0, symbols, 3, 1, 8, 24), (STRTAB, 0, strings, 0, 0, 1, 0)])


def many_sections(count):
    return image([(PROGBITS, 2, bytes(8), 0, 0, 8, 0)] * count)


def object_of(functions, symbols, size):
    """A relocatable object as compilers make them: so many functions of so many bytes, each with a
    section of its own, and so many symbols in all, one a function or more. Linters find nothing."""
    names = [b"function_%x" % i for i in range(symbols)]
    places, strings = names_of(names)
    table = [bytes(24)]
    for i, at in enumerate(places):
        table.append(struct.pack("<IBBHQQ", at, 0x12, 0, i % functions + 1, 0, size))
    sections = [(PROGBITS, 6, bytes(size), 0, 0, 16, 0)] * functions
    sections.append((SYMTAB, 0, b"".join(table), functions + 2, 1, 8, 24))
    sections.append((STRTAB, 0, strings, 0, 0, 1, 0))
    named = [b".text." + name for name in names[:functions]]
    return image(sections, [*named, b".symtab", b".strtab"], RELOCATABLE)


def archive(members):
    """An archive of these files, of a name each."""
    names, out = bytearray(), []
    for name, content in members:
        field = name + b"/"
        if len(field) > 16:
            field = b"/%d" % len(names)
            names += name + b"/\n"
        out.append(member(field, content))
    return b"!<arch>\n" + (member(b"//", bytes(names)) if names else b"") + b"".join(out)


def member(field, content):
    """A member of an archive, after its header."""
    header = b"%-16s%-12d%-6d%-6d%-8o%-10d`\n" % (field, 0, 0, 0, 0o644, len(content))
    return header + content + b"\n" * (len(content) % 2)


def made(folder, name, content):
    path = os.path.join(folder, name)
    with open(path, "wb") as f:
        f.write(content)
    return path


def two_symbols():
    """A string table at 64 and two symbols at 72."""
    symbol = struct.pack("<IBBHQQ", 1, 0x12, 0, 0xFFF1, 0x1000, 4)
    content = b"\0a\0" + bytes(5) + bytes(24) + symbol
    return assembled(content, [bytes(64), section(3, 64, 3), section(2, 72, 48, 1, 1, 8, 24)], 1)


def names_alone():
    """A string table and two symbols, where no section links to the string table."""
    held = bytearray(two_symbols())
    held[120 + 2 * 64 + 40] = 0
    return bytes(held)


def five_sections():
    """Five sections of eight bytes from 64 on."""
    content = b"".join(bytes([i]) * 8 for i in range(1, 6))
    headers = [section(1, 56 + 8 * i, 8, align=8) for i in range(1, 6)]
    return assembled(content, [bytes(64), *headers], 0)


def names_of_one_hash():
    """Three sections whose names differ in their last byte alone, and have the same hash
    (crates/strtab_shared)."""
    prefix = (0x243F6A8885A308D3 + 16).to_bytes(8, "little") + b" section"[:7]
    names = b"\0" + b"".join(prefix + b"%d\0" % i for i in range(3))
    content = bytes(8) + names + bytes(-len(names) % 8)
    headers = [bytes(64)] + [section(1, 64, 8) for i in range(3)] + [section(3, 72, len(names))]
    places = [0, 1, 18, 35, 0]
    named = [struct.pack("<I", at) + header[4:] for at, header in zip(places, headers)]
    return assembled(content, named, 4)


def own_section():
    """A section .own of eight bytes, and the table of the names."""
    names = b"\0.own\0.names\0"
    headers = [bytes(64), section(1, 64, 8), section(3, 72, len(names))]
    named = [struct.pack("<I", at) + header[4:] for at, header in zip((0, 1, 6), headers)]
    return assembled(bytes(8) + names + bytes(-len(names) % 8), named, 2)


def each_table():
    """Symbols with extended indexes, a group, relocations, notes, a hash section and versions: each
    kind of table once."""
    two = ((1, 0x12, 0, 0xFFFF, 16, 4), (3, 0x12, 0, 1, 8, 4))
    symbols = bytes(24) + b"".join(struct.pack("<IBBHQQ", *it) for it in two)
    hashes = struct.pack("<IIII", 1, 1, 1, 0) + bytes(8) + struct.pack("<III", 1, 2, 3)
    verdef = struct.pack("<HHHHIII", 1, 0, 1, 1, 0, 20, 0) + struct.pack("<II", 1, 0)
    verneed = struct.pack("<HHIII", 1, 1, 1, 16, 0) + struct.pack("<IHHII", 0, 0, 2, 3, 0)
    tables = [
        (1, bytes(32), 0, 0, 4, 0),
        (3, b"\0a\0b\0", 0, 0, 1, 0),
        (11, symbols, 2, 1, 8, 24),
        (18, struct.pack("<III", 0, 1, 0), 3, 0, 4, 4),
        (17, struct.pack("<II", 1, 1), 3, 1, 4, 4),
        (4, struct.pack("<QQq", 0, (1 << 32) | 1, 4), 3, 1, 8, 24),
        (7, struct.pack("<III", 4, 4, 1) + b"GNU\0" + bytes(4), 0, 0, 4, 0),
        (5, struct.pack("<IIIIII", 1, 3, 1, 0, 2, 0), 3, 0, 8, 4),
        (0x6FFFFFF6, hashes, 3, 0, 8, 0),
        (0x6FFFFFFF, struct.pack("<HHH", 0, 1, 2), 3, 0, 2, 2),
        (0x6FFFFFFD, verdef, 2, 1, 4, 0),
        (0x6FFFFFFE, verneed, 2, 1, 4, 0),
        (6, struct.pack("<QQQQ", 1, 1, 0, 0), 2, 0, 8, 16),
    ]
    content, headers = b"", [bytes(64)]
    for stype, held, link, info, align, entsize in tables:
        content += bytes(-(64 + len(content)) % align)
        headers.append(section(stype, 64 + len(content), len(held), link, info, align, entsize))
        content += held
    content += bytes(-len(content) % 8)
    return assembled(content, headers, 2)
