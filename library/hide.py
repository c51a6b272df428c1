"""Makes local each name that an object file of ELF for x86-64 defines, but those that begin with flagops_: hide.py OBJECT.

A symbol table has its local symbols first, so the symbols change places, and what refers to them by their place is changed with them.
"""
import struct
import sys

SYMTAB, RELA, GROUP, ADDRESSES = 2, 4, 17, 0x6FFF4C03
NO_BITS, PLAIN = 8, {0, 1, 3, 7, 14, 15, 16, 0x70000001}
LOCAL, UNDEFINED, COMMON = 0, 0, 0xFFF2
SECTION, SYMBOL = struct.Struct("<IIQQQQIIQQ"), struct.Struct("<IBBHQQ")


def hidden(data):
    """The object with those names local."""
    assert data[:6] == b"\x7fELF\x02\x01", "this is no object file of 64 bits with the low byte first"
    table, = struct.unpack_from("<Q", data, 40)
    width, count, _ = struct.unpack_from("<HHH", data, 58)
    sections = [list(SECTION.unpack_from(data, table + width * i)) for i in range(count)]
    for section in sections:
        # It lists, by their places, the symbols whose addresses matter. Where a linker finds no such list, those of all do.
        if section[1] == ADDRESSES:
            section[1] = 1
    assert {section[1] for section in sections} <= PLAIN | {SYMTAB, RELA, GROUP, NO_BITS}, "a section of an unknown kind"
    at = [i for i, section in enumerate(sections) if section[1] == SYMTAB][0]
    begin, size, names = sections[at][4], sections[at][5], sections[sections[at][6]][4]
    symbols = [SYMBOL.unpack_from(data, begin + i) for i in range(0, size, SYMBOL.size)]
    for i, (name, info, other, section, value, length) in enumerate(symbols):
        if info >> 4 != LOCAL and section != UNDEFINED and not data.startswith(b"flagops_", names + name):
            assert section != COMMON, "a common symbol"
            symbols[i] = name, info & 15, other, section, value, length
    order = sorted(range(len(symbols)), key=lambda i: symbols[i][1] >> 4 != LOCAL)
    place = {old: new for new, old in enumerate(order)}
    for new, old in enumerate(order):
        SYMBOL.pack_into(data, begin + SYMBOL.size * new, *symbols[old])
    for i, section in enumerate(sections):
        if i == at:
            section[7] = sum(info >> 4 == LOCAL for _, info, *_ in symbols)
        elif section[1] == GROUP and section[6] == at:
            section[7] = place[section[7]]
        elif section[1] == RELA and section[6] == at:
            for entry in range(section[4], section[4] + section[5], 24):
                info, = struct.unpack_from("<Q", data, entry + 8)
                struct.pack_into("<Q", data, entry + 8, place[info >> 32] << 32 | info & 0xFFFFFFFF)
        SECTION.pack_into(data, table + width * i, *section)
    return data


if __name__ == "__main__":
    with open(sys.argv[1], "r+b") as file:
        made = hidden(bytearray(file.read()))
        file.seek(0)
        file.write(made)
