"""Executables for measuring, of segments and one symbol table (System V gABI, "Object Files")."""
import struct

HEADER, PROGRAM_HEADER = 52, 32
EXECUTE, WRITE, READ = 1, 2, 4
GLOBAL_FUNCTION, LOCAL_OBJECT = 0x12, 1


class Segment:
    """Bytes of the file at an address, and so many in memory."""

    def __init__(self, address, flags, content, memory=None):
        self.address, self.flags, self.content = address, flags, content
        self.memory = len(content) if memory is None else memory


def symbol(name, value, info=GLOBAL_FUNCTION, size=0, section=0xFFF1):
    """A symbol whose name begins at an offset of the string table."""
    return struct.pack(">IIIBBH", name, value, size, info, 0, section)


def executable(entry, segments, symbols, names):
    """The bytes of a file. `symbols` are all but the first, `names` the string table."""
    out = bytearray(HEADER + PROGRAM_HEADER * len(segments))
    headers = []

    def append(content):
        out.extend(bytes(-len(out) % 4))
        offset = len(out)
        out.extend(content)
        return offset

    for s in segments:
        offset = append(s.content)
        headers.append(struct.pack(">8I", 1, offset, s.address, s.address, len(s.content), s.memory, s.flags, 4))
    table = bytes(16) + symbols
    at_names, at_table = append(names), append(table)
    sections = bytes(40) + struct.pack(">10I", 0, 2, 0, 0, at_table, len(table), 2, 1, 4, 16)
    sections += struct.pack(">10I", 0, 3, 0, 0, at_names, len(names), 0, 0, 1, 0)
    start = append(sections)
    ident = bytes([0x7F, 0x45, 0x4C, 0x46, 1, 2, 1]) + bytes(9)
    out[:HEADER] = ident + struct.pack(">HHIIIIIHHHHHH", 2, 20, 1, entry, HEADER, start, 0, HEADER, PROGRAM_HEADER, len(segments), 40, 3, 0)
    out[HEADER : HEADER + PROGRAM_HEADER * len(segments)] = b"".join(headers)
    return bytes(out)
