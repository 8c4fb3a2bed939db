#!/usr/bin/env python3
"""Writes an assembly of many metadata rows: large_assembly.py FILE ROWS

A third of the rows each are types, fields and methods, each with a name of its own of some 40 characters.
"""
import struct
import sys

RVA = 0x2000
CLI = 0x200


def strings(names):
    heap = bytearray(b"\0")
    places = []
    for name in names:
        places.append(len(heap))
        heap += name.encode() + b"\0"
    return bytes(heap) + b"\0" * (-len(heap) % 4), places


def metadata(rows):
    third = rows // 3
    types = [f"TypeOfTheLargeAssemblyWithTheNumber{k:06}" for k in range(third)]
    fields = [f"fieldOfTheLargeAssemblyWithTheNumber{k:06}" for k in range(third)]
    methods = [f"MethodOfTheLargeAssemblyWithTheNumber{k:06}" for k in range(third)]
    heap, places = strings(["Large", "mscorlib", "Object", "System"] + types + fields + methods)
    large, mscorlib, object_, system = places[:4]
    types, fields, methods = places[4:4 + third], places[4 + third:4 + 2 * third], places[4 + 2 * third:]
    blobs = bytes([0, 2, 6, 8, 3, 0, 0, 1])
    field_sig, method_sig = 1, 4
    # wide `#Strings`, narrow `#GUID` and `#Blob`; every table has fewer than 65,536 rows, and coded indexes are
    # narrow below 2 ^ 14 rows of TypeDef and 2 ^ 16 of the others
    wide_type = third + 1 >= 1 << 14
    type_token = "<I" if wide_type else "<H"
    body = bytearray()
    body += struct.pack("<HIHHH", 0, large, 1, 0, 0)
    body += struct.pack("<HII", 1 << 2 | 2, object_, system)
    body += struct.pack("<III", 0, large, 0) + struct.pack(type_token, 0) + struct.pack("<HH", 1, 1)
    for k in range(third):
        body += struct.pack("<III", 1, types[k], 0) + struct.pack(type_token, 1 << 2 | 1) + struct.pack("<HH", k + 1, k + 1)
    for k in range(third):
        body += struct.pack("<HIH", 0x16, fields[k], field_sig)
    for k in range(third):
        body += struct.pack("<IHHIHH", 0, 0x1000, 0x16, methods[k], method_sig, 1)
    body += struct.pack("<IHHHHIHII", 0, 1, 0, 0, 0, 0, 0, large, 0)
    body += struct.pack("<HHHHIHIIH", 4, 3, 1, 0, 0, 0, mscorlib, 0, 0)
    counts = [1, 1, third + 1, third, third, 1, 1]
    valid = 1 << 0 | 1 << 1 | 1 << 2 | 1 << 4 | 1 << 6 | 1 << 0x20 | 1 << 0x23
    stream = struct.pack("<IBBBBQQ", 0, 2, 0, 1, 1, valid, 0) + b"".join(struct.pack("<I", c) for c in counts) + bytes(body)
    stream += b"\0" * (-len(stream) % 4)
    named = [(b"#~\0\0", stream), (b"#Strings\0\0\0\0", heap), (b"#GUID\0\0\0", bytes(range(16))), (b"#Blob\0\0\0", blobs)]
    root = struct.pack("<IHHII", 0x424A5342, 1, 1, 0, 4) + b"v4\0\0" + struct.pack("<HH", 0, len(named))
    at = len(root) + sum(8 + len(name) for name, _ in named)
    for name, data in named:
        root += struct.pack("<II", at, len(data)) + name
        at += len(data)
    return root + b"".join(data for _, data in named)


def assembly(rows):
    region = metadata(rows)
    size = 72 + len(region)
    file = bytearray(CLI)
    struct.pack_into("<2s58xI", file, 0, b"MZ", 64)
    struct.pack_into("<4sHHIIIHH", file, 64, b"PE\0\0", 0x14C, 1, 0, 0, 0, 224, 0x2102)
    struct.pack_into("<H", file, 88, 0x10B)
    struct.pack_into("<II", file, 88 + 208, RVA, 72)
    struct.pack_into("<8sIIII", file, 88 + 224, b".text", size, RVA, size, CLI)
    file += struct.pack("<IHHIIII", 72, 2, 5, RVA + 72, len(region), 1, 0) + bytes(48)
    return bytes(file) + region


if __name__ == "__main__":
    with open(sys.argv[1], "wb") as out:
        out.write(assembly(int(sys.argv[2])))
