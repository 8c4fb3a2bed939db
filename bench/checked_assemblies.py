#!/usr/bin/env python3
"""Writes assemblies that break no rule: checked_assemblies.py SHAPE FOLDER [N]

SHAPE is one of these; N is how many of what it is made of:
  rows          one assembly of N rows (60,000) and nearly 4 MiB: types with superclasses, interfaces, fields, locals and
                methods, which call one another by references
  files         N assemblies (1,000); each but the first extends a class of the one before
  superclasses  N classes (10,000), each under the one before and with a constructor
  interfaces    N interfaces (10,000), each under the one before
  scopes        N references (10,000), each to a type inside the one before
  members       N methods (20,000) of one name in one class, each with a signature of its own
  branches      one method of 6 N instructions, of which N (10,000) are branches to places all over it, half of them backwards
  switch        one method with a switch of N targets (10,000)
The names of the files are printed, the one with the entry first.
"""
import os
import struct
import sys

CLI = 0x200
RVA = 0x2000
CONTENT = RVA + 72
MOST = 4 * 1024 * 1024

MODULE, TYPE_REF, TYPE_DEF, FIELD, METHOD, INTERFACE, MEMBER_REF = 0x00, 0x01, 0x02, 0x04, 0x06, 0x09, 0x0A
LOCALS, ASSEMBLY, ASSEMBLY_REF, NESTED = 0x11, 0x20, 0x23, 0x29
PARAM, TYPE_SPEC, MODULE_REF = 0x08, 0x1B, 0x1A

# the tables of the tags of a coded index, by its name
CODED = {
    "type": (2, [TYPE_DEF, TYPE_REF, TYPE_SPEC]),
    "parent": (3, [TYPE_DEF, TYPE_REF, MODULE_REF, METHOD, TYPE_SPEC]),
    "scope": (2, [MODULE, MODULE_REF, ASSEMBLY_REF, TYPE_REF]),
}
# the columns of a table: bytes, a heap, a table or a coded index
COLUMNS = {
    MODULE: [2, "strings", "guid", "guid", "guid"],
    TYPE_REF: ["scope", "strings", "strings"],
    TYPE_DEF: [4, "strings", "strings", "type", ("row", FIELD), ("row", METHOD)],
    FIELD: [2, "strings", "blob"],
    METHOD: [4, 2, 2, "strings", "blob", ("row", PARAM)],
    INTERFACE: [("row", TYPE_DEF), "type"],
    MEMBER_REF: ["parent", "strings", "blob"],
    LOCALS: ["blob"],
    ASSEMBLY: [4, 2, 2, 2, 2, 4, "blob", "strings", "strings"],
    ASSEMBLY_REF: [2, 2, 2, 2, 4, "blob", "strings", "strings", "blob"],
    NESTED: [("row", TYPE_DEF), ("row", TYPE_DEF)],
}
# the order that the standard wants of a table
SORTED = {INTERFACE: 0, NESTED: 0}

PUBLIC, NESTED_PUBLIC, INTERFACE_FLAGS = 0x00100001, 0x00100002, 0xA1
STATIC, INSTANCE, CONSTRUCTOR = 0x96, 0x86, 0x1886
RETURN = bytes([0x06, 0x2A])


def coded(kind, table, row):
    bits, tables = CODED[kind]
    return row << bits | tables.index(table)


def imported(at, kind):
    """The import of the runtime (II.25.3.1), which Mono's verifier wants: address table, import table, look-up, names."""
    table, look_up, hint, name = at + 8, at + 48, at + 56, at + 70
    entry = struct.pack("<II", hint, 0)
    return entry + struct.pack("<IIIII20x", look_up, 0, 0, name, at) + entry + struct.pack("<H", 0) + kind + b"\0" + b"mscoree.dll\0"


def compressed(number):
    if number < 0x80:
        return bytes([number])
    if number < 0x4000:
        return struct.pack(">H", 0x8000 | number)
    return struct.pack(">I", 0xC0000000 | number)


def token(element, table, row):
    """A class or a value type in a signature."""
    return bytes([element]) + compressed(coded("type", table, row))


class Heap:
    def __init__(self):
        self.bytes = bytearray(b"\0")
        self.places = {}

    def place(self, entry):
        if entry not in self.places:
            self.places[entry] = len(self.bytes)
            self.bytes += entry
        return self.places[entry]


class Assembly:
    def __init__(self, name):
        self.rows = {table: [] for table in COLUMNS}
        self.strings, self.blobs, self.content = Heap(), Heap(), bytearray()
        self.entry = 0
        self.name = name
        self.row(MODULE, 0, self.string(name), 1, 0, 0)
        self.row(ASSEMBLY, 0, 1, 0, 0, 0, 0, 0, self.string(name), 0)
        self.row(TYPE_DEF, 0, self.string("<Module>"), 0, 0, 1, 1)
        self.library = self.assembly("mscorlib", 4, 3, 1, 0)
        self.object = self.reference(ASSEMBLY_REF, self.library, "System", "Object")

    def string(self, text):
        return self.strings.place(text.encode() + b"\0") if text else 0

    def blob(self, entry):
        return self.blobs.place(compressed(len(entry)) + entry)

    def row(self, table, *columns):
        self.rows[table].append(columns)
        return len(self.rows[table])

    def assembly(self, name, *version):
        return self.row(ASSEMBLY_REF, *version, 0, 0, self.string(name), 0, 0)

    def reference(self, table, row, namespace, name):
        return self.row(TYPE_REF, coded("scope", table, row), self.string(name), self.string(namespace))

    def type(self, flags, name, extends):
        """A type; `extends` is a coded superclass, or 0."""
        fields, methods = len(self.rows[FIELD]) + 1, len(self.rows[METHOD]) + 1
        return self.row(TYPE_DEF, flags, self.string(name), 0, extends, fields, methods)

    def under_object(self, name):
        return self.type(PUBLIC, name, coded("type", TYPE_REF, self.object))

    def field(self, flags, name, signature):
        return self.row(FIELD, flags, self.string(name), self.blob(signature))

    def method(self, flags, name, signature, body=RETURN):
        place = len(self.content)
        self.content += body + bytes(-len(body) % 4)
        return self.row(METHOD, CONTENT + place, 0, flags, self.string(name), self.blob(signature), 1)

    def member(self, table, row, name, signature):
        return self.row(MEMBER_REF, coded("parent", table, row), self.string(name), self.blob(signature))

    def main(self):
        """A class with the entry."""
        self.under_object("Program")
        self.entry = METHOD << 24 | self.method(STATIC, "Main", bytes([0, 0, 1]))

    def count(self):
        return sum(len(rows) for rows in self.rows.values())

    def width(self, column):
        if isinstance(column, int):
            return column
        if column == "strings":
            return 2 if len(self.strings.bytes) < 65536 else 4
        if column == "blob":
            return 2 if len(self.blobs.bytes) < 65536 else 4
        if column == "guid":
            return 2
        if column[0] == "row":
            return 2 if len(self.rows.get(column[1], [])) < 65536 else 4
        bits, tables = CODED[column]
        most = max(len(self.rows.get(table, [])) for table in tables)
        return 2 if most < 1 << (16 - bits) else 4

    def tables(self):
        heaps = (len(self.strings.bytes) >= 65536) | (len(self.blobs.bytes) >= 65536) << 2
        there = [table for table in sorted(COLUMNS) if self.rows[table]]
        valid = sum(1 << table for table in there)
        out = bytearray(struct.pack("<IBBBBQQ", 0, 2, 0, heaps, 1, valid, 1 << INTERFACE | 1 << NESTED))
        for table in there:
            out += struct.pack("<I", len(self.rows[table]))
        for table in there:
            layout = struct.Struct("<" + "".join("H" if self.width(c) == 2 else "I" for c in COLUMNS[table]))
            rows = self.rows[table]
            if table in SORTED:
                rows = sorted(rows, key=lambda row: row[SORTED[table]])
            for row in rows:
                out += layout.pack(*row)
        return bytes(out) + bytes(-len(out) % 4)

    def metadata(self):
        padded = [bytes(heap.bytes) + bytes(-len(heap.bytes) % 4) for heap in (self.strings, self.blobs)]
        named = [(b"#~\0\0", self.tables()), (b"#Strings\0\0\0\0", padded[0]), (b"#GUID\0\0\0", bytes(range(16))), (b"#Blob\0\0\0", padded[1])]
        root = struct.pack("<IHHII", 0x424A5342, 1, 1, 0, 12) + b"v4.0.30319\0\0" + struct.pack("<HH", 0, len(named))
        at = len(root) + sum(8 + len(name) for name, _ in named)
        for name, data in named:
            root += struct.pack("<II", at, len(data)) + name
            at += len(data)
        return root + b"".join(data for _, data in named)

    def file(self):
        region = self.metadata()
        kind = b"_CorExeMain" if self.entry else b"_CorDllMain"
        imports = imported(CONTENT + len(self.content) + len(region), kind)
        size = 72 + len(self.content) + len(region) + len(imports)
        raw = (size + 511) // 512 * 512
        file = bytearray(CLI)
        struct.pack_into("<2s58xI", file, 0, b"MZ", 64)
        struct.pack_into("<4sHHIIIHH", file, 64, b"PE\0\0", 0x14C, 1, 0, 0, 0, 224, 0x102 if self.entry else 0x2102)
        struct.pack_into("<HBBIIIIIIIII", file, 88, 0x10B, 8, 0, raw, 0, 0, 0, RVA, 0, 0x400000, 0x2000, 0x200)
        struct.pack_into("<HHHHHHIIIIHHIIIIII", file, 128, 4, 0, 0, 0, 4, 0, 0, RVA + (size + 0x1FFF) // 0x2000 * 0x2000, CLI, 0, 3, 0x8540, 0x100000, 0x1000, 0x100000, 0x1000, 0, 16)
        at = CONTENT + len(self.content) + len(region)
        struct.pack_into("<II", file, 88 + 104, at + 8, 40)
        struct.pack_into("<II", file, 88 + 192, at, 8)
        struct.pack_into("<II", file, 88 + 208, RVA, 72)
        struct.pack_into("<8sIIII12xI", file, 88 + 224, b".text", size, RVA, raw, CLI, 0x60000020)
        file += struct.pack("<IHHIIII", 72, 2, 5, CONTENT + len(self.content), len(region), 1, self.entry) + bytes(48)
        return bytes(file + self.content + region + imports + bytes(raw - size))


def call(reference):
    """A body that calls a member, with a signature of locals."""
    code = bytes([0x28]) + struct.pack("<I", MEMBER_REF << 24 | reference) + bytes([0x2A])
    return bytes([len(code) << 2 | 2]) + code


def call_with_locals(reference, locals_):
    code = bytes([0x28]) + struct.pack("<I", MEMBER_REF << 24 | reference) + bytes([0x2A])
    return struct.pack("<HHII", 0x3013, 8, len(code), LOCALS << 24 | locals_) + code


def make_rows(rows):
    """Fourteen rows for each class: an interface and the class that implements it, a reference to each, a field, locals, three
    references to methods, and four methods."""
    part = rows // 14
    # the names of types, interfaces, fields and three methods of each fill the file
    short = len(rows_assembly(part, "").file())
    return [rows_assembly(part, "x" * max(0, (MOST - short - 4096) // (6 * part)))]


def rows_assembly(part, long):
    a = Assembly("Rows")
    own = a.assembly("Rows", 1, 0, 0, 0)
    a.main()
    interfaces = [f"I{k:06}{long}" for k in range(part)]
    types = [f"T{k:06}{long}" for k in range(part)]
    interface_refs = [a.reference(ASSEMBLY_REF, own, "", name) for name in interfaces]
    type_refs = [a.reference(ASSEMBLY_REF, own, "", name) for name in types]
    void = bytes([0, 0, 1])
    for k in range(part):
        a.type(INTERFACE_FLAGS, interfaces[k], 0)
    for k in range(part):
        above = coded("type", TYPE_REF, type_refs[k - 1] if k % 16 else a.object)
        row = a.type(PUBLIC, types[k], above)
        a.row(INTERFACE, row, coded("type", TYPE_REF, interface_refs[k]))
        a.field(STATIC & 0x17, f"f{k:06}{long}", bytes([6]) + token(0x12, TYPE_REF, type_refs[(k * 7) % part]))
        locals_ = a.row(LOCALS, a.blob(bytes([7, 2, 8]) + token(0x12, TYPE_REF, type_refs[(k * 11) % part])))
        refs = [a.member(TYPE_REF, type_refs[(k * 13) % part], f"m{n}{(k * 13) % part:06}{long}", void) for n in range(3)]
        for n in range(3):
            a.method(STATIC, f"m{n}{k:06}{long}", void, call(refs[n]))
        a.method(STATIC, f"n{k:06}", bytes([0, 1, 1]) + token(0x12, TYPE_REF, type_refs[k]), call_with_locals(refs[0], locals_))
    return a


def make_files(count):
    made = []
    for k in range(count):
        a = Assembly(f"File{k:04}")
        if k == 0:
            a.main()
            a.under_object("Class0000")
        else:
            before = a.assembly(f"File{k - 1:04}", 1, 0, 0, 0)
            above = a.reference(ASSEMBLY_REF, before, "", f"Class{k - 1:04}")
            a.type(PUBLIC, f"Class{k:04}", coded("type", TYPE_REF, above))
            a.field(0x06, "before", bytes([6]) + token(0x12, TYPE_REF, above))
        made.append(a)
    return made


def make_superclasses(count):
    a = Assembly("Superclasses")
    a.main()
    above = coded("type", TYPE_REF, a.object)
    for k in range(count):
        row = a.type(PUBLIC, f"Class{k:06}", above)
        a.method(CONSTRUCTOR, ".ctor", bytes([0x20, 0, 1]))
        above = coded("type", TYPE_DEF, row)
    return [a]


def make_interfaces(count):
    a = Assembly("Interfaces")
    a.main()
    for k in range(count):
        row = a.type(INTERFACE_FLAGS, f"I{k:06}", 0)
        if k > 0:
            a.row(INTERFACE, row, coded("type", TYPE_DEF, row - 1))
    return [a]


def make_scopes(count):
    inner = Assembly("Inner")
    for k in range(count):
        row = inner.type(NESTED_PUBLIC if k else PUBLIC, f"Type{k:06}", coded("type", TYPE_REF, inner.object))
        if k > 0:
            inner.row(NESTED, row, row - 1)
    outer = Assembly("Outer")
    outer.main()
    scope = (ASSEMBLY_REF, outer.assembly("Inner", 1, 0, 0, 0))
    for k in range(count):
        scope = (TYPE_REF, outer.reference(*scope, "", f"Type{k:06}"))
        outer.field(0x16, f"field{k:06}", bytes([6]) + token(0x12, *scope))
    return [outer, inner]


def make_members(count):
    a = Assembly("Members")
    a.main()
    a.under_object("Crowded")
    for k in range(count):
        # a parameter for each bit of the number
        parameters = bytes(0x08 if k >> bit & 1 else 0x0A for bit in range(15))
        a.method(STATIC, "Same", bytes([0, 15, 1]) + parameters)
    return [a]


def fat_body(code, most, locals_):
    """A body with a header of twelve bytes, which says its depth and its locals."""
    return struct.pack("<HHII", 0x3013, most, len(code), LOCALS << 24 | locals_) + code


def with_method(name, code, most):
    """An assembly with one more method, which takes and gives an int32 and has a local of that type."""
    a = Assembly(name)
    a.main()
    a.under_object("Code")
    locals_ = a.row(LOCALS, a.blob(bytes([7, 1, 8])))
    a.method(STATIC, "Run", bytes([0, 1, 8, 8]), fat_body(code, most, locals_))
    return [a]


def make_branches(count):
    """So often: one is added to the local, and a branch where it isn't 0."""
    part = 10
    code = bytearray()
    for k in range(count):
        # ldloc.0, ldc.i4.1, add, stloc.0, ldloc.0, brtrue
        code += bytes([0x06, 0x17, 0x58, 0x0A, 0x06, 0x3A]) + struct.pack("<i", (k * 7919 % count - k - 1) * part)
    return with_method("Branches", bytes(code) + RETURN, 2)


def make_switch(count):
    """Each target gives its number."""
    part = 6
    code = bytes([0x02, 0x45]) + struct.pack("<I", count) + b"".join(struct.pack("<i", 2 + part * k) for k in range(count))
    cases = b"".join(bytes([0x20]) + struct.pack("<i", k) + bytes([0x2A]) for k in range(count))
    return with_method("Switch", code + RETURN + cases, 1)


SHAPES = {
    "rows": (make_rows, 60000),
    "files": (make_files, 1000),
    "superclasses": (make_superclasses, 10000),
    "interfaces": (make_interfaces, 10000),
    "scopes": (make_scopes, 10000),
    "members": (make_members, 20000),
    "branches": (make_branches, 10000),
    "switch": (make_switch, 10000),
}


def main():
    if len(sys.argv) not in (3, 4) or sys.argv[1] not in SHAPES:
        sys.exit(__doc__)
    make, count = SHAPES[sys.argv[1]]
    if len(sys.argv) == 4:
        count = int(sys.argv[3])
    for a in make(count):
        path = os.path.join(sys.argv[2], a.name + (".exe" if a.entry else ".dll"))
        with open(path, "wb") as out:
            out.write(a.file())
        print(path)


if __name__ == "__main__":
    main()
