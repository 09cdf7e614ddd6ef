"""Prints, for each object of a prelinked program, how many relocations it has and how many of them are left as conflict rows.

conflicts.py PROGRAM LIBRARY..: the prelinked files. A conflict row is a relocation of a library whose word in the program is not the one
in the library's file; the address of the row says which library's it is.
"""
import struct
import sys

NONE, LOAD = 0, 1


class File:
    def __init__(self, name):
        with open(name, 'rb') as file:
            self.name, data = name, file.read()
        phoff, shoff = struct.unpack_from('<QQ', data, 32)
        phnum, _, shnum, names = struct.unpack_from('<HHHH', data, 56)
        segments = [struct.unpack_from('<IIQQQQQQ', data, phoff + 56 * i) for i in range(phnum)]
        sections = [struct.unpack_from('<IIQQQQIIQQ', data, shoff + 64 * i) for i in range(shnum)]
        self.loads = [(s[3], s[3] + s[6]) for s in segments if s[0] == LOAD]
        start = sections[names][4]
        self.rows = {}
        for section in sections:
            name = data[start + section[0] : data.index(0, start + section[0])].decode()
            if section[1] == 4:
                table = data[section[4] : section[4] + section[5]]
                self.rows[name] = [row for row in struct.iter_unpack('<QQq', table) if row[1] & 0xffffffff != NONE or name == '.gnu.conflict']

    def relocations(self):
        return sum(len(rows) for name, rows in self.rows.items() if name != '.gnu.conflict')

    def holds(self, address):
        return any(start <= address < end for start, end in self.loads)


program, *libraries = [File(name) for name in sys.argv[1:]]
conflicts = [row[0] for row in program.rows['.gnu.conflict']]
print(f'{program.name}: {program.relocations()} relocations, all done in its file')
for library in libraries:
    left = sum(library.holds(address) for address in conflicts)
    print(f'{library.name}: {library.relocations()} relocations, {left} conflicts left')
