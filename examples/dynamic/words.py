"""Compares the text of `--load` in the file `image` with the memory of the program under this machine's own loader. gdb runs this
in the folder of the program and its libraries, with the program as its file.

Both place the libraries at addresses of their own. So a word is the same where it has the same value, or where the one value is an
address of an object as prelink placed it, and the other is the address of the same byte of that object as the loader placed it.
Bytes of link tables count as 0, as prelink prints them. LD_BIND_NOW has the loader bind each jump slot before the entry, as prelink
does; else it would leave them for later, with two words of its own in each global offset table.
"""

import os
import re
import struct

import gdb

LOAD, DYNAMIC = 1, 2
STRTAB, RELA, HASH, DYNSYM = 3, 4, 5, 11
GNU_HASH, VERDEF, VERNEED, VERSYM = 0x6FFFFFF6, 0x6FFFFFFD, 0x6FFFFFFE, 0x6FFFFFFF
TABLES = {STRTAB, RELA, HASH, DYNSYM, GNU_HASH, VERDEF, VERNEED, VERSYM}
ALLOC = 2
PAGE = 4096


class Elf:
    """Of a file: the entry, and as ranges of addresses its PT_LOADs and the link tables in its memory."""

    def __init__(self, name):
        with open(name, 'rb') as file:
            data = file.read()
        self.entry, phoff, shoff = struct.unpack_from('<QQQ', data, 24)
        phnum, _, shnum = struct.unpack_from('<HHH', data, 56)
        segments = [struct.unpack_from('<IIQQQQQQ', data, phoff + 56 * i) for i in range(phnum)]
        sections = [struct.unpack_from('<IIQQQQIIQQ', data, shoff + 64 * i) for i in range(shnum)]
        self.loads = [(s[3], s[3] + s[6]) for s in segments if s[0] == LOAD]
        self.first_page = self.loads[0][0] // PAGE * PAGE
        header = self.loads[0][0]
        self.tables = [(header, header + 64), (header + phoff, header + phoff + 56 * phnum)]
        self.tables += [(s[3], s[3] + s[6]) for s in segments if s[0] == DYNAMIC]
        self.tables += [(s[3], s[3] + s[5]) for s in sections if s[2] & ALLOC and s[1] in TABLES]

    def loaded(self, address):
        return any(start <= address < end for start, end in self.loads)

    def masked(self, address):
        return any(start <= address < end for start, end in self.tables)


def read_image():
    """The lowest address of each object, and the words by address."""
    starts, words = {}, {}
    with open('image') as file:
        for line in file:
            kind, *rest = line.split()
            if kind == 'object':
                starts[rest[2]] = int(rest[0], 16)
            elif kind == 'word':
                words[int(rest[0], 16)] = int(rest[1], 16)
    return starts, words


def read_mappings():
    """The lowest address of each file of this folder in the memory of the process."""
    starts = {}
    with open(f'/proc/{gdb.selected_inferior().pid}/maps') as file:
        for line in file:
            start, path = re.match(r'([0-9a-f]+)-.* (\S*)$', line.rstrip('\n')).groups()
            if os.path.dirname(path) == os.getcwd():
                starts.setdefault(os.path.basename(path), int(start, 16))
    return starts


def held(elf, base, address):
    """The word that the process has at an address of the file, with bytes outside the PT_LOADs and of link tables as 0."""
    word = bytearray(8)
    for i in range(8):
        if elf.loaded(address + i) and not elf.masked(address + i):
            word[i : i + 1] = bytes(gdb.selected_inferior().read_memory(base + address + i, 1))
    return int.from_bytes(word, 'little')


def main():
    starts, words = read_image()
    files = {name: Elf(name) for name in starts}
    gdb.execute('set environment LD_LIBRARY_PATH .')
    gdb.execute('set environment LD_BIND_NOW 1')
    gdb.execute(f'break *{files["program"].entry}')
    gdb.execute('run')
    mapped = read_mappings()

    def as_mapped(value):
        for name, elf in files.items():
            if elf.loaded(value - starts[name] + elf.first_page):
                return value - starts[name] + mapped[name]
        return value

    equal = moved = differ = 0
    for name, elf in files.items():
        addresses = {at for start, end in elf.loads for at in range(start & ~7, end, 8)}
        for at in sorted(addresses):
            printed = words.get(starts[name] - elf.first_page + at, 0)
            real = held(elf, mapped[name] - elf.first_page, at)
            if printed == real:
                equal += 1
            elif as_mapped(printed) == real:
                moved += 1
            else:
                differ += 1
                print(f'differs {name} {at:x}: {printed:016x}, under the loader {real:016x}')
    print(f'words {equal + moved + differ}, {equal} of equal value, {moved} addresses of the same byte, {differ} that differ')
    gdb.execute('kill')


main()
