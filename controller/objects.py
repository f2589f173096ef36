"""An ELF object file that clang wrote with -ffunction-sections and -fstack-size-section: how large it is, which symbols
it defines and wants, and how deep a call's stack is.

A call's stack is its function's own frame (clang's number, in `.stack_sizes`: pushed registers, spilled values,
arguments on the stack) and the deepest among the functions that it calls. Who calls whom is read from the object's
relocations: each function stands in a section of its own, so every call of another one needs a relocation, and each
relocation to another function counts as a call. A function that calls itself needs none: module.py refuses it."""
import struct

ALLOC, WRITE, CODE = 2, 1, 4
NOBITS, RELA, REL, SYMBOLS = 8, 4, 9, 2
FUNCTION = 2
LOCAL, UNDEFINED, LAST_SECTION = 0, 0, 0xFF00


class Section:
    def __init__(self, name, kind, flags, contents, size, link, info):
        self.name, self.kind, self.flags, self.contents, self.size, self.link, self.info = name, kind, flags, contents, size, link, info

    def part(self):
        """What of the memory it is: code, constants, data or bss; None where it is not loaded."""
        if not self.flags & ALLOC:
            return None
        if self.kind == NOBITS:
            return "bss"
        return "code" if self.flags & CODE else "data" if self.flags & WRITE else "constants"


class Symbol:
    def __init__(self, name, section, kind, local):
        self.name, self.section, self.kind, self.local = name, section, kind, local


def text_at(contents, at):
    return contents[at:contents.index(b"\0", at)].decode()


def uleb128(contents, at):
    value = shift = 0
    while True:
        value |= (contents[at] & 0x7F) << shift
        if contents[at] < 0x80:
            return value
        at, shift = at + 1, shift + 7


class Object:
    def __init__(self, contents):
        if contents[:4] != b"\x7fELF" or contents[5] != 1:
            raise ValueError("no little-endian ELF object")
        self.wide = contents[4] == 2
        self.sections = self.read_sections(contents)
        self.symbols = self.read_symbols()
        self.functions = {}
        for symbol in self.symbols:
            if symbol.kind == FUNCTION and symbol.section != UNDEFINED:
                if symbol.section in self.functions:
                    raise ValueError(f"{symbol.name} and {self.functions[symbol.section]} stand in one section")
                self.functions[symbol.section] = symbol.name
        self.frames = self.read_frames()
        self.reached = self.read_relocations()

    def read_sections(self, contents):
        header = struct.unpack_from("<HHIQQQIHHHHHH" if self.wide else "<HHIIIIIHHHHHH", contents, 16)
        start, entry_size, count, names = header[5], header[10], header[11], header[12]
        form = "<IIQQQQIIQQ" if self.wide else "<IIIIIIIIII"
        rows = [struct.unpack_from(form, contents, start + entry_size * number) for number in range(count)]
        bodies = [b"" if row[1] == NOBITS else contents[row[4]:row[4] + row[5]] for row in rows]
        return [Section(text_at(bodies[names], row[0]), row[1], row[2], body, row[5], row[6], row[7]) for row, body in zip(rows, bodies)]

    def read_symbols(self):
        table = next(section for section in self.sections if section.kind == SYMBOLS)
        names = self.sections[table.link].contents
        found = []
        for row in struct.iter_unpack("<IBBHQQ" if self.wide else "<IIIBBH", table.contents):
            name, kind, section = (row[0], row[1], row[3]) if self.wide else (row[0], row[3], row[5])
            found.append(Symbol(text_at(names, name), section if section < LAST_SECTION else UNDEFINED, kind & 15, kind >> 4 == LOCAL))
        return found

    def read_frames(self):
        """Of each function's section its own frame."""
        pointer = 8 if self.wide else 4
        frames = {section.link: uleb128(section.contents, pointer) for section in self.sections if section.name == ".stack_sizes"}
        missing = [name for section, name in self.functions.items() if section not in frames]
        if missing:
            raise ValueError(f"the frame of {missing[0]} is not known")
        return frames

    def read_relocations(self):
        """Of each section the symbols that it refers to."""
        reached = {}
        for section in self.sections:
            if section.kind == RELA:
                form = "<QQq" if self.wide else "<IIi"
            elif section.kind == REL:
                form = "<QQ" if self.wide else "<II"
            else:
                continue
            numbers = {row[1] >> (32 if self.wide else 8) for row in struct.iter_unpack(form, section.contents)}
            reached[section.info] = [self.symbols[number] for number in sorted(numbers)]
        return reached

    def sizes(self):
        sizes = dict.fromkeys(["code", "constants", "data", "bss"], 0)
        for section in self.sections:
            if section.part():
                sizes[section.part()] += section.size
        return sizes

    def defined(self):
        """The functions that other objects can call."""
        return {symbol.name for symbol in self.symbols if symbol.section != UNDEFINED and not symbol.local}

    def wanted(self):
        """The symbols that another object has to define."""
        return {symbol.name for symbol in self.symbols if symbol.section == UNDEFINED and symbol.name and not symbol.local}

    def called(self, function):
        """The sections of the functions that a function calls, and the symbols of other objects that it wants."""
        inside, outside, todo, seen = set(), set(), [function], {function}
        while todo:
            for symbol in self.reached.get(todo.pop(), []):
                if symbol.section == UNDEFINED:
                    outside |= {symbol.name} - {""}
                elif symbol.section in self.functions:
                    inside.add(symbol.section)
                elif symbol.section not in seen:
                    # constants: a table of jumps leads back to its function, a table of functions would be calls
                    seen.add(symbol.section)
                    todo.append(symbol.section)
        return inside - {function}, outside

    def deepest(self, outside_frame):
        """The deepest stack of any function that other objects can call, as the functions on the way down, each with
        its frame. A call of a symbol that another object defines counts so many bytes."""
        known = {}

        def below(function, above):
            if function in above:
                raise ValueError(f"{self.functions[function]} comes to call itself")
            if function not in known:
                inside, outside = self.called(function)
                ways = [below(callee, above | {function}) for callee in sorted(inside)]
                ways += [[(name, outside_frame)] for name in sorted(outside)]
                deepest = max(ways, key=total, default=[])
                known[function] = [(self.functions[function], self.frames[function]), *deepest]
            return known[function]

        open_to_others = self.defined()
        return max((below(section, frozenset()) for section, name in sorted(self.functions.items()) if name in open_to_others), key=total)


def total(way):
    return sum(frame for _, frame in way)
