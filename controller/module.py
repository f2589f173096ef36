"""What the host's module may hold, so that it means the same on every machine with the low byte first.

The module is LLVM's text, and each of its lines must have one of the forms below: reckoning with integers of at most 64
bits and with 64-bit floats, memory by addresses and offsets in bytes, jumps, and calls by name of the module's own
functions and of five intrinsics. No form makes a pointer of a number, compares a pointer with anything but null, holds
assembly, calls through a pointer or names another object's symbol; and none makes a number of a pointer, but where the
way from one address to another is held to a length and serves for nothing else (APART). Beyond the forms, no function
may come to call itself, what is read as several values at once must have each at the same place on a machine of 32
bits, and what is kept as a pointer may not be read as a number, or the other way round: a pointer has eight bytes of
memory, of which a machine of 32 bits uses four. That is followed from a function into those that it calls with an
address, at offsets that are numbers; not through a pointer that was itself kept in memory, an offset that is reckoned,
or a copy of bytes."""
import re

NUMBER = r"(?:i1|i8|i16|i32|i64|double)"
TYPE = rf"(?:{NUMBER}|ptr)"
# What a function hands back: a value, or several at once.
RESULT = rf"(?:{TYPE}|\{{ {TYPE}(?:, {TYPE})* \}})"
VALUE = r"(?:%[\w.]+|-?[\d.]+(?:e[+-]\d+)?|0x[0-9A-F]+|true|false)"
LABEL = r"label %[\w.]+"
NAME = r'@(?P<name>"[^"]+"|[\w.$]+)'
PARAMETERS = rf"\((?:{TYPE}(?: noundef| zeroext)*(?: {VALUE})?(?:, |(?=\))))*\)"
MARKS = r"(?: nuw| nsw| exact| disjoint| nneg| inbounds| nusw| samesign)*"
FORMS = [
    rf"= (?:add|sub|mul|udiv|sdiv|urem|srem|and|or|xor|shl|lshr|ashr){MARKS} {NUMBER} {VALUE}, {VALUE}",
    rf"= (?:fadd|fsub|fmul|fdiv) double {VALUE}, {VALUE}",
    rf"= fneg double {VALUE}",
    rf"= (?:icmp{MARKS}|fcmp) \w+ {NUMBER} {VALUE}, {VALUE}",
    rf"= icmp eq ptr {VALUE}, null",
    rf"= select i1 {VALUE}, {TYPE} {VALUE}, {TYPE} {VALUE}",
    rf"= (?:zext|sext|trunc|uitofp|sitofp|fptoui|fptosi){MARKS} {NUMBER} {VALUE} to {NUMBER}",
    rf"= alloca (?:{TYPE}|\[\d+ x i8\]), align \d+",
    rf"= load {RESULT}, ptr {VALUE}, align \d+",
    rf"= extractvalue {RESULT} {VALUE}, \d+",
    rf"store {TYPE} {VALUE}, ptr {VALUE}, align \d+",
    rf"store ptr (?P<constant>@[\w.$]+), ptr {VALUE}, align \d+",
    rf"= getelementptr{MARKS} i8, ptr {VALUE}, i64 {VALUE}",
    rf"= phi {TYPE} \[.*\]",
    rf"br (?:i1 {VALUE}, {LABEL}, )?{LABEL}",
    rf"switch {NUMBER} {VALUE}, {LABEL} \[",
    rf"{NUMBER} {VALUE}, {LABEL}",
    r"\]",
    rf"ret (?:void|{RESULT} {VALUE})",
    r"unreachable",
    rf"(?:= )?call (?:void|{RESULT}) {NAME}{PARAMETERS}(?: #\d+)?",
    r"[\w.]+:",
    r"",
]
OUTSIDE = [
    rf"define (?:internal )?(?:noundef )?(?:zeroext )?(?:void|{RESULT}) {NAME}{PARAMETERS}(?: unnamed_addr)? #\d+ {{",
    r"declare void @llvm\.(?:memmove|memcpy)\.p0\.p0\.i64\(.*",
    r"declare void @llvm\.memset\.p0\.i64\(.*",
    r"declare void @llvm\.trap\(\).*",
    r"declare double @llvm\.arithmetic\.fence\.f64\(double\).*",
    r'(?P<constant>@[\w.$]+) = (?:private|internal) (?:unnamed_addr )?constant (?:[^@"]|"[^"]*")*, align \d+',
    r"attributes #\d+ = \{ [^{}]* \}",
    r'source_filename = ".*"',
    r"![\w.]+ = .*",
    r"\}|",
]
# Whether bytes that are copied lie over one another: the way from an address to another, below their number. An address
# of 32 bits has zeros in front here, so it is below on every machine, or on none. The three numbers must have no other
# use.
APART = re.compile(rf"  (%[\w.]+) = ptrtoaddr ptr {VALUE} to i64\n  (%[\w.]+) = ptrtoaddr ptr {VALUE} to i64\n  (%[\w.]+) = sub i64 \1, \2\n  %[\w.]+ = icmp ult i64 \3, {VALUE}\n")
INTRINSICS = re.compile(r"llvm\.(?:memmove\.p0\.p0\.i64|memcpy\.p0\.p0\.i64|memset\.p0\.i64|trap|arithmetic\.fence\.f64)")
TARGET_LINE = re.compile(r"^target (?:datalayout|triple) = .*\n", re.M)
TARGET_ATTRIBUTE = re.compile(r' "(?:target-cpu|target-features|tune-cpu|probe-stack|stack-probe-size)"="[^"]*"')
ADDRESS = re.compile(rf"(%[\w.]+) = getelementptr{MARKS} i8, ptr (%[\w.]+), i64 ({VALUE})")
LOADED = re.compile(rf"= load ({RESULT}), ptr ({VALUE}),")
STORED = re.compile(rf"store ({TYPE}) (?:{VALUE}|@[\w.$]+), ptr ({VALUE}),")
CALLED = re.compile(rf"call (?:void|{RESULT}) {NAME}\((?P<arguments>.*)\)")
PARAMETER = re.compile(rf"({TYPE})(?: noundef| zeroext)* ({VALUE})(?:, |$)")
WIDTHS = {"i1": 1, "i8": 1, "i16": 2, "i32": 4, "i64": 8, "double": 8, "ptr": 8}


def portable(text):
    """The text without what names the machine that it was compiled for."""
    return TARGET_ATTRIBUTE.sub("", TARGET_LINE.sub("", text))


def places(kind, pointer=8):
    """A value's type, or those of several at once, each with its place in memory where a pointer has so many bytes."""
    found, end = [], 0
    for part in kind.strip("{ }").split(", "):
        width = pointer if part == "ptr" else WIDTHS[part]
        found.append((part, -(-end // width) * width))
        end = found[-1][1] + width
    return found


def has_form(line, forms):
    return next(filter(None, (re.fullmatch(form, line) for form in forms)), None)


def without_notes(line):
    """A line without its comment, its metadata and the name of its result."""
    line = re.sub(r"(?:, !\w+(?: !\d+)?)+$", "", line.split(" ;")[0].rstrip().lstrip())
    return "" if line.startswith(";") else re.sub(r"^%[\w.]+ = ", "= ", line)


class Function:
    """A function's parameters and lines as they stand, the names that it calls, the constants that it names, and its
    numbers that are made of addresses."""

    def __init__(self, name, parameters):
        self.name, self.parameters, self.lines, self.kept = name, [word for _, word in parameters], [], None
        self.calls, self.constants, self.apart = set(), set(), []

    def keeps(self, found):
        """What the function and those that it calls keep: of each address that it has and each byte behind it, whether
        pointers (True) or numbers (False), with the names of the functions."""
        if self.kept is not None:
            return self.kept
        addresses, self.kept = {}, {}

        def keep(address, at, pointer, names):
            base, offset = addresses.get(address, (address, 0))
            if offset is not None:
                self.kept.setdefault((base, offset + at), {}).setdefault(pointer, names)

        for line in self.lines:
            moved, used, called = ADDRESS.search(line), LOADED.search(line) or STORED.search(line), CALLED.search(line)
            if moved:
                base, offset = addresses.get(moved[2], (moved[2], 0))
                known = offset is not None and moved[3].isdigit()
                addresses[moved[1]] = base, offset + int(moved[3]) if known else None
            elif used:
                for part, at in places(used[1]):
                    for byte in range(WIDTHS[part]):
                        keep(used[2], at + byte, part == "ptr", self.name)
            elif called and called["name"] in found:
                callee = found[called["name"]]
                handed = [word for _, word in PARAMETER.findall(called["arguments"])]
                for (base, at), kinds in callee.keeps(found).items():
                    if base in callee.parameters:
                        for pointer, names in kinds.items():
                            keep(handed[callee.parameters.index(base)], at, pointer, names)
        return self.kept

    def used_again(self):
        """The numbers made of addresses that have another use than the one right behind them."""
        words = re.findall(r"%[\w.]+", "\n".join(self.lines))
        return [number for number in self.apart if words.count(number) != 2]

    def mixed(self, found):
        """A byte behind an address at which a pointer and a number are kept, and by which functions, or None."""
        for (base, byte), kinds in self.keeps(found).items():
            if len(kinds) > 1:
                return f"{base} and {byte} bytes (the pointer in {kinds[True]}, the number in {kinds[False]})"
        return None


def functions(text):
    """The module's functions by name; and its faults, line by line."""
    found, faults, inside, constants = {}, [], None, set()
    apart = {text.count("\n", 0, it.start()) + 1: it.groups() for it in APART.finditer(text)}
    for number, line in enumerate(text.splitlines(), 1):
        kept = without_notes(line)
        form = has_form(kept, FORMS if inside and kept != "}" else OUTSIDE)
        if inside and (number in apart or number - 1 in apart):
            inside.lines.append(line)
            inside.apart += apart.get(number, ())
        elif not form:
            faults.append(f"line {number} has no form that is allowed: {line.strip()}")
        elif kept.startswith("define"):
            inside = Function(form["name"], PARAMETER.findall(kept.split("(", 1)[1].split(")")[0]))
            found[inside.name] = inside
        elif kept == "}":
            inside = None
        elif not inside:
            constants.add(form.groupdict().get("constant"))
        else:
            inside.lines.append(line)
            loaded = LOADED.search(line)
            if loaded and places(loaded[1]) != places(loaded[1], 4):
                faults.append(f"line {number} reads several values that have other places on a machine of 32 bits: {line.strip()}")
            if "name" in form.groupdict():
                inside.calls.add(form["name"])
            if "constant" in form.groupdict():
                inside.constants.add(form["constant"])
    for function in found.values():
        faults += [f"{function.name} names {constant}, which is no constant of the module" for constant in sorted(function.constants - constants)]
        faults += [f"{function.name} uses {number}, which is made of an address, otherwise than to tell whether bytes lie apart" for number in function.used_again()]
    return found, faults


def comes_back(found):
    """A function that comes to call itself, or None."""
    done, open_now = set(), []

    def visit(name):
        if name in open_now:
            return name
        if name in done or name not in found:
            return None
        open_now.append(name)
        circle = next(filter(None, (visit(callee) for callee in sorted(found[name].calls))), None)
        open_now.pop()
        done.add(name)
        return circle

    return next(filter(None, (visit(name) for name in found)), None)


def faults(text):
    """What the module holds that depends on the machine, a line each."""
    found, wrong = functions(text)
    for function in found.values():
        wrong += [f"{function.name} calls {callee}, which is not the module's" for callee in sorted(function.calls)
                  if callee not in found and not INTRINSICS.fullmatch(callee)]
    circle = comes_back(found)
    if circle:
        return [*wrong, f"{circle} comes to call itself"]
    for function in found.values():
        mixed = function.mixed(found)
        wrong += [f"{function.name} keeps a pointer and a number at {mixed}"] if mixed else []
    wrong += [] if found else ["it has no function"]
    return wrong


def names_of(text, crates):
    """The names of the functions that stand in these crates, without quotation marks."""
    found, _ = functions(text)
    return [name.strip('"') for name in found if name.strip('"').split("::")[0] in crates]
