"""The calls that include/grahalaghava.h declares, so that no script here has a list of its own."""
import pathlib
import re

HEADER = pathlib.Path(__file__).resolve().parent.parent / "include" / "grahalaghava.h"
CALL = re.compile(r"^(\w+)\s+(graha_\w+)\(([^)]*)\);", re.M)
PARAMETER = re.compile(r"(uint32_t |uint64_t |double |uint8_t \*|const uint8_t \*)(\w+)")
WRITTEN, READ = "uint8_t *", "const uint8_t *"


class Call:
    """A call: the type that it hands back, its name, and its parameters, each a type and a name."""

    def __init__(self, result, name, parameters):
        self.result, self.name = result, name
        self.parameters = [(kind.strip(), word) for kind, word in parameters]

    def lists(self, kind=WRITTEN):
        """The names of each list that is lent to be written (or READ: only to be read), its bytes and its length, which
        is the parameter behind them."""
        pairs = zip(self.parameters, self.parameters[1:])
        return [(bytes_, length) for (found, bytes_), (_, length) in pairs if found == kind]

    def numbers(self):
        """The type and the name of each parameter that is no list's bytes."""
        return [(kind, word) for kind, word in self.parameters if kind not in (WRITTEN, READ)]


def calls():
    text = re.sub(r"/\*.*?\*/", "", HEADER.read_text(encoding="utf-8"), flags=re.S)
    found = []
    for result, name, parameters in CALL.findall(text):
        read = [PARAMETER.fullmatch(" ".join(parameter.split())) for parameter in parameters.split(",")]
        if result not in ("uint32_t", "uint64_t", "double") or None in read:
            raise ValueError(f"{HEADER.name}: {name} has a type that is not known here")
        call = Call(result, name, [parameter.groups() for parameter in read])
        kinds = [kind for kind, _ in call.parameters] + ["end"]
        if any(kind in (WRITTEN, READ) and after != "uint64_t" for kind, after in zip(kinds, kinds[1:])):
            raise ValueError(f"{HEADER.name}: a list of {name} has no length of 64 bits behind it")
        found.append(call)
    if not found or len(found) != len(re.findall(r"\bgraha_\w+\s*\(", text)):
        raise ValueError(f"{HEADER.name}: not every call is read")
    return found
