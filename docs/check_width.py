#!/usr/bin/env python3
"""Holds documents and comments to 120 columns. Of a document every line counts but those of tables and of indented
blocks, which show what a program prints; of a source its comments: lines that are nothing else, and Python's texts in
front of a module or a function.

  python3 docs/check_width.py           prints each line that is wider and then the counts, and exits with 1 where there
                                        is one
  python3 docs/check_width.py --wrap    first wraps each paragraph that has such a line"""
import ast
import pathlib
import re
import sys

ROOT = pathlib.Path(__file__).resolve().parent.parent
WIDEST = 120
LEFT_OUT = {".git", "target", "out"}
LINE_COMMENT = {".rt": "//", ".antt": "--", ".edit": "#", ".sh": "#", ".py": "#", ".c": "//", ".h": "//", ".rs": "//"}
# A word; what is quoted, and a link, are one if they are short.
WORD = re.compile(r"(?:`[^`]{1,60}`|!?\[[^\]]{1,60}\]\([^)\s]*\)|\S)+")
# What a line of a document cannot begin with and mean the same.
NOT_FIRST = re.compile(r"([-+*]|\d+[.)])$|[#>|]")
# What a paragraph may begin with: the mark of an item, or a command and the blanks before what is said of it.
FRONT = re.compile(r" *- | *python3 \S+(?: \S+)* {2,}(?=\S)| *")


def kind(path, lines):
    """The ending that tells what a file is; of a script without one, that of its first line."""
    if path.suffix or not lines or not lines[0].startswith("#!"):
        return path.suffix
    return ".py" if "python" in lines[0] else ".sh"


def documented(text):
    """The first and the last line of each of Python's texts."""
    for node in ast.walk(ast.parse(text)):
        if isinstance(node, (ast.Module, ast.FunctionDef, ast.ClassDef)) and ast.get_docstring(node) is not None:
            yield node.body[0].lineno, node.body[0].end_lineno


def block_comments(lines):
    """The first and the last line of each of C's comments."""
    first = None
    for number, line in enumerate(lines, 1):
        if first is None and line.lstrip().startswith("/*"):
            first = number
        if first is not None and "*/" in line:
            yield first, number
            first = None


def line_comments(lines, mark):
    """The first and the last line of each run of lines that are comments with the same front."""
    first, front = None, None
    for number, line in enumerate([*lines, ""], 1):
        found = re.match(rf" *{mark}[!/]*(?= |$)", line)
        if first is not None and (not found or found[0] != front):
            yield first, number - 1
            first = None
        if first is None and found:
            first, front = number, found[0]


def comments(path, text):
    """The first and the last line of each comment, and what stands in front of its lines' texts."""
    lines = text.splitlines()
    ending = kind(path, lines)
    if ending not in LINE_COMMENT:
        return
    for first, last in line_comments(lines, LINE_COMMENT[ending]):
        yield first, last, re.match(rf" *{LINE_COMMENT[ending]}[!/]*", lines[first - 1])[0] + " "
    for first, last in documented(text) if ending == ".py" else block_comments(lines) if ending in (".c", ".h", ".rs") else ():
        yield first, last, re.match(" *", lines[first - 1])[0] + ("" if ending == ".py" else " * ")


def counted(path, text):
    """The numbers of the lines that count."""
    if path.suffix == ".md":
        return {number for number, line in enumerate(text.splitlines(), 1) if not re.match(r"\||    (?! *[-*] )", line)}
    return {number for first, last, _ in comments(path, text) for number in range(first, last + 1)}


def filled(paragraph, front="", page=False):
    """A paragraph's lines, without their front, filled anew where one is too wide."""
    if all(len(front + line) <= WIDEST for line in paragraph):
        return [front + line if line else front.rstrip() for line in paragraph]
    lead = FRONT.match(paragraph[0])[0] if not page else re.match(r" *(?:[-*] |\d+\. )?", paragraph[0])[0]
    words = []
    for word in WORD.findall(" ".join([paragraph[0][len(lead):], *(line.strip() for line in paragraph[1:])])):
        if page and words and NOT_FIRST.match(word):
            words[-1] += " " + word
        else:
            words.append(word)
    made, rest = [front + lead + words[0]], front + " " * len(lead)
    for word in words[1:]:
        if len(made[-1]) + 1 + len(word) <= WIDEST:
            made[-1] += " " + word
        else:
            made.append(rest + word)
    return made


def wrapped_comment(lines, front):
    """A comment's lines, each paragraph filled: it ends with an empty line, before an item, where the indent changes,
    or where a line ends with a sentence (but in Python's texts)."""
    texts = [line[len(front):] if line.startswith(front.rstrip()) else line.strip() for line in lines]
    opened, apart = lines[0].lstrip().startswith("/*"), lines[-1].strip() == "*/"
    if opened:
        texts[0] = re.sub(r"^ */\* ?", "", lines[0])
        texts[-1:] = [] if apart else [re.sub(r" +\*/$", "\0*/", texts[-1])]
    paragraphs = []
    for text in texts:
        before = paragraphs[-1][-1] if paragraphs else ""
        free = not before.endswith((".", ":")) or '"""' in lines[0]
        indent = len(FRONT.match(paragraphs[-1][0])[0]) if paragraphs else 0
        if text and before and free and FRONT.match(text)[0].strip() == "" and len(FRONT.match(text)[0]) == indent:
            paragraphs[-1].append(text)
        else:
            paragraphs.append([text])
    made = [line for paragraph in paragraphs for line in filled(paragraph, front)]
    if opened:
        made[0] = front[:-3] + "/*" + made[0][len(front) - 1:]
        made[-1:] = [made[-1], lines[-1]] if apart else [made[-1].replace("\0", " ")]
    return made


def wrapped_page(lines):
    """A document's lines, each paragraph and item filled."""
    made, paragraph, fenced = [], [], False
    for line in [*lines, ""]:
        starts = re.match(r" *(?:[-*] |\d+\. )", line)
        alone = fenced or not line.strip() or line.startswith(("```", "|", "#", "<")) or not starts and line.startswith("    ")
        if paragraph and (alone or starts):
            made, paragraph = made + filled(paragraph, page=True), []
        fenced ^= line.startswith("```")
        if alone:
            made.append(line)
        else:
            paragraph.append(line)
    return made[:-1]


def wrapped(path, text):
    lines = text.splitlines()
    if path.suffix == ".md":
        return "\n".join(wrapped_page(lines)) + "\n"
    for first, last, front in sorted(comments(path, text), reverse=True):
        if any(len(line) > WIDEST for line in lines[first - 1:last]):
            lines[first - 1:last] = wrapped_comment(lines[first - 1:last], front)
    return "\n".join(lines) + "\n"


files = wide = 0
for path in sorted(ROOT.rglob("*")):
    if not path.is_file() or LEFT_OUT & {*path.relative_to(ROOT).parts}:
        continue
    try:
        text = path.read_text(encoding="utf-8")
    except UnicodeDecodeError:
        continue
    numbers = counted(path, text)
    files += bool(numbers)
    if "--wrap" in sys.argv[1:] and any(len(line) > WIDEST for at, line in enumerate(text.splitlines(), 1) if at in numbers):
        text = wrapped(path, text)
        path.write_text(text, encoding="utf-8")
        numbers = counted(path, text)
    for number, line in enumerate(text.splitlines(), 1):
        if number in numbers and len(line) > WIDEST:
            print(f"{path.relative_to(ROOT)}:{number}: {len(line)} columns")
            wide += 1
print(f"{files} files, {wide} lines wider than {WIDEST} columns")
sys.exit(bool(wide) or not files)
