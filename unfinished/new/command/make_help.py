#!/usr/bin/env python3
"""Makes of command/commands.txt what has to say the same: command/help.h (the table of the commands and their help, for
main.c), man/pierheather.1 (the manual page) and command/pierheather.bash (the completion for bash).

  python3 command/make_help.py            writes the three files
  python3 command/make_help.py --check    writes nothing; names each file that is not what commands.txt makes, and exits
                                          with 1 where there is one"""
import pathlib
import re
import sys
import textwrap
import types

ROOT = pathlib.Path(__file__).resolve().parent.parent
SOURCE = "command/commands.txt"
KINDS = "page day-page words lines stream".split()
FRONT = "pierheather "


def read(text):
    """The commands with their forms, the options and the statuses."""
    told = types.SimpleNamespace(commands=[], options={}, statuses={})
    for line in text.splitlines():
        if line.startswith("#") or not line:
            continue
        if line.startswith("  "):
            help_of = told.commands[-1].help
            if help_of and not line.startswith("  $") and not help_of[-1].startswith("$"):
                help_of[-1] += " " + line.strip()
            else:
                help_of.append(line.strip())
            continue
        head, said = line.split(": ", 1)
        word, *values = head.split()
        if word == "command":
            told.commands.append(types.SimpleNamespace(name=values[0], about=said, forms=[], help=[]))
        elif word == "form":
            name, *others = said.split()
            second = others[0] if re.fullmatch(r"[a-z]+|--to-[a-z]+", others[0]) else None
            form = types.SimpleNamespace(kind=values[0], function=values[1], usage=said, second=second, waits=None, edition="")
            form.options = re.findall(r"--([a-z]+)(?=[ \]])", said)
            if name != told.commands[-1].name or values[0] not in KINDS:
                raise SystemExit(f"make_help.py: {line}")
            told.commands[-1].forms.append(form)
        elif word in ("waits", "edition"):
            setattr(told.commands[-1].forms[-1], word, said)
        elif word == "option":
            told.options[values[0]] = (" ".join(values), said)
        elif word == "status":
            told.statuses[values[0]] = said
        else:
            raise SystemExit(f"make_help.py: {line}")
    unknown = {option for command in told.commands for form in command.forms for option in form.options} - {*told.options}
    if unknown:
        raise SystemExit(f"make_help.py: no option {min(unknown)}")
    return told


def filled(paragraph, indent=""):
    return textwrap.wrap(paragraph, 78, initial_indent=indent, subsequent_indent=indent, break_on_hyphens=False, break_long_words=False)


def help_of(told, command):
    """What `pierheather help NAME` prints."""
    lines = [f"{'usage:' if at == 0 else '      '} {FRONT}{form.usage}" for at, form in enumerate(command.forms)]
    lines += ["", *filled(command.about[0].upper() + command.about[1:] + ".")]
    for paragraph in command.help:
        example = paragraph.startswith("$")
        lines += ["", *(["    " + paragraph] if example else filled(paragraph))]
    options = sorted({option for form in command.forms for option in form.options}, key=[*told.options].index)
    if options:
        lines += ["", *(f"  --{told.options[option][0]:<12}{told.options[option][1]}" for option in options)]
    return lines


def overview(told):
    """What `pierheather help` prints."""
    lines = [f"usage: {FRONT}COMMAND ..", ""]
    lines += [f"  {command.name:<13}{command.about}" for command in told.commands]
    lines += [f"  {'help':<13}help [COMMAND], or COMMAND --help or -h; --version says which it is", ""]
    lines += filled("A file that is missing, or -, is standard input. Exit status:")
    lines += [line for number, said in told.statuses.items() for line in textwrap.wrap(said, 78, initial_indent=f"  {number}  ", subsequent_indent="     ")]
    return lines


def c_text(lines, indent):
    """Lines as C's text, a piece a line."""
    quoted = (line.replace("\\", "\\\\").replace('"', '\\"') for line in lines)
    return "\n".join(f'{indent}"{line}\\n"' for line in quoted)


def c_word(word):
    return f'"{word}"' if word is not None else "NULL"


def header(told):
    """command/help.h."""
    lines = [f"/* The commands of pierheather and their help, made by command/make_help.py of {SOURCE}. */",
             "#ifndef PIERHEATHER_HELP_H", "#define PIERHEATHER_HELP_H", "", "#include <stddef.h>", "#include <stdint.h>", "",
             "/* The proved functions. Each writes by itself and hands back the exit status: of a text, of a text and how to print",
             " * where it does not say so itself, or of what it reads on standard input. */",
             "typedef uint32_t on_text(const uint8_t *text, size_t len);",
             "typedef uint32_t on_text_printed(const uint8_t *text, size_t len, uint32_t print);",
             "typedef uint32_t on_input(void);"]
    kinds = {"stream": "on_input"}
    for command in told.commands:
        for form in command.forms:
            form.type = "on_text_printed" if "names" in form.options and form.kind != "words" else kinds.get(form.kind, "on_text")
            lines.append(f"extern {form.type} pierheather_{form.function};")
    lines += ["", "/* What a form's operands are: a file, a day and a file, the words of a line, a file of lines, a file for standard",
              " * input. */", f"enum {{ {', '.join(kind.upper().replace('-', '_') for kind in KINDS)} }};", "",
              "/* The options that a form takes. */",
              f"enum {{ {', '.join(f'WITH_{option.upper()} = {1 << at}' for at, option in enumerate(told.options))} }};", "",
              "struct form {", "    const char *name, *second; /* the command, and the word behind it or NULL */",
              "    const char *usage, *usages; /* its own, and those of all forms of the command */", "    const char *help, *waits;", "    const char *edition; /* what stands in front of an edition's number */",
              "    int kind, options;", "    on_text *of_text;", "    on_text_printed *printed;", "    on_input *of_input;", "};", "",
              "static const char overview[] =", c_text(overview(told), "    ") + ";", ""]
    for command in told.commands:
        lines += [f"static const char help_{command.name.replace('-', '_')}[] =", c_text(help_of(told, command), "    ") + ";", ""]
    lines += ["static const struct form forms[] = {"]
    for command in told.commands:
        usages = ", or ".join(FRONT + form.usage for form in command.forms)
        for form in command.forms:
            edition = form.edition + " " if form.edition else ""
            options = " | ".join(f"WITH_{option.upper()}" for option in form.options) or "0"
            calls = {"on_text": "of_text", "on_text_printed": "printed", "on_input": "of_input"}[form.type]
            waits = c_word(form.waits)
            lines += [f"    {{.name = {c_word(command.name)}, .second = {c_word(form.second)}, .help = help_{command.name.replace('-', '_')},",
                      f"     .usage = \"{FRONT}{form.usage}\", .usages = \"{usages}\",",
                      f"     .waits = {waits}, .edition = \"{edition}\", .kind = {form.kind.upper().replace('-', '_')}, .options = {options},",
                      f"     .{calls} = pierheather_{form.function}}},"]
    return "\n".join([*lines, "};", "", "#endif", ""])


def roff(text):
    """A text as the manual page's language wants it."""
    text = text.replace("\\", "\\e").replace("-", "\\-").replace("`", "").replace("'", "\\(aq")
    return "\\&" + text if text.startswith((".", "'")) else text


def words_roff(words):
    """Words in bold, and what stands for others in italics."""
    made = []
    for word in re.findall(r"[\w-]+|\s+|[^\w\s-]", words):
        kind = "I" if re.fullmatch(r"[A-Z]+", word) else "B" if re.fullmatch(r"[a-z-]+", word) else None
        made.append(f"\\f{kind}{roff(word)}\\fR" if kind else word)
    return "".join(made)


def manual(told):
    """man/pierheather.1."""
    lines = [f'.\\" Made by command/make_help.py of {SOURCE}.', '.TH PIERHEATHER 1 "" "" "Pierheather"', ".SH NAME",
             "pierheather \\- days, almanac pages and places after the Grahalaghava of 1520", ".SH SYNOPSIS"]
    for command in told.commands:
        for form in command.forms:
            lines += [".br", words_roff(FRONT + form.usage)]
    lines += [".br", words_roff(FRONT + "help [COMMAND]"), ".br", words_roff(FRONT + "--version"), ".SH DESCRIPTION",
              "Each command hands its words or its file to a function that is proved to meet its contract for every input,",
              "and returns the status that the function hands back. A file that is missing, or \\-, is standard input.",
              "Days are those from 19 March 1520 to 13 October 2619, by number (0 to 401599) or civil date.", ".SH COMMANDS"]
    for command in told.commands:
        lines += [".TP", "\n.TQ\n".join(words_roff(FRONT + form.usage) for form in command.forms), roff(command.about[0].upper() + command.about[1:] + ".")]
        for paragraph in command.help:
            lines += [".IP", "\\fB" + roff(paragraph) + "\\fR" if paragraph.startswith("$") else roff(paragraph)]
    lines += [".SH OPTIONS"]
    for option, said in told.options.values():
        lines += [".TP", words_roff("--" + option), roff(said[0].upper() + said[1:] + ".")]
    lines += [".SH EXIT STATUS"]
    for number, said in told.statuses.items():
        lines += [".TP", f"\\fB{number}\\fR", roff(said[0].upper() + said[1:] + ".")]
    return "\n".join(lines) + "\n"


def completion(told):
    """command/pierheather.bash."""
    names = " ".join([*(command.name for command in told.commands), "help"])
    lines = [f"# Completion of pierheather's commands for bash, made by command/make_help.py of {SOURCE}: source this file, or",
             "# put it into the folder of bash-completion under the command's name.", "_pierheather() {",
             "  local word=${COMP_WORDS[COMP_CWORD]} choices= files=no",
             "  if [ \"$COMP_CWORD\" -eq 1 ]; then", f"    choices='{names} --help --version'", "  else", "    files=yes", "    case ${COMP_WORDS[1]} in"]
    for command in told.commands:
        seconds = [form.second for form in command.forms if form.second]
        options = sorted({option for form in command.forms for option in form.options}, key=[*told.options].index)
        words = " ".join([*(f"--{option}" for option in options), "--help"])
        if seconds:
            lines.append(f"    {command.name}) if [ \"$COMP_CWORD\" -eq 2 ]; then choices='{' '.join([*seconds, '--help'])}' files=no; fi ;;")
        else:
            none = " files=no" if command.forms[0].kind == "words" else ""
            lines.append(f"    {command.name}) choices='{words}'{none} ;;")
    lines += [f"    help) choices='{names}' files=no ;;", "    esac", "  fi",
                            "  mapfile -t COMPREPLY < <(compgen -W \"$choices\" -- \"$word\")",
              "  if [ $files = yes ] && [[ $word != -* ]]; then",
              "    mapfile -t -O \"${#COMPREPLY[@]}\" COMPREPLY < <(compgen -f -- \"$word\")",
              "  fi", "}", "complete -o filenames -F _pierheather pierheather ./pierheather", ""]
    return "\n".join(lines)


told = read((ROOT / SOURCE).read_text(encoding="utf-8"))
made = {"command/help.h": header(told), "man/pierheather.1": manual(told), "command/pierheather.bash": completion(told)}
wrong = []
for name, text in made.items():
    path = ROOT / name
    if "--check" not in sys.argv[1:]:
        path.parent.mkdir(exist_ok=True)
        path.write_text(text, encoding="utf-8")
    elif not path.is_file() or path.read_text(encoding="utf-8") != text:
        wrong.append(name)
for name in wrong:
    print(f"{name} is not what {SOURCE} makes: python3 command/make_help.py")
print(f"{len(made)} files of {len(told.commands)} commands, {len(wrong)} that differ")
sys.exit(bool(wrong))
