"""Puts the page's files and a module into one HTML file whose content security policy allows its own script, its own
style and its worker, and nothing from outside."""
import base64
import gzip
import hashlib
import pathlib

HERE = pathlib.Path(__file__).resolve().parent
SCRIPTS = ["desk.js", "worker.js", "words.js", "text.js", "form.js", "list.js", "strip.js", "day.js", "page.js"]


def read(name):
    return (HERE / name).read_text(encoding="utf-8")


def digest(text):
    return "'sha256-" + base64.b64encode(hashlib.sha256(text.encode()).digest()).decode() + "'"


def page(module, version):
    """The file's text, for the bytes of a module."""
    # `</` would end the element that the script stands in.
    script = "\n".join(['(() => {\n"use strict";', *map(read, SCRIPTS), "})();"]).replace("</", "<\\/")
    style = read("page.css")
    policy = f"default-src 'none'; script-src {digest(script)} 'wasm-unsafe-eval'; style-src {digest(style)}; worker-src blob:; base-uri 'none'; form-action 'none'"
    text = read("page.html")
    for name, value in (("policy", policy), ("style", style), ("version", version), ("module", base64.b64encode(gzip.compress(module, 9, mtime=0)).decode()), ("script", script)):
        if text.count("{{" + name + "}}") != 1:
            raise ValueError(f"page.html does not have {name} once")
        text = text.replace("{{" + name + "}}", value)
    return text
