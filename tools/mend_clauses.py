#!/usr/bin/env python3
"""usage: mend_clauses.py CRATEDIR < check output: writes the missing clauses that the check names"""
import re, sys, os
os.chdir(sys.argv[1])
said = sys.stdin.read()
todo = {}
for m in re.finditer(r"^(\./[^:\n]+):(\d+):(\d+): error: `([^`]+)`:[^\n]*?write the clauses? ((?:`[^`\n]+`(?:, | and )?)+)", said, re.M):
    todo.setdefault(m[1], []).append((int(m[2]), m[4], re.findall(r"`([^`]+)`", m[5])))
for path, its in todo.items():
    lines = open(path, encoding="utf-8").read().split("\n")
    for line, name, texts in sorted(its, reverse=True):
        name = name.split(".")[-1]
        # the first clause of the definition at or after the error's declaration
        i = line - 1
        pat = re.compile(r"^(\s*)" + re.escape(texts[0].split()[0]) + r" (?!:)")
        # search backwards to signature, then forwards to first clause
        j = i
        sig = re.compile(r"^\s*(?:pub |abbrev |unfoldable )*" + re.escape(texts[0].split()[0]) + r" :")
        while j > 0 and not sig.match(lines[j]): j -= 1
        k = j
        while k < len(lines) and not (pat.match(lines[k])): k += 1
        if k >= len(lines): print("?", path, line, name); continue
        ind = pat.match(lines[k])[1]
        lines[k:k] = [ind + t for t in texts]
        print(path, name, texts)
    open(path, "w", encoding="utf-8").write("\n".join(lines))
