#!/usr/bin/env python3
"""Adds the lines `unfolding ..` that a check's notes offer.

usage: tools/unfold.py LOG        in the crate's folder; LOG is what `rt check` printed
"""

import re
import sys

log = open(sys.argv[1], encoding="utf-8").read()
NOTE = re.compile(r"^(\./[^:\s]+):(\d+):\d+: note: (?:a|the last of \d+) trial runs? of this declaration was admitted by the kernel\. That run had the line `unfolding ([^`]*)`", re.M)
by_file = {}
for path, line, names in NOTE.findall(log):
    by_file.setdefault(path, {})[int(line)] = names.split()
for path, lines in by_file.items():
    text = open(path, encoding="utf-8").read().split("\n")
    head_names = " ".join(t for t in text if t.startswith("use "))
    imports = {}
    for at in sorted(lines, reverse=True):
        names = []
        for it in lines[at]:
            module, _, short = it.rpartition(".")
            if module and not re.search(rf"[{{ ,.]{re.escape(short)}[}},]", head_names):
                imports.setdefault(module, []).append(short)
            names.append(short)
        end = at  # the signature's last line: those behind it that are indented belong to it, up to the first clause
        while end < len(text) and text[end].startswith("    ") and not text[end - 1].endswith("="):
            end += 1
        m = re.match(r"( *)", text[at - 1])
        if end < len(text) and text[end].strip().startswith("unfolding "):
            have = text[end].split()[1:]
            text[end] = m[1] + "unfolding " + " ".join(have + [n for n in names if n not in have])
        else:
            text.insert(end, m[1] + "unfolding " + " ".join(names))
    first = next(i for i, t in enumerate(text) if t.startswith("use "))
    for module, shorts in imports.items():
        text.insert(first, f"use {module}.{{{', '.join(sorted(set(shorts)))}}}")
    open(path, "w", encoding="utf-8").write("\n".join(text))
    print(path, lines)
