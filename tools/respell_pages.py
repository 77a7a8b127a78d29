#!/usr/bin/env python3
"""Brings names in backticks of the pages to the spelling that the crates have: those that tools/respell.py or port.py turned.

usage: python3 tools/respell_pages.py        at the top
"""
import glob
import importlib.util
import os
import re

os.chdir(os.path.join(os.path.dirname(os.path.abspath(__file__)), ".."))
spec = importlib.util.spec_from_file_location("respell", "tools/respell.py")
respell = importlib.util.module_from_spec(spec)
spec.loader.exec_module(respell)
WORDS = set()
for path in respell.paths():
    WORDS.update(respell.TOKEN.findall(open(path, encoding="utf-8").read()))


def word(m):
    name = m.group(0)
    new = respell.spelled(name)
    return new if name not in WORDS and name != new and new in WORDS else name


for page in glob.glob("docs/*.md") + ["README.md"]:
    if page != "docs/PORT.md":
        text = open(page, encoding="utf-8").read()
        made = re.sub(r"`[^`\n]*`", lambda q: respell.TOKEN.sub(word, q.group(0)), text)
        if made != text:
            open(page, "w", encoding="utf-8").write(made)
