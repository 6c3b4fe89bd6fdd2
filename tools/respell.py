#!/usr/bin/env python3
"""Respells the definitions and lemmas of this repository after the kit's port.py: words in snake case, types, facts and modules in camel case.

usage: tools/respell.py    at the top of the repository; tools/names.txt has a line for each name, old and new. A second run changes nothing
"""
import os
import re
import subprocess

HERE = os.path.dirname(os.path.realpath(__file__))
MODULES = {"layouts": "Layouts", "reading": "Reading", "writing": "Writing"}


def main():
    with open(os.path.join(HERE, "names.txt"), encoding="utf-8") as f:
        names = dict(line.split() for line in f)
    word = re.compile(r"(?<![\w'\-])(" + "|".join(re.escape(n) for n in sorted(names, key=len, reverse=True)) + r")(?![\w'\-])")
    module = re.compile(r"(?<=Rattle\.wire\.proofs\.)(" + "|".join(MODULES) + r")(?=[.;])")
    for folder, dirs, files in os.walk("crates"):
        dirs[:] = [d for d in dirs if d != "out"]
        for name in files:
            if not name.endswith((".rt", ".antt", ".edit")):
                continue
            path = os.path.join(folder, name)
            with open(path, encoding="utf-8") as f:
                old = f.read()
            new = module.sub(lambda m: MODULES[m.group(1)], word.sub(lambda m: names[m.group(1)], old))
            if path == os.path.join("crates", "wire", "proofs", "Lib.antt"):
                new = re.sub(r"(?m)^((?:pub )?mod )(" + "|".join(MODULES) + r")$", lambda m: m.group(1) + MODULES[m.group(2)], new)
            if new != old:
                with open(path, "w", encoding="utf-8") as f:
                    f.write(new)
    for old, new in MODULES.items():
        at = os.path.join("crates", "wire", "proofs")
        if not os.path.exists(os.path.join(at, old + ".antt")):
            continue
        subprocess.run(["git", "mv", os.path.join(at, old), os.path.join(at, new)], check=True)
        subprocess.run(["git", "mv", os.path.join(at, old + ".antt"), os.path.join(at, new + ".antt")], check=True)


main()
