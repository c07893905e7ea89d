#!/usr/bin/env python3
"""Lets each import of a lemma name the module that defines it, in every crate of the tree that it is run in.

    python3 reimport.py [TREE]

For a crate that was written before small lemmas moved: a name that its module no longer defines is imported from the
one module that does. A name that several define, or none, is printed and left.
"""
import os
import re
import subprocess
import sys

TREE = sys.argv[1] if len(sys.argv) > 1 else "."
MODULE = re.compile(r"crates/(lapi_\w+)/proofs/([A-Z]\w*)\.antt$")
PUBLIC = re.compile(r"^\s*(?:abbrev |unfoldable )?pub ([\w][\w\-']*) :", re.M)
DEFINED = re.compile(r"^\s*(?:pub |abbrev |unfoldable |record |data )*([\w][\w\-']*)(?: [({][^\n]*)? :", re.M)
USE = re.compile(r"^(?P<head>(?:ghost )?use )(?P<module>Rattle\.lapi_\w+\.proofs\.[A-Z]\w*)\.\{(?P<names>[^}]*)\}(?P<tail>;?)$", re.M)


def names_in(text):
    return [name.strip() for name in text.split(",") if name.strip()]


def read_definitions(files):
    """What each module of lemmas defines, and which modules have a public name."""
    own, homes = {}, {}
    for path in files:
        found = MODULE.match(path)
        if found:
            module = "Rattle.%s.proofs.%s" % found.groups()
            text = open(path).read()
            own[module] = set(DEFINED.findall(text))
            for name in PUBLIC.findall(text):
                homes.setdefault(name, set()).add(module)
    return own, homes


def home_of(name, module, own, homes):
    """The module that a name is to be imported from, or None where that isn't known."""
    if name in own.get(module, ()):
        return module
    others = [home for home in homes.get(name, ()) if home != module]
    base = [home for home in others if home.startswith("Rattle.lapi_base.")] or others
    return base[0] if len(base) == 1 else None


def redirect(path, text, own, homes):
    wanted, lines, places = {}, [], {}
    for line in text.split("\n"):
        found = USE.fullmatch(line)
        if not found:
            lines.append(line)
            continue
        for name in names_in(found["names"]):
            home = home_of(name.split(" as ")[0], found["module"], own, homes)
            if home is None:
                print(path, found["module"], name)
                home = found["module"]
            if home not in places:
                places[home] = len(lines)
                lines.append((found["head"], home, found["tail"]))
            names = wanted.setdefault(home, [])
            if name not in names:
                names.append(name)
    spelled = lambda use: "%s%s.{%s}%s" % (use[0], use[1], ", ".join(wanted[use[1]]), use[2])
    return "\n".join(line if isinstance(line, str) else spelled(line) for line in lines)


def main():
    os.chdir(TREE)
    listed = subprocess.run(["git", "ls-files", "*.antt", "*.rt"], capture_output=True, text=True).stdout.split()
    files = [path for path in listed if os.path.exists(path)]
    own, homes = read_definitions(files)
    for path in files:
        text = open(path).read()
        changed = redirect(path, text, own, homes)
        if changed != text:
            open(path, "w").write(changed)


main()
