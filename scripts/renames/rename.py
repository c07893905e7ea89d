#!/usr/bin/env python3
"""Moves definitions into rooms and gives words other names, in every crate of the tree that it is run in.

    python3 rename.py TREE [CRATE..]

tables.py says what. It is done for all crates that stand here; for one that was written before, name that crate: then
only its files are changed. Imports of small lemmas that moved are reimport.py's.
"""
import os, re, subprocess, sys
sys.path.insert(0, os.path.dirname(os.path.abspath(__file__)))
from tables import MODULES, SYMBOLS, WORDS, LOCAL, PREFIXES, PREFIX_CRATES, CLAUSES, FILES, WIRES, TYPES

TREE = os.path.abspath(sys.argv[1]) if len(sys.argv) > 1 else os.getcwd()
CRATES = sys.argv[2:]
IDENT = r"[\w\-'+]"

def sources():
    for base, dirs, names in os.walk(os.path.join(TREE, "crates")):
        dirs[:] = [d for d in dirs if d != "out"]
        for name in names:
            path = os.path.join(base, name)
            if name.endswith((".antt", ".rt", ".edit")) and (not CRATES or crate_of(path) in CRATES):
                yield path

def crate_of(path):
    return os.path.relpath(path, os.path.join(TREE, "crates")).split(os.sep)[0]

def room_path(crate, kind, module):
    return os.path.join(TREE, "crates", crate, kind, *module.split(".")) + ".antt"

# ---- files

def move_modules():
    for (crate, kind, old, new) in MODULES:
        a, b = room_path(crate, kind, old), room_path(crate, kind, new)
        if os.path.exists(a) and not os.path.exists(b):
            os.makedirs(os.path.dirname(b), exist_ok=True)
            subprocess.run(["git", "mv", a, b], cwd=TREE, check=True)
            rename_entry(crate, kind, old, new)
    for old, new in FILES:
        a, b = os.path.join(TREE, old), os.path.join(TREE, new)
        if os.path.exists(a) and not os.path.exists(b):
            os.makedirs(os.path.dirname(b), exist_ok=True)
            subprocess.run(["git", "mv", a, b], cwd=TREE, check=True)

def index(crate, kind, parts):
    """The file that lists the modules of a folder."""
    if not parts:
        return os.path.join(TREE, "crates", crate, kind, "Lib.antt")
    return os.path.join(TREE, "crates", crate, kind, *parts) + ".antt"

def rename_entry(crate, kind, old, new):
    olds, news = old.split("."), new.split(".")
    path = index(crate, kind, olds[:-1])
    text = open(path).read()
    lines = text.split("\n")
    at = next(i for i, l in enumerate(lines) if re.fullmatch(r"(pub )?mod " + re.escape(olds[-1]), l.strip()))
    word = lines[at].split()[0]
    mod = "pub mod " if word == "pub" else "mod "
    if olds[:-1] == news[:-1]:
        lines[at] = mod + news[-1]
        open(path, "w").write("\n".join(lines))
        return
    del lines[at]
    top = "pub mod " + news[0]
    if olds[:-1] == [] and top not in lines:
        lines.insert(len([l for l in lines if l[8:] in ("Record", "Packet", "Input", "Output", "Laws")]) + first_mod(lines), top)
    open(path, "w").write("\n".join(lines))
    room = index(crate, kind, news[:-1])
    entries = open(room).read() if os.path.exists(room) else ""
    if mod + news[-1] not in entries.split("\n"):
        open(room, "w").write(entries + mod + news[-1] + "\n")

def first_mod(lines):
    return next((i for i, l in enumerate(lines) if re.match(r"(pub )?mod ", l)), 0)

# ---- references to modules

def module_changes():
    out = []
    for (crate, kind, old, new) in MODULES:
        out.append((crate, kind, old, new))
    return out

def rename_modules(path, text):
    crate = crate_of(path)
    for (c, kind, old, new) in module_changes():
        dots, colons = new, new.replace(".", "::")
        text = re.sub(r"\bRattle\.%s\.%s\.%s(?![\w\-])(?!\.[A-Z]\w*(\.| as))" % (c, kind, re.escape(old)), "Rattle.%s.%s.%s" % (c, kind, dots), text)
        text = re.sub(r"\b%s::%s::%s(?![\w\-])(?!::[A-Z]\w*::)" % (c, kind, old.replace(".", "::")), "%s::%s::%s" % (c, kind, colons), text)
        if crate == c:
            text = re.sub(r"\bcrate::%s::%s(?![\w\-])(?!::[A-Z]\w*::)" % (kind, old.replace(".", "::")), "crate::%s::%s" % (kind, colons), text)
    return text

# ---- symbols that move from one module to another

USE = re.compile(r"^(?P<head>\s*(?:ghost )?use )(?P<module>Rattle\.[\w.]+)\.\{(?P<names>[^}]*)\}(?P<tail>;?)[ ]*$", re.M)

def names_in(text):
    return [n.strip() for n in text.split(",") if n.strip()]

def move_symbols(path, text):
    for (source, target, symbols) in SYMBOLS:
        moved = set(symbols)
        def split(m):
            if m.group("module") != source:
                return m.group(0)
            names = names_in(m.group("names"))
            go = [n for n in names if n.split(" as ")[0].strip() in moved]
            stay = [n for n in names if n not in go]
            lines = []
            own = module_of(path)
            if go and own != target:
                lines.append("%s%s.{%s}%s" % (m.group("head"), target, ", ".join(go), m.group("tail")))
            if stay:
                lines.append("%s%s.{%s}%s" % (m.group("head"), source, ", ".join(stay), m.group("tail")))
            return "\n".join(lines)
        text = USE.sub(split, text)
        alias = re.search(r"^use %s as (\w+)$" % re.escape(source), text, re.M)
        if alias:
            used = set(re.findall(r"(?<![\w\-.'])%s\.([\w\-]+)" % alias.group(1), text))
            if used & moved:
                both = "use %s as on_wires" % target + ("\n" + alias.group(0) if used - moved else "")
                text = text.replace(alias.group(0), both)
                for n in used & moved:
                    text = re.sub(r"(?<![\w\-.'])%s\.%s(?![\w\-'])" % (alias.group(1), re.escape(n)), "on_wires." + n, text)
        s = source.replace("Rattle.", "").replace(".", "::"); t = target.replace("Rattle.", "").replace(".", "::")
        for n in symbols:
            text = re.sub(r"\b%s::%s(?![\w\-])" % (s, n), "%s::%s" % (t, n), text)
            if crate_of(path) == s.split("::")[0]:
                cs = "crate::" + s.split("::", 1)[1]; ct = "crate::" + t.split("::", 1)[1]
                text = re.sub(r"\b%s::%s(?![\w\-])" % (cs, n), "%s::%s" % (ct, n), text)
    return merge_uses(text)

def merge_uses(text):
    """One line for each module that is imported from."""
    lines, seen, out = text.split("\n"), {}, []
    for line in lines:
        m = USE.fullmatch(line)
        if m and not line.startswith(" "):
            key = (m.group("head"), m.group("module"))
            if key in seen:
                i = seen[key]
                old = USE.fullmatch(out[i])
                names = names_in(old.group("names"))
                names += [n for n in names_in(m.group("names")) if n not in names]
                out[i] = "%s%s.{%s}%s" % (m.group("head"), m.group("module"), ", ".join(names), m.group("tail"))
                continue
            seen[key] = len(out)
        out.append(line)
    return "\n".join(out)

# ---- words

def module_of(path):
    rel = os.path.relpath(path, os.path.join(TREE, "crates"))
    return "Rattle." + rel.replace(os.sep, ".")[: -len(".antt")] if path.endswith(".antt") else None

def token(word):
    return re.compile(r"(?<![\w\-.'])%s(?![\w\-'])" % re.escape(word))

def clauses(text):
    """The spans of a .rt file that are of clauses, ghost items and attributes."""
    spans = []
    for m in re.finditer(r"\b(requires|ensures|returns|decreases)\b(\s+\w+)?\s*\{|\bghost\b[^;{]*=\s*\{", text):
        depth, i = 1, m.end()
        while i < len(text) and depth:
            depth += {"{": 1, "}": -1}.get(text[i], 0)
            i += 1
        spans.append((m.start(), i))
    for m in re.finditer(r"^\s*ghost use [^;]*;", text, re.M):
        spans.append(m.span())
    for m in re.finditer(r"#\[tactic\([^\]]*\]", text):
        spans.append(m.span())
    return spans

def replace_in(text, spans, pattern, new):
    out, at = [], 0
    for a, b in sorted(spans):
        if a < at:
            continue
        out.append(text[at:a])
        out.append(pattern.sub(new, text[a:b]))
        at = b
    out.append(text[at:])
    return "".join(out)

def imports(text, module, word):
    for m in USE.finditer(text):
        if m.group("module") == module and word in names_in(m.group("names")):
            return True
    return False

def rename_words(path, text):
    own = module_of(path)
    for (module, old, new) in WORDS:
        alias = re.search(r"use %s as (\w+)" % re.escape(module), text)
        if alias:
            text = re.sub(r"(?<![\w\-.'])%s\.%s(?![\w\-'])" % (alias.group(1), re.escape(old)), "%s.%s" % (alias.group(1), new), text)
        dotted = module.replace("Rattle.", "").replace(".", "::")
        text = re.sub(r"\b%s::%s(?![\w\-])" % (dotted, re.escape(old)), "%s::%s" % (dotted, new), text)
        if crate_of(path) == dotted.split("::")[0]:
            local = "crate::" + dotted.split("::", 1)[1]
            text = re.sub(r"\b%s::%s(?![\w\-])" % (local, re.escape(old)), "%s::%s" % (local, new), text)
        if own == module or imports(text, module, old):
            if path.endswith(".rt") or path.endswith(".edit"):
                text = replace_in(text, clauses(text), token(old), new)
            else:
                lines = text.split("\n")
                for i, line in enumerate(lines):
                    m = USE.fullmatch(line)
                    if not m or m.group("module") == module:
                        lines[i] = token(old).sub(new, line)
                text = "\n".join(lines)
    return text

# ---- names in one file, prefixes, clauses

def rename_local(path, text):
    rel = os.path.relpath(path, os.path.join(TREE, "crates"))
    for (where, pattern, new) in LOCAL:
        hit = rel.startswith(where[:-1]) if where.endswith("*") else rel == where
        if hit and path.endswith(".antt"):
            text = re.sub(pattern, new, text)
    return text

def rename_prefixes(path, text):
    if not path.endswith(".antt") or crate_of(path) not in PREFIX_CRATES:
        return text
    for old, new in PREFIXES:
        text = re.sub(r"(?<![\w.'-])%s(?=[\w])" % re.escape(old), new, text)
    return text

def rename_clauses(path, text):
    for (crate, old, new) in CLAUSES:
        if crate_of(path) == crate:
            if path.endswith(".rt"):
                text = re.sub(r"\b(requires|ensures) %s \{" % old, r"\1 %s {" % new, text)
            if "/proofs/task/" in path:
                text = re.sub(r"(?<![\w.'-])%s = " % old, new + " = ", text)
            if path.endswith(".antt"):
                text = re.sub(r"(clause-)%s(?![\w-])" % old, r"\g<1>%s" % new, text)
        if path.endswith(".antt") and crate_of(path) in ("lapi_task", "lapi_world"):
            text = re.sub(r"\.(ensures|requires)\.%s(?![\w-])" % old, r".\1.%s" % new, text)
    return text

def rename_types(path, text):
    comment = "--" if path.endswith(".antt") else "//"
    lines = []
    for line in text.split("\n"):
        code, mark, rest = line.partition(comment)
        for old, new in TYPES:
            code = re.sub(r"\b%s\b" % old, new, code)
        lines.append(code + mark + rest)
    text = "\n".join(lines)
    if path.endswith("lapi_task/src/task.rt"):
        text = text.replace("mod lends;", "mod accessors;")
    return text

def rename_network(path, text):
    """The struct of a world that was called Kept."""
    if crate_of(path) != "lapi_world":
        return text
    text = text.replace("src/kept.rt", "src/network.rt").replace(".kept.Kept", ".network.Network").replace("lapi_world.proofs.kept.", "lapi_world.proofs.network.").replace("lapi_world.specs.declared.kept.", "lapi_world.specs.declared.network.").replace("kept::Kept", "network::Network")
    text = re.sub(r"\bKept\b", "Network", text)
    if path.endswith(".antt"):
        text = re.sub(r"(?<![\w.'-])kept-with(?![\w-])", "network-with", text)
        text = re.sub(r"(?<![\w.'-])kept(?![\w'-])(?! = h\.kept)", "network", text)
        text = re.sub(r"\bw\.kept\b", "w.network", text)
        text = re.sub(r"\bin_ok-kept\.kept\b", "in_ok-network.network", text)
        text = re.sub(r"\bin_ok-kept\b", "in_ok-network", text)
    else:
        text = re.sub(r"\bkept\b", "network", text)
    return text

# ---- the record in two files

def split_record():
    """Record.Acts keeps what each line adds; Record.Wires gets what stands on wires."""
    acts, wires = room_path("lapi_base", "specs", "Record.Acts"), room_path("lapi_base", "specs", "Record.Wires")
    if os.path.exists(wires) or not os.path.exists(acts):
        return
    text = open(acts).read()
    at = text.index("-- After some lines:")
    head = text[:at]
    uses = head[head.index("use "):]
    body = text[at:]
    a = body.index("  -- What a Poll copies:")
    numbers, rest = body[:a], body[a:]
    b = rest.index("module _ (script : Script) (rules : Rules) where")
    copies, rest = rest[:b], rest[b:]
    def cut(text, start, end):
        i = text.index(start); j = text.index(end, i)
        return text[i:j], text[:i] + text[j:]
    packets, rest = cut(rest, "  -- the packet of number n on the link", "  abbrev pub reply_with")
    owed, rest = cut(rest, "  -- the acknowledgement of what was delivered", "  unfoldable pub poll :")
    stale, rest = cut(rest, "  -- Tick: the numbers that it sends again.", "  unfoldable pub tick :")
    for old, new in (("sends r J a b", "sends script rules r J a b"), ("packets r.journal a b (stale r a b)", "packets script rules r.journal a b (stale script rules r a b)"), ("(ack s a b)", "(ack script rules s a b)")):
        rest = rest.replace(old, new)
    module = "module _ (script : Script) (rules : Rules) where\n"
    own = "use Rattle.lapi_base.specs.Record.Wires.{%s}\n" % ", ".join(WIRES)
    open(wires, "w").write(
        "-- What a record has on its wires: the entries, the numbers of each link, which were sent, delivered and\n"
        "-- acknowledged, and what a task would send. This is the project's own.\n"
        + uses + numbers.rstrip() + "\n\n" + module + packets + stale + owed.rstrip() + "\n")
    open(acts, "w").write(
        "-- What each line of a schedule adds to the record: events, replies and entries on wires. The calls are those of the\n"
        "-- RSCT LAPI Programming Guide, SA22-7936, in outline; the rest is this project's own.\n"
        + uses.rstrip() + "\n" + own + "\nmodule _ (script : Script) where\n" + copies + rest)
    entries = room_path("lapi_base", "specs", "Record")
    t = open(entries).read()
    t = t.replace("pub mod Acts\n", "")
    open(entries, "w").write(t.replace("pub mod Packets\n", "pub mod Packets\npub mod Wires\npub mod Acts\n"))

def main():
    move_modules()
    split_record()
    for path in list(sources()):
        before = open(path).read()
        text = rename_modules(path, before)
        text = move_symbols(path, text)
        text = rename_local(path, text)
        text = rename_words(path, text)
        text = rename_prefixes(path, text)
        text = rename_clauses(path, text)
        text = rename_network(path, text)
        text = rename_types(path, text)
        if text != before:
            open(path, "w").write(text)

main()
