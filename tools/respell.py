#!/usr/bin/env python3
"""Spells the repository's own definitions, lemmas and variables in snake case: `signedIn` and `reads-16` become `signed_in` and `reads_16`.

usage: python3 tools/respell.py [--list]     at the top, once, on the sources as the kit's port.py leaves them

Names of functions of src/, of types, modules, strings, files and of the kit's library stay. --list writes nothing and lists the names
that would fall together. The names in backticks of README.md and docs/ follow, also those written crate/name.
"""

import collections
import glob
import re
import sys

WORD = r"[^\s(){}\[\];,.|`\"]+"
MODIFIERS = {"abbrev", "unfoldable", "pub", "data", "record", "mutual", "private"}
# names that would fall together with another, or with a word of the library, and what they are called
CHOSEN = {
    "leftOut": "is_left_out",
    "one-frame": "one_frame_read",
    "worked-out": "angles_worked_out",
    "device-in": "device_in_lem",
    "last-in": "last_in_lem",
    "no-mark": "no_mark_lem",
    "no-nominal": "no_nominal_lem",
    "no-rate": "no_rate_lem",
    "no-version": "no_version_lem",
    "only-stray": "only_stray_lem",
    "percent-squared": "percent_squared_lem",
    "phase-back": "phase_back_lem",
    "signed-in": "signed_in_lem",
}
# lemmas that are in snake case already, and would fall together with a definition, where they are declared and cited
LEMMAS = {
    "too_short": ["header/proofs/Order", "header/proofs/read_header/Proof"],
    "head_in": ["bank/proofs/Keeping"],
    "is_open": ["bank/proofs/Keeping", "bank/proofs/Angles", "salvage/proofs/Slots", "acceptance/proofs/Shows", "acceptance/proofs/Lasting", "acceptance/proofs/ConditionB"],
    "left_by": ["salvage/proofs/Slots", "acceptance/proofs/Salvage"],
    "said_at": ["salvage/proofs/Images", "acceptance/proofs/Salvage"],
    "with_part": ["bank/proofs/Parts", "bank/proofs/Angles"],
}


def snake(name):
    name = re.sub(r"(?<=[a-z0-9])([A-Z])", lambda m: "_" + m.group(1).lower(), name)
    return name.replace("-", "_")


def odd(name):
    """Whether a name is an own word in an older spelling: it begins in lower case, and has a hump or a dash."""
    return bool(re.match(r"[a-z]", name)) and bool(re.search(r"[a-z0-9][A-Z]|[A-Za-z0-9_'′]-[A-Za-z0-9]", name))


def no_comments(text):
    return re.sub(r"(?m)--(?= |$).*$", "", text)


def imports(text):
    """The names that a file takes from the library, and from the repository."""
    library, own = set(), set()
    for m in re.finditer(r"(?ms)^\s*(?:ghost )?use ([\w.·]+?)\.\{(.*?)\}", text):
        into = own if any(m.group(1).startswith(f"Rattle.{c}.") for c in CRATES) else library
        for item in m.group(2).split(","):
            words = item.split()
            if words:
                into.add(words[0] if into is own else words[-1])
                if into is library:
                    into.add(words[0])
    return library, own


def declared(text, goals):
    """The names that a file declares: left of a colon at the start of a line, or constructors and fields of its data and records."""
    found = set()
    for line in no_comments(text).splitlines():
        m = re.match(r"^\s*((?:\w+\s+)*?)(" + WORD + r"(?:\s+" + WORD + r")*?)\s*(?:\([^()]*(?:\([^()]*\)[^()]*)*\)\s*)*:\s(.*)", line)
        if not m:
            continue
        words = m.group(2).split()
        while words and words[0] in MODIFIERS:
            words = words[1:]
        if m.group(3).startswith(("tie.", "goal.")) or (goals and m.group(3).startswith(("{M :", "statement"))):
            continue
        if len(words) == 1:
            found.add(words[0])
    return found


def local(text):
    """The variables that a file binds: by a parenthesis, a λ, a let, or as a pattern."""
    found = set()
    text = no_comments(text)
    for m in re.finditer(r"[({]((?:" + WORD + r"\s+)*" + WORD + r")\s*:\s", text):
        found.update(m.group(1).split())
    for m in re.finditer(r"λ\s+((?:" + WORD + r"\s+)+|" + WORD + r")", text):
        found.update(m.group(1).split())
    for m in re.finditer(r"let\s+(" + WORD + r")\s*[:=]", text):
        found.add(m.group(1))
    for line in text.splitlines():
        m = re.match(r"^\s*(" + WORD + r"(?:\s+[^=]*)?)=\s", line)
        if m and not line.lstrip().startswith("let "):
            found.update(re.findall(WORD, m.group(1))[1:])
    return {n for n in found if odd(n) and not n.startswith(("◌", "-"))}


def respelt(name, to, now):
    """A name in a page: as the sources have it now, whichever script turned it."""
    if name in to or not odd(name):
        return to.get(name, name)
    return snake(name) if snake(name) in now else name


def files():
    for p in sorted(glob.glob("crates/*/specs/*.antt") + glob.glob("crates/*/proofs/**/*.antt", recursive=True)):
        yield p


def in_function(path):
    return path.split("/")[2] == "proofs" and len(path.split("/")) > 4


def main(listing):
    texts = {p: open(p, encoding="utf-8").read() for p in files()}
    every = set()
    own = collections.defaultdict(set)
    for p, t in texts.items():
        names = declared(t, in_function(p))
        every |= names
        for n in names:
            if odd(n):
                own[n].add(p)
    to = {n: CHOSEN.get(n, snake(n)) for n in own}
    if listing:
        back = collections.defaultdict(set)
        for n, s in to.items():
            back[s].add(n)
        for s, ns in sorted(back.items()):
            if len(ns) > 1 or s in every:
                print("falls together:", s, sorted(ns), "(declared)" if s in every else "", sorted({p for n in ns for p in own[n]})[:6])
    token = re.compile(r"(?<![^\s(){}\[\];,.|`\"λ←])" + WORD)
    for p, t in texts.items():
        library, _ = imports(t)
        here = dict(to)
        if not in_function(p):
            for n in local(t):
                here.setdefault(n, CHOSEN.get(n, snake(n)))
        here["IsRefused-as"] = "refused_as"
        for n in re.findall(r"\bas ([a-z][\w'-]*)(?=[,}])", t):
            if odd(n):
                here.setdefault(n, snake(n))
        for n in library:
            here.pop(n, None)
        for n, where in LEMMAS.items():
            if p[len("crates/") : -len(".antt")] in where:
                here[n] = n + "_lem"
        if listing:
            used = set(re.findall(WORD, no_comments(t)))
            back = collections.defaultdict(set)
            for n in set(here) & used:
                back[here[n]].add(n)
            for s, ns in sorted(back.items()):
                if len(ns) > 1:
                    print("fall together in one file:", p, s, sorted(ns))
            for n in sorted(set(here) & used):
                if here[n] in used:
                    print("also there:", p, n, "->", here[n])
                if here[n] in library:
                    print("is the library's:", p, n, "->", here[n])
        out = []
        for line in t.split("\n"):
            code, dash, comment = line, "", ""
            m = re.search(r"(?:^|\s)--(?: |$)", line)
            if m:
                at = line.index("--", m.start())
                code, dash, comment = line[:at], "--", line[at + 2 :]
            if re.match(r"\s*use (?!" + "|".join(rf"Rattle\.{c}\." for c in CRATES) + ")", code):
                out.append(line)
                continue
            code = token.sub(lambda m: here.get(m.group(0), m.group(0)), code)
            comment = re.sub(r"`([^`]+)`", lambda m: "`" + token.sub(lambda k: here.get(k.group(0), k.group(0)), m.group(1)) + "`", comment)
            out.append(code + dash + comment)
        if not listing:
            open(p, "w", encoding="utf-8").write("\n".join(out))
    for p in sorted(glob.glob("crates/*/src/**/*.rt", recursive=True)):
        t = open(p, encoding="utf-8").read()
        s = re.sub(r"(?<![\w.'\"-])[a-z]\w*(?:-\w+)*", lambda m: to.get(m.group(0), m.group(0)) if odd(m.group(0)) else m.group(0), t)
        if listing:
            for n in sorted(to):
                if re.search(r"\b" + re.escape(n) + r"\b", t) and re.search(r"\b" + re.escape(to[n]) + r"\b", t):
                    print("source has both:", p, n, to[n])
        elif s != t:
            open(p, "w", encoding="utf-8").write(s)
    now = {to.get(n, n) for n in every}
    for p in ["README.md"] + sorted(glob.glob("docs/**/*.md", recursive=True)):
        t = open(p, encoding="utf-8").read()

        def span(m):
            return "`" + re.sub(r"(?<![\w-])(\w+/)?([a-z][\w'′]*(?:-[\w'′]+)*)(?![\w-])", lambda k: (k.group(1) or "") + respelt(k.group(2), to, now), m.group(1)) + "`"

        s = re.sub(r"`([^`\n]+)`", span, t)
        if not listing and s != t:
            open(p, "w", encoding="utf-8").write(s)


CRATES = [l.split(":")[0].split()[0] for l in open("crates.txt", encoding="utf-8") if l.strip() and not l.startswith("#")]

if __name__ == "__main__":
    main("--list" in sys.argv[1:])
