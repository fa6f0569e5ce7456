#!/usr/bin/env python3
"""Respells the repository's own names: words in snake case, types and their kind in upper camel case.

usage: python3 tools/respell.py [--list]     at the top of the repository, once, after port.py of the kit

A name with dashes that stands in an .antt file, or in a clause or a `ghost` line of an .rt file, is respelled,
unless the file has it from a library of the kit, or the checker makes it (the names of goals, and steps below `c` or `l`).
Comments, strings, code and everything outside crates/ stay as they are. With --list it writes nothing and prints each
old name and the new one. Names that would fall together are printed, with "look:" before them.
"""
import glob
import os
import re
import sys

NAME = r"[A-Za-zμ][\w'ℕ·]*(?:[-+][\w'ℕ·]+)+"
TOKEN = re.compile(r"(?<![\w'·\-])" + NAME)
DEFINES = re.compile(r"^\s*(?:(?:abbrev|pub|unfoldable|data|record|opaque)\s+)*(" + NAME + r")(?=[\s:(])", re.M)
GOAL = re.compile(r"^\s*(?:(?:abbrev|pub)\s+)*([\w'·\-]+)\s*:\s*goal\.", re.M)
USE = re.compile(r"^\s*(?:ghost\s+)?(?:pub\s+)?use\s+([^;{\n]*?)(?:\.\{([^}]*)\})?(?:\s+as\s+\S+)?\s*;?\s*$", re.M)


def crates():
    with open("crates.txt", encoding="utf-8") as f:
        return {line.split("#")[0].split(":")[0].split()[0] for line in f if ":" in line}


def own_path(path, mine):
    """Whether the path leads into a file of this repository: modules that the checker makes have none."""
    parts = path.strip().split(".")
    if not (len(parts) > 3 and parts[0] == "Rattle" and parts[1] in mine):
        return False
    return any(os.path.isfile(os.path.join("crates", parts[1], *parts[2:n]) + ".antt") for n in range(3, len(parts) + 1))


# Two lemmas on bits would have the name of a function of the kit.
APART = {"bit-and": "bit_of_and", "bit-or": "bit_of_or"}


def new_name(old):
    if old in APART:
        return APART[old]
    parts = [p for p in re.split(r"[-_]", old) if p]
    if old[0].isupper():
        return "".join(p[0].upper() + p[1:] for p in parts)
    return old.replace("-", "_")


def comment_start(line):
    m = re.search(r"(?<!\S)--(?!\S)|(?<!\S)--(?=\s)|^\s*--", line)
    return m.start() if m else len(line)


def foreign_names(text, mine):
    """Names that the file has from libraries that are not the repository's own."""
    found = set()
    for m in USE.finditer(text):
        if m.group(2) and not own_path(m.group(1), mine):
            for part in m.group(2).split(","):
                if " as " not in part:
                    found.add(part.strip())
    return found


class Turner:
    def __init__(self, mine, own):
        self.mine, self.own, self.turned = mine, own, {}

    def turn(self, code, foreign, goals, steps=False):
        def one(m):
            old = m.group(0)
            before = code[: m.start()]
            if before.endswith("."):
                head = re.search(r"[\w'·.\-]*$", before).group(0)
                if old not in self.own or (head.startswith("Rattle.") and not own_path(head, self.mine)):
                    return old
                if head.startswith("goal.") or (steps and re.match(r"(in|if|then|else|loop|match)-", old)):
                    return old
            elif old in foreign or old in goals:
                return old
            self.turned[old] = new_name(old)
            return self.turned[old]

        return TOKEN.sub(one, code)


def antt_text(text, turner, mine):
    # A file that answers goals speaks of the checker's steps below `c`, `l` and the like.
    steps = ".Goals as goal" in text or ".Given as goal" in text
    foreign, goals = foreign_names(text, mine), set(GOAL.findall(text))
    out = []
    for line in text.split("\n"):
        at = comment_start(line)
        code, rest = line[:at], line[at:]
        m = USE.match(line)
        code = re.sub(r"( as )(" + NAME + ")", lambda a: a.group(1) + new_name(a.group(2)), code) if m else code
        if m and not own_path(m.group(1), mine):
            out.append(code + rest)
        else:
            out.append(turner.turn(code, foreign, goals, steps) + rest)
    return "\n".join(out)


def ghost_spans(text):
    """Where clauses and ghost items of a .rt file stand: from the word to the end of its braces, or to a semicolon."""
    for m in re.finditer(r"^[ \t]*(?:pub )?(?:ghost\b|requires\b|ensures\b|decreases\b|invariant\b)", text, re.M):
        i, depth = m.end(), 0
        while i < len(text):
            ch = text[i]
            if ch == "{":
                depth += 1
            elif ch == "}":
                depth -= 1
                if depth == 0 and not re.match(r"\s*;", text[i + 1 :]):
                    yield m.start(), i + 1
                    break
            elif ch == ";" and depth == 0:
                yield m.start(), i + 1
                break
            i += 1


def rt_text(text, turner, mine):
    foreign = foreign_names(text, mine)
    out, at = [], 0
    for start, end in ghost_spans(text):
        if start < at:
            continue
        out.append(text[at:start])
        span = text[start:end]
        m = USE.match(span)
        out.append(span if m and not own_path(m.group(1), mine) else turner.turn(span, foreign, set()))
        at = end
    out.append(text[at:])
    return "".join(out)


def main():
    mine = crates()
    antt = sorted(glob.glob("crates/*/specs/**/*.antt", recursive=True) + glob.glob("crates/*/proofs/**/*.antt", recursive=True))
    rt = sorted(glob.glob("crates/*/src/**/*.rt", recursive=True))
    texts = {p: open(p, encoding="utf-8").read() for p in antt + rt}
    own, plain = set(), set()
    for p in antt:
        code = "\n".join(line[: comment_start(line)] for line in texts[p].split("\n"))
        own |= set(DEFINES.findall(code)) - set(GOAL.findall(code))
        plain |= set(re.findall(r"^\s*(?:(?:abbrev|pub|unfoldable|data|record|opaque)\s+)*([A-Za-z][\w']*)(?=[\s:(])", code, re.M))
    turner = Turner(mine, own)
    new = {p: (antt_text if p.endswith(".antt") else rt_text)(t, turner, mine) for p, t in texts.items()}
    together = {}
    for old, name in turner.turned.items():
        together.setdefault(name, set()).add(old)
    clash = [(n, sorted(o)) for n, o in together.items() if len(o) > 1 or n in plain]
    if "--list" in sys.argv:
        for old in sorted(turner.turned):
            print(old, turner.turned[old])
    for n, o in sorted(clash):
        print("look:", n, "from", ", ".join(o), "(and a name of that spelling stands already)" if n in plain else "")
    if "--list" not in sys.argv:
        for p, t in new.items():
            if t != texts[p]:
                open(p, "w", encoding="utf-8").write(t)
        print(len(turner.turned), "names respelled")


if __name__ == "__main__":
    os.chdir(os.environ.get("RESPELL_ROOT", "."))
    main()
