#!/usr/bin/env python3
"""Brings the repository's own names to the spelling of today's Rattle, once, after port.py: run it at the top of the repository.

Words of definitions, lemmas, fields and constructors go to snake case (`maxTasks` is `max_tasks`); a field or a constructor of specs/ has no dash;
`ground` is a tactic's name today, and so `ground_for`. Names of the code, of std and of what Rattle makes stay. It prints which names fall together.
"""
import collections
import glob
import re
import sys

# words of std and of what Rattle makes
KEPT = {"flatMap", "getD", "in_Buffer", "is_Within", "mut_Tells", "shr_slice_Lawful", "shr_slice_Tells", "uint_Lawful", "uint_Makes",
        "uint_Tells", "walk_Meets"}
# names that would fall together with another
OTHER = {"goesOn": "continues", "peak-of": "peak_apart"}

WORD = re.compile(r"[A-Za-z_][A-Za-z0-9_']*")
NAME = re.compile(r"[A-Za-z_][A-Za-z0-9_'-]*")


def antt():
    return sorted(glob.glob("crates/*/specs/**/*.antt", recursive=True) + glob.glob("crates/*/proofs/**/*.antt", recursive=True))


def code(line):
    at = line.find("--")
    return line if at < 0 else line[:at]


def snake(word):
    if word in OTHER:
        return OTHER[word]
    return re.sub(r"(?<=[a-z0-9'])([A-Z])", lambda m: "_" + m.group(1).lower(), word)


def is_camel(word):
    return word[0].islower() and re.search("[A-Z]", word) is not None and word not in KEPT


def main():
    texts = {f: open(f, encoding="utf-8").read() for f in antt()}
    words = collections.Counter()
    for t in texts.values():
        for line in t.split("\n"):
            words.update(WORD.findall(code(line)))
    camel = {w: snake(w) for w in words if is_camel(w)}
    back = collections.defaultdict(set)
    for w, s in camel.items():
        back[s].add(w)
        if s in words:
            back[s].add(s)
    # fields and constructors of specs/ with a dash
    dashed = {}
    for f, t in texts.items():
        if "/specs/" in f:
            for line in t.split("\n"):
                m = re.match(r"  (?:pub )?([^\s:]+) :(?:\s|$)", code(line))
                if m and "-" in m.group(1):
                    dashed[m.group(1)] = OTHER.get(m.group(1), m.group(1).replace("-", "_"))
    names = set()
    for t in texts.values():
        for line in t.split("\n"):
            names.update(NAME.findall(code(line)))
    for w, s in dashed.items():
        if s in names:
            back[s].update((w, s))
        elif s in back:
            back[s].add(w)
    for s, ws in sorted(back.items()):
        if len(ws) > 1:
            print("falls together:", s, sorted(ws))
    for t in sys.argv[1:]:
        if t == "--try":
            return

    # a lemma of other crates has this name too
    local = {"peak-of": "crates/finding/"}

    def respell(text, file):
        text = WORD.sub(lambda m: camel.get(m.group(0), m.group(0)), text)
        return NAME.sub(lambda m: dashed[m.group(0)] if m.group(0) in dashed and file.startswith(local.get(m.group(0), "")) else m.group(0), text)

    # where a refusal's number is bound by that name it is k, as in the other definitions
    def grounds(text):
        return "\n".join(
            re.sub(r"(?<![A-Za-z0-9_'-])ground(?![A-Za-z0-9_'-])", "k" if re.search(r"\([Rr]efused ground\)", line) else "ground_for", code(line))
            + line[len(code(line)):]
            for line in text.split("\n"))

    for f, t in texts.items():
        new = grounds(respell(t, f))
        if new != t:
            open(f, "w", encoding="utf-8").write(new)
    for f in sorted(glob.glob("crates/*/src/**/*.rt", recursive=True)):
        t = open(f, encoding="utf-8").read()
        lines = []
        for line in t.split("\n"):
            at = line.find("//")
            head, tail = (line, "") if at < 0 else (line[:at], line[at:])
            if re.match(r"\s*(ghost |requires|ensures|also_)", head):
                head = re.sub(r"(?<![A-Za-z0-9_'.-])ground(?![A-Za-z0-9_'-])", "ground_for", head)
            head = respell(head, f) if '"' not in head else head
            lines.append(head + respell(tail, f))
        new = "\n".join(lines)
        if new != t:
            open(f, "w", encoding="utf-8").write(new)
    for f in sorted(glob.glob("*.md") + glob.glob("docs/*.md") + glob.glob("docs/requests/*.md")):
        t = open(f, encoding="utf-8").read()
        new = re.sub(r"`[^`\n]*`", lambda m: respell(m.group(0), f), t)
        if new != t:
            open(f, "w", encoding="utf-8").write(new)


main()
