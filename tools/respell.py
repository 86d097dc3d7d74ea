#!/usr/bin/env python3
"""Turns this repository's own definitions and lemmas to today's spelling: functions, lemmas, fields and constructors in snake case,
types and facts in camel case. Run once, at the top, on a tree that port.py has turned. Names that the check makes (goals, and what
is read off a goal's argument) keep their spelling, and so do strings, comments in code and all that is Rust.

usage: python3 tools/respell.py [--dry]
"""
import glob
import re
import sys

TOKEN = r"[^\s(){}\[\].,;|«»\"λ]+"
HEAD = re.compile(r"^(\s*)((?:abbrev |unfoldable |pub |data |record |ruleset )*)(" + TOKEN + r")\s*((?:\([^()]*\)|\{[^{}]*\}|\s)*):\s*(.*)$")
WORDS = re.compile(r"^(\s*)((?:abbrev |unfoldable |pub |data |record |ruleset )+)(" + TOKEN + r")")


def antt_files():
    return sorted(glob.glob("crates/*/specs/**/*.antt", recursive=True) + glob.glob("crates/*/proofs/**/*.antt", recursive=True))


STD = {"length", "take", "drop", "set", "map", "sum", "abs", "mul", "add", "neg", "append", "cond", "and", "or", "not"}


# these say where or how, and name nothing in a lemma's name
PLAIN = set("at back below between done find found from interval kept least met more most none not one order out paid there to same signed small start tests told upto within before after".split()) - {"signed", "order"}


def joined(name, words):
    """A lemma's name of two names: the dash between them stays."""
    parts = name.split("-")
    for k in range(1, len(parts)):
        left, right = "_".join(parts[:k]), "_".join(parts[k:])
        if left in words and right in words and left not in PLAIN and right not in PLAIN:
            return left + "-" + right
    return None


def respelled(name):
    """The name in today's spelling."""
    if name[0].isupper():
        parts = name.split("-")
        return "".join(p[:1].upper() + p[1:] for p in parts)
    name = name.replace("-", "_")
    return re.sub(r"(?<=[a-z0-9])([A-Z])", lambda m: "_" + m.group(1).lower(), name)


def declared():
    """The names that the repository's files declare, less those of goals."""
    names = set()
    made = set()
    words = set(STD)
    others = set()
    for path in antt_files():
        for line in open(path, encoding="utf-8"):
            if line.lstrip().startswith(("--", "use ", "mod ", "pub mod", "pub use", "module", "open ")):
                continue
            m = HEAD.match(line)
            if m and re.match(r"goal\.", m.group(5)):
                made.add(m.group(3))
                continue
            if m and (m.group(2) or not m.group(1) or len(m.group(1)) <= 6):
                names.add(m.group(3))
                lemma = not m.group(1) and m.group(2) in ("", "pub ")
                (others if lemma else words).add(m.group(3) if lemma else respelled(m.group(3)))
                continue
            w = WORDS.match(line)
            if w:
                names.add(w.group(3))
                words.add(respelled(w.group(3)))
    lemmas = {n for n in others if respelled(n) not in words and n[0].islower()}
    return {n for n in names if re.match(r"^[A-Za-z][\w'-]*$", n)}, made, lemmas, words


def aliases():
    """The names under which a file brings an item in."""
    found = set()
    for path in antt_files() + sorted(glob.glob("crates/*/src/**/*.rt", recursive=True)):
        for line in open(path, encoding="utf-8"):
            if re.match(r"\s*(ghost use|use) Rattle", line):
                found.update(re.findall(r" as (" + TOKEN + r")", line))
    return {n for n in found if re.match(r"^[A-Za-z][\w'-]*$", n)}


def turn_text(text, turned, seen, answers=False):
    """The text with each name that stands alone, or after a module's path, respelled."""
    def one(m):
        before = text[:m.start()]
        token = m.group(0)
        if token not in turned:
            return token
        path = re.search(r"([^\s(){},;|«»\"]*)\.$", before[-200:])
        if path and not re.match(r"^(Rattle|posted|market)\b", path.group(1)) and not path.group(1).startswith("λ"):
            head = path.group(1)
            if answers and re.match(r"^(c|goal|l|g)(\.|$)", head) or "-" not in token:
                return token
        seen.setdefault(token, 0)
        seen[token] += 1
        return turned[token]
    return re.sub(TOKEN, one, text)


def turn_antt(text, turned, seen, answers):
    out = []
    for line in text.split("\n"):
        code, dash, comment = line, "", ""
        m = re.search(r"(^|\s)--(\s|$)", line)
        if m:
            code, comment = line[: m.start()], line[m.start():]
        out.append(turn_text(code, turned, seen, answers) + comment)
    return "\n".join(out)


def turn_rt(text, turned, seen):
    """Ghost items and clauses alone; names with a dash or made of camel case stand nowhere else."""
    out = []
    for line in text.split("\n"):
        code, comment = line, ""
        m = re.search(r"(^|\s)//", line)
        if m:
            code, comment = line[: m.start()], line[m.start():]
        if '"' in code and not re.search(r"ensures|requires|ghost", code):
            out.append(line)
            continue
        out.append(turn_text(code, turned, seen) + comment)
    return "\n".join(out)


def main():
    dry = "--dry" in sys.argv
    names, made, lemmas, words = declared()
    for n in aliases():
        names.add(n)
    spell = {n: (joined(n, words) if n in lemmas else None) or respelled(n) for n in names}
    turned = {n: spell[n] for n in names if spell[n] != n and n not in made}
    kept = sorted(n for n in names if spell[n] == n and "-" in n)
    # the lemma that the keys from a border on are lawful, beside the definition of those keys
    turned["from_on"] = "From-from_on"
    clash = {}
    for old, new in turned.items():
        clash.setdefault(new, set()).add(old)
    seen = {}
    paths = antt_files() + sorted(glob.glob("crates/*/src/**/*.rt", recursive=True))
    for path in paths:
        text = open(path, encoding="utf-8").read()
        tokens = set(re.findall(TOKEN, text))
        for old, new in turned.items():
            if old in tokens and (new in tokens or len(clash[new] & tokens) > 1):
                print(f"look: {path}: {old} and {new} fall together")
        new = turn_rt(text, turned, seen) if path.endswith(".rt") else turn_antt(text, turned, seen, path.endswith(("Answers.antt", "Invariants.antt", "Proof.antt")))
        if new != text and not dry:
            open(path, "w", encoding="utf-8").write(new)
    both = sorted(made & names)
    print("made by the check and kept:", " ".join(both))
    print("two names joined, and kept:", " ".join(kept))
    if dry:
        print("\n".join(f"{o} -> {turned[o]} ({seen.get(o, 0)})" for o in sorted(turned)))


main()
