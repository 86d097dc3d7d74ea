#!/usr/bin/env python3
"""Counts the places of docs/DESIGN-PASS.md: `tools/places.py [COMMIT]` prints, for each point, how many places in src/ a
pattern finds at a commit (HEAD where none is named), and each of them. What is a place and what is none is read by hand: the page says."""
import collections
import re
import subprocess
import sys

commit = sys.argv[1] if len(sys.argv) > 1 else "HEAD"


def git(*words):
    return subprocess.run(["git", *words], capture_output=True, text=True, check=True).stdout


names = git("ls-tree", "-r", "--name-only", commit, "crates").split()
sources = {n: git("show", f"{commit}:{n}") for n in names if "/src/" in n and n.endswith(".rt")}


def lines(pattern):
    rule = re.compile(pattern)
    return [f"{n}:{i}: {t.strip()}" for n, s in sources.items() for i, t in enumerate(s.split("\n"), 1)
            if rule.search(t.split("//")[0])]


def functions():
    for name, text in sources.items():
        for found in re.finditer(r"\bfn (\w+)(?:<[^(]*?>)?\(", text):
            depth, at = 1, found.end()
            while depth:
                depth += {"(": 1, ")": -1}.get(text[at], 0)
                at += 1
            head = text[at:re.compile(r"\n\s*\{\n|;\n|\{\}\n|\{\n").search(text, at).start()]
            line = text.count("\n", 0, found.start()) + 1
            yield f"{name}:{line}: {found.group(1)}", text[found.end():at - 1], head


def show(title, places):
    print(f"== {title}: {len(places)}")
    for place in places:
        print("  ", place)


TOGETHER = [{"orders", "blocks"}, {"numbers", "order_list", "block_list"}, {"book", "fills", "interval"},
            {"memory", "fills"}]

show("1 enums", lines(r"\benum [A-Z]"))
show("1 flags in a struct, and functions that change something and answer a flag",
     lines(r"^\s+(pub(\(crate\))? )?\w+: bool,$")
     + [f for f, p, h in functions() if "&mut" in p and re.match(r"\s*-> bool", h)])
show("1 numbers for refusals and kinds",
     lines(r"fn (number|place|number_at|code)\(|const (NOT_OPEN|OUT_OF_BOUNDS|OUTSIDE_RUN)\b"))
show("2 one name twice and more among the functions of src/ outside tests",
     [f"{k}: {', '.join(v)}" for k, v in sorted(collections.OrderedDict(
         (k, [f.split(": ")[0] for f, p, h in functions() if f.split(": ")[1] == k and "_tests/" not in f])
         for k in sorted({f.split(": ")[1] for f, p, h in functions()})).items()) if len(v) > 1])
show("2 impls for Order and for Block", lines(r"impl.* for (Order|Block|OrderCandidate|BlockCandidate)\b|impl (Order|Block) |Rule<(Order|Block)>|Amount<(Order|Block)>|Check<(Order|Block)>"))
show("2 constants that stand twice and more",
     [f"{k}: {', '.join(v)}" for k, v in sorted(collections.OrderedDict(
         (k, [l.split(": ")[0] for l in lines(rf"\bconst {k}\b")])
         for k in sorted(set(re.findall(r"\bconst ([A-Z_]+):", "\n".join(sources.values()))))).items()) if len(v) > 1])
show("3 loops over an index or a count", lines(r"\bfor \w+ in .*\.\.|\bwhile\b"))
show("4 impls and functions that compare, convert, copy and print by hand",
     lines(r"impl.* (fmt::Display|Display|Error|PartialEq|PartialOrd|Ord|Clone|Drop|Default) for"
           r"|fn (precedes|lift|reason|trade|with_\w+|are_same|is_unsettled|is_out|is_noted|opposite|in_order)\("))
show("5 functions whose parameters travel together",
     [f for f, p, h in functions() if any(t <= set(re.findall(r"(\w+):", p)) for t in TOGETHER)])
facts = collections.Counter()
where = collections.defaultdict(list)
for f, p, h in functions():
    for fact in re.findall(r"requires(?: \w+)? \{(.*)\}", h):
        key = " ".join(re.sub(r"[\w.]*\.(now|old)\b|\b\d+\b", "_", fact).split())
        facts[key] += 1
        where[key].append(f.split(": ")[1])
show("5 facts required by three functions and more", [f"{k}: {', '.join(where[k])}" for k, n in facts.most_common() if n > 2])
show("6 lengths beside a buffer, searches by hand",
     lines(r"\b(len|count): usize|fn (place_of|count_below|smallest|ahead|open_count)\b"))
show("7 matches on a step, single-method traits", lines(r"match (filled|stage|step|call)\b|\btrait (Check|Rule|Amount)\b|impl.* (Check|Rule|Amount)<"))
answers = [n for n in names if n.endswith("Answers.antt")]
modules = [n for n in names if re.search(r"/proofs/[A-Z]\w*\.antt$", n)]
show("8 files of answers", answers)
show("8 lemma modules", modules)
