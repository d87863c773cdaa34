#!/usr/bin/env python3
"""Lists the places in src/ that today's forms might make plainer, and counts them.

Run at the top of the repository, or name a folder that holds crates/: python3 tools/places.py [FOLDER] [-v]
Without -v it prints the counts alone. It reads text and proves nothing: each place that it lists is to be looked at, and
docs/DESIGN-PASS.md says of each that is left why it is. Counts of proofs are of files and lines.
"""
import glob
import itertools
import os
import re
import sys

words = [a for a in sys.argv[1:] if not a.startswith("-")]
verbose = "-v" in sys.argv
root = words[0] if words else "."
sources = {}
for path in sorted(glob.glob(os.path.join(root, "crates", "*", "src", "**", "*.rt"), recursive=True)):
    sources[os.path.relpath(path, os.path.join(root, "crates"))] = open(path, encoding="utf-8").read()

found = {}


def place(point, path, at, what):
    text = sources[path]
    line = text.count("\n", 0, at) + 1
    found.setdefault(point, []).append(f"{path}:{line}: {what}")


def bare(text):
    """The text with comments blanked, so that places keep their lines."""
    return re.sub(r"//[^\n]*", lambda m: " " * len(m.group()), text)


class Function:
    def __init__(self, path, crate, name, at, signature, clauses, body):
        self.path, self.crate, self.name, self.at = path, crate, name, at
        self.signature, self.clauses, self.body = signature, clauses, body

    def parameters(self):
        inside, depth = [], 0
        start = self.signature.index("(")
        for c in self.signature[start:]:
            if c in "([<":
                depth += 1
            elif c in ")]>":
                depth -= 1
            inside.append(c)
            if depth == 0 and c == ")":
                break
        text, parts, depth, part = "".join(inside)[1:-1], [], 0, ""
        for c in text + ",":
            if c == "," and depth == 0:
                if part.strip():
                    parts.append(" ".join(part.split()))
                part = ""
                continue
            depth += c in "([<"
            depth -= c in ")]>"
            part += c
        return [p.removeprefix("mut ") for p in parts if "self" not in p.split(":")[0]]


def closing(text, at):
    depth = 0
    for i in range(at, len(text)):
        if text[i] == "{":
            depth += 1
        elif text[i] == "}":
            depth -= 1
            if depth == 0:
                return i
    return len(text) - 1


def functions(path, text):
    for m in re.finditer(r"^[ ]*(?:pub(?:\(crate\))? )?fn (\w+)", text, re.M):
        i = m.end()
        depth = 0
        while i < len(text):
            c = text[i]
            if c in "([":
                depth += 1
            elif c in ")]":
                depth -= 1
            elif depth == 0 and (c in "{;" or re.match(r"\s(requires|ensures)\b", text[i:i + 10])):
                break
            i += 1
        signature = text[m.start():i]
        clauses = []
        while True:
            k = re.match(r"\s*(requires|ensures)\*?(?: [\w]+)?\s*\{", text[i:])
            if not k:
                break
            end = closing(text, i + k.end() - 1)
            clauses.append((k.group(1), " ".join(text[i + k.end():end].split())))
            i = end + 1
        j = text.find("{", i)
        semi = text.find(";", i)
        body = ""
        if j >= 0 and (semi < 0 or j < semi):
            body = text[j:closing(text, j) + 1]
        yield Function(path, path.split("/")[0], m.group(1), m.start(), signature, clauses, body)


texts = {p: bare(t) for p, t in sources.items()}
all_functions = [f for p, t in texts.items() for f in functions(p, t)]

# 1: enums with two cases, numbers for kinds and refusals, a refusal in an Option, a flag beside a value
for path, text in texts.items():
    for m in re.finditer(r"enum (\w+)(?:<[^>]*>)? \{", text):
        body = text[m.end():closing(text, m.end() - 1)]
        flat = re.sub(r"\{[^{}]*\}|\([^()]*\)", "", body)
        cases = [c for c in flat.split(",") if c.strip()]
        if len(cases) == 2:
            place(1, path, m.start(), f"enum {m.group(1)} with two cases")
    for m in re.finditer(r"\bmeasure: u32|\brefusals?: \[u\d+", text):
        place(1, path, m.start(), "a number for a kind or refusal: " + m.group())
    for m in re.finditer(r"\b\w+: bool, *\w+:|\b\w+: bool,\n", text):
        place(1, path, m.start(), "a flag with a value beside it: " + m.group().strip())
for f in all_functions:
    if re.search(r"-> Option<Refusal>", f.signature):
        place(1, f.path, f.at, f"fn {f.name}: a refusal in an Option, turned into an Err by its caller")
    if re.search(r"-> u(8|32)", f.signature) and re.search(r"refusal|number", f.name) and f.name != "number" :
        place(1, f.path, f.at, f"fn {f.name}: a refusal as a number")
    if f.name == "number" and "-> u8" in f.signature:
        place(1, f.path, f.at, "fn number: a refusal as a number")

# 2: functions of one crate with one shape
KEEP = {"let", "mut", "if", "else", "match", "for", "in", "while", "return", "fn", "pub", "crate", "Some", "None", "Ok", "Err", "true", "false", "self", "Self", "impl"}


def shape(f):
    tokens = re.findall(r"\"[^\"]*\"|'[^']'|\w+|[^\w\s]", f.signature.replace(f.name, "NAME", 1) + f.body)
    return tuple(t if t in KEEP or not re.match(r"\w|\"|'", t) else "x" for t in tokens)


shapes = {}
for f in all_functions:
    s = shape(f)
    if len(s) >= 25 and f.body:
        shapes.setdefault((f.crate, s), []).append(f)
for (crate, _), fs in shapes.items():
    if len(fs) > 1:
        for f in fs[1:]:
            place(2, f.path, f.at, f"fn {f.name} has the shape of {fs[0].name}")

# 3: loops that count or push by hand
for path, text in texts.items():
    for m in re.finditer(r"for (\w+|\([^)]*\)) in ([^{]*)\{", text):
        body = text[m.end():closing(text, m.end() - 1)]
        var = m.group(1)
        ranged = ".." in m.group(2)
        if ranged and re.search(r"\[[^\]]*\b%s\b[^\]]*\]" % re.escape(var.strip("()")), body):
            place(3, path, m.start(), f"for {var} in {m.group(2).strip()}: indexes by hand")
        elif re.search(r"\.push(_reserved)?\(", body) and body.count(";") <= 2 and "push_str" not in body:
            place(3, path, m.start(), f"for {var} in {m.group(2).strip()}: pushes one by one")
        elif re.search(r"return (true|false|Some|Ok)", body):
            place(3, path, m.start(), f"for {var} in {m.group(2).strip()}: searches by hand")
    for m in re.finditer(r"\bwhile (?!let)", text):
        place(3, path, m.start(), "while")

# 4: equality, order, conversion, printing and drops by hand
for path, text in texts.items():
    for m in re.finditer(r"impl Drop for (\w+)", text):
        place(4, path, m.start(), f"impl Drop for {m.group(1)} by hand")
    for m in re.finditer(r"format!\(in [^;]*; ", text):
        place(4, path, m.start(), "a text is made, to be printed into another or handed on")
    for m in re.finditer(r"self\.(\w+) == \w+ && self\.\w+ == ", text):
        place(4, path, m.start(), "equality field by field")
    for m in re.finditer(r"#\[derive\(([^)]*)\)\]\s*pub (?:struct|enum) (\w+)", text):
        if "PartialEq" not in m.group(1) and "Copy" in m.group(1):
            place(4, path, m.start(), f"{m.group(2)}: plain data without PartialEq and Debug")
for f in all_functions:
    if re.search(r"fn (join|meet)\(self", f.signature) and "match self" in f.body:
        place(4, f.path, f.at, f"fn {f.name}: an order by hand")
    if re.search(r"if n < 0|as u32\)$", f.body) and "-> Option<u32>" in f.signature:
        place(4, f.path, f.at, f"fn {f.name}: a conversion by hand")
    if re.match(r"\{\s*match \w+ \{(\s*[\d'][^=]*=> Some\(\w+::\w+\),)+\s*_ => None,\s*\}\s*\}$", f.body):
        place(4, f.path, f.at, f"fn {f.name}: a conversion by hand")
    if re.match(r"\{\s*match self \{(\s*\w+::\w+( \{ \.\. \})? => \d+,)+\s*\}\s*\}$", f.body):
        place(4, f.path, f.at, f"fn {f.name}: a conversion by hand")

# 5: a clause of three or more functions, and parameters that three or more functions share
clauses = {}
for f in all_functions:
    for kind, text in f.clauses:
        if kind == "requires":
            key = re.sub(r"\b\w+\.(now|old)\b", "x", text)
            clauses.setdefault((f.crate, key), []).append(f)
for (crate, key), fs in clauses.items():
    if len(set(fs)) >= 3:
        place(5, fs[0].path, fs[0].at, f"{len(set(fs))} functions require {key}")
views = {}
for f in all_functions:
    for _, text in f.clauses:
        for m in set(re.findall(r"survey_of S\.Store\.most S\.Readings\.ranges", text)):
            views.setdefault(f.crate, {}).setdefault(m, []).append(f)
for crate, ms in views.items():
    for m, fs in ms.items():
        if len(fs) >= 3:
            place(5, fs[0].path, fs[0].at, f"{len(fs)} clauses say {m}")
for crate in sorted({f.crate for f in all_functions}):
    fs = [f for f in all_functions if f.crate == crate]
    sets = [(f, set(f.parameters())) for f in fs]
    groups = {}
    for r in range(12, 1, -1):
        seen = set()
        for f, ps in sets:
            for combo in itertools.combinations(sorted(ps), r):
                if combo in seen:
                    continue
                seen.add(combo)
                with_all = [g for g, qs in sets if set(combo) <= qs]
                if len(with_all) >= 3 and not any(set(combo) <= set(c) for c in groups):
                    groups[combo] = with_all
    for c, gs in groups.items():
        place(5, gs[0].path, gs[0].at, f"{len(gs)} functions take ({', '.join(c)})")

# 6: buffers and indices
for path, text in texts.items():
    for m in re.finditer(r"Vec<bool>|: \[u\d+; \d+\]|(?:next|head): Option<usize>|levels: &\[K\], places: usize", text):
        place(6, path, m.start(), m.group())

# 7: switches
for path, text in texts.items():
    for m in re.finditer(r"\bside: Side\b", text):
        place(7, path, m.start(), "a switch is passed on: " + m.group())

for point in range(1, 8):
    ps = found.get(point, [])
    print(f"point {point}: {len(ps)}")
    if verbose:
        for p in ps:
            print("  " + p)
for name, pattern in (("answers", "Answers.antt"), ("invariants", "Invariants.antt"), ("lemmas", "")):
    files = [p for p in glob.glob(os.path.join(root, "crates", "*", "proofs", "**", "*.antt"), recursive=True)]
    if pattern:
        files = [p for p in files if os.path.basename(p) == pattern]
    else:
        files = [p for p in files if os.path.basename(p) not in ("Answers.antt", "Invariants.antt")]
    print(f"point 8, {name}: {len(files)} files, {sum(len(open(p, encoding='utf-8').readlines()) for p in files)} lines")
