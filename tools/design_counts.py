#!/usr/bin/env python3
"""Places in src/ that read like an older language, point by point of docs/DESIGN-PASS.md.

    python3 tools/design_counts.py [FOLDER]    (FOLDER: a checkout, default .)

It goes by text, so it finds candidates: the page says of each what became of it."""
import collections, difflib, glob, itertools, os, re, sys

ROOT = sys.argv[1] if len(sys.argv) > 1 else "."
FILES = sorted(glob.glob(os.path.join(ROOT, "crates/*/src/**/*.rt"), recursive=True))


def text_of(path):
    lines = open(path, encoding="utf-8").read().split("\n")
    return "\n".join("" if l.strip().startswith("//") else l for l in lines)


TEXTS = {os.path.relpath(p, os.path.join(ROOT, "crates")): text_of(p) for p in FILES}


def functions():
    head = re.compile(r"^([ \t]*)(?:pub(?:\(crate\))? )?fn (\w+)", re.M)
    for path, text in TEXTS.items():
        for m in head.finditer(text):
            opening = text.find("(", m.end())
            depth, i = 0, opening
            while i < len(text):
                depth += text[i] == "("
                depth -= text[i] == ")"
                if depth == 0:
                    break
                i += 1
            parameters = text[opening + 1 : i]
            end = re.compile(r"^" + m.group(1) + r"\{(.*?)^" + m.group(1) + r"\}", re.M | re.S)
            body = end.search(text, i)
            one = re.compile(r"^" + m.group(1) + r"\{\}", re.M).search(text, i)
            if one and (not body or one.start() < body.start()):
                body = None
            upto = body.start() if body else len(text)
            following = head.search(text, i)
            if body and following and following.start() < body.start():
                inline = text[i + 1 : following.start()]
                yield path, m.group(2), parameters, inline, inline
                continue
            yield path, m.group(2), parameters, text[i + 1 : upto], body.group(1) if body else ""


FUNCTIONS = list(functions())


def lines(pattern):
    found = []
    for path, text in TEXTS.items():
        for k, line in enumerate(text.split("\n"), 1):
            if re.search(pattern, line):
                found.append(f"{path}:{k}: {line.strip()}")
    return found


def show(title, found):
    print(f"\n{title}: {len(found)}")
    for f in found:
        print("   ", f)


def tokens(body):
    return re.findall(r"\w+|[^\w\s]", body)


show("1a own enums of the shape of Option or Result", lines(r"^\s*(Nothing|Nil|Absent|Empty|Failed|Good|Bad)\b.*,$"))
show("1b answers true or false, or a count, beside what is written",
     [f"{p} {n}" for p, n, ps, s, _ in FUNCTIONS if "&mut" in ps and re.search(r"->\s*(bool|usize)\b", s)])
show("1c an Option of a fault", lines(r"Option<\w*(Fault|Trouble)>"))
show("1d a Result or an Option handed on by hand",
     lines(r"Err\((fault|trouble|e)\) => Err\(|return Err\((fault|trouble|e)\);|Err\(_\) => Err\(|None => Err\(|Some\(fault\) => Err\(|Some\(_\) => (true|false)|Ok\((\w+|\(\))\) => (Ok|Err)\("))

pairs = []
for (p, n, ps, s, b), (q, m, qs, t, c) in itertools.combinations(FUNCTIONS, 2):
    x, y = tokens(b), tokens(c)
    if n in ("main", "fmt", "from") or min(len(x), len(y)) < 8:
        continue
    r = difflib.SequenceMatcher(None, x, y, autojunk=False).ratio()
    if r >= 0.82:
        pairs.append(f"{r:.2f} {p} {n}  ~  {q} {m}")
show("2 bodies that are alike (share of equal tokens 0.82 and more)", sorted(pairs, reverse=True))
constants = collections.defaultdict(list)
for path, text in TEXTS.items():
    for m in re.finditer(r"const (\w+): \w+ = (\d+);", text):
        constants[m.group(2)].append(f"{path} {m.group(1)}")
show("2 constants of one value", [f"{v}: {', '.join(c)}" for v, c in constants.items() if len(c) > 1])

show("3a loops over a range", lines(r"\bfor _?\w+ in [^{]*\.\."))
show("3b while and loop", lines(r"\b(while|loop)\b"))

show("4 equality, order, conversion and printing by hand",
     [f"{p} {n}" for p, n, ps, s, b in FUNCTIONS
      if n in ("refusal", "name", "same", "agrees", "comes_before", "begins", "differs", "distance", "place_of", "number", "element")])

groups = collections.Counter()
where = collections.defaultdict(list)
for p, n, ps, s, b in FUNCTIONS:
    names = sorted(set(re.findall(r"(\w+)\s*:\s*[^,]+", ps)) - {"field", "self", "rt", "name"})
    for size in (3, 2):
        for g in itertools.combinations(names, size):
            groups[g] += 1
            where[g].append(f"{p} {n}")
show("5a three parameters together in three functions and more",
     [f"{', '.join(g)}: {k}" for g, k in sorted(groups.items(), key=lambda x: -x[1]) if k >= 3 and len(g) == 3])
show("5b plan and field together", [w for w in where.get(("plan",), [])] or
     [f"{p} {n}" for p, n, ps, s, b in FUNCTIONS if re.search(r"\bplan\b", ps) and re.search(r"\bfield\b", ps)])
facts = collections.Counter(re.sub(r"\s+", " ", f) for f in
                            itertools.chain.from_iterable(re.findall(r"requires(?: \w+)? \{ (.*?) \}$", t, re.M) for t in TEXTS.values()))
show("5c one fact required in three functions and more", [f"{f}: {k}" for f, k in facts.items() if k >= 3])

show("6 arrays of fixed length with a length or a count beside",
     [f"{p} {n}" for p, n, ps, s, b in FUNCTIONS
      if re.search(r"\[[^\]]*;[^\]]*\]", ps) and re.search(r"\b(count|tested|len|n|width)\s*:\s*usize", ps)]
     + [f"{p} struct {m.group(1)}" for p, t in TEXTS.items() for m in re.finditer(r"struct (\w+)[^{;]*\{(.*?)^\}", t, re.M | re.S)
        if re.search(r": \[", m.group(2)) and re.search(r"\b(n|count|words)\s*: usize", m.group(2))])

show("7 tables of kinds or steps, and matches on a kind",
     lines(r"const \w+: \[[A-Z]\w+;|\bmatch (chosen|verb|self)\b|: fn\("))

answers = glob.glob(os.path.join(ROOT, "crates/*/proofs/**/*.antt"), recursive=True)
sizes = collections.Counter()
for a in answers:
    sizes[os.path.relpath(a, os.path.join(ROOT, "crates")).split("/")[0]] += sum(1 for _ in open(a, encoding="utf-8"))
show("8 lines of proofs", [f"{c}: {k}" for c, k in sorted(sizes.items())])
print("files of proofs:", len(answers))
