#!/usr/bin/env python3
"""Lists the places in crates/*/src that are written in a form that the language has a newer one for.

usage: tools/forms.py [POINT..]       from the top of the repository; with no POINT, all; the last lines are the counts

It reads text, not meaning: what it lists is looked at by a person (docs/DESIGN-PASS.md)."""
import difflib, glob, re, sys
from collections import defaultdict


class Function:
    def __init__(self, file, line, name, params, result, contract, body):
        self.file, self.line, self.name = file, line, name
        self.params, self.result, self.contract, self.body = params, result, contract, body

    def __str__(self):
        return f"{self.file.replace('crates/', '').replace('/src', '')}:{self.line} {self.name}"


def closing(s, i, a, b):
    "The index behind the bracket that closes the one at i."
    depth = 0
    while i < len(s):
        c = s[i]
        if c == '"':
            i = s.index('"', i + 1) if s[i - 1] != "\\" else i
        elif c == a:
            depth += 1
        elif c == b:
            depth -= 1
            if depth == 0:
                return i + 1
        i += 1
    return len(s)


def blank(s):
    "Comments, byte characters and the insides of string literals left out, lines kept."
    s = re.sub(r"//[^\n]*", "", s)
    s = re.sub(r'"(?:\\.|[^"\\])*"', lambda m: '"' + re.sub(r"[^\n]", "_", m.group(0)[1:-1]) + '"', s, flags=re.S)
    return re.sub(r"b?'(?:\\.|[^'\\])'", lambda m: "'_'", s)


def functions(file, text):
    s = blank(text)
    for m in re.finditer(r"\bfn (\w+)(?:<[^(]*>)?\(", s):
        after = closing(s, m.end() - 1, "(", ")")
        params = [p.strip() for p in re.split(r",(?![^<(]*[>)])", s[m.end():after - 1]) if p.strip()]
        stop = min([x for x in (s.find("\n{", after), s.find(" {\n", after)) if x >= 0], default=-1)
        head = s[after:].split("ensures")[0].split("requires")[0]
        r = re.match(r"\s*->\s*([^{;]+)", head)
        result = r.group(1).strip() if r else ""
        i = after
        while i < len(s):
            k = re.compile(r"\s*(?:->\s*[^{;]*?)?(?=\s*(?:requires|ensures|\{|;|where))").match(s, i)
            if k:
                i = k.end()
            c = re.compile(r"\s*(requires|ensures)\*?\s*(\w+\s*)?\{").match(s, i)
            if not c:
                break
            i = closing(s, c.end() - 1, "{", "}")
        contract = text[after:i] if len(text) == len(s) else s[after:i]
        b = re.compile(r"\s*\{").match(s, i)
        body = s[b.end():closing(s, b.end() - 1, "{", "}") - 1] if b else ""
        yield Function(file, s.count("\n", 0, m.start()) + 1, m.group(1), params, result, s[after:i], body)


files = {f: open(f).read() for f in sorted(glob.glob("crates/*/src/**/*.rt", recursive=True)) if not f.endswith("tables.rt")}
all_functions = [f for file, text in files.items() for f in functions(file, text)]
found = defaultdict(list)


def matches(body):
    "Each match of a body, as the list of its arms."
    for m in re.finditer(r"\bmatch [^{;]*\{", body):
        inside = body[m.end():closing(body, m.end() - 1, "{", "}") - 1]
        arms, i = [], 0
        while True:
            a = re.compile(r"\s*([^=]*?(?:=(?!>)[^=]*?)*?)=>\s*").match(inside, i)
            if not a:
                break
            j = a.end()
            if inside[j:j + 1] == "{":
                k = closing(inside, j, "{", "}")
            else:
                k, depth = j, 0
                while k < len(inside) and not (inside[k] == "," and depth == 0):
                    depth += inside[k] in "([{"
                    depth -= inside[k] in ")]}"
                    k += 1
            arms.append((a.group(1).strip(), inside[j:k].strip()))
            i = k + 1 if inside[k:k + 1] == "," else k
            if not inside[i:].strip():
                break
        yield arms


PASSES = re.compile(r"^(None|true|false|\d+|at|\w+|Some\(.*\)|Ok\(.*\)|Err\(.*\)|unreachable\(\)|return .*)$", re.S)

# 1: Options and Results in all but name
for f in all_functions:
    if re.search(r"Option<(\w+::)?(Outcome|Refusal)>", f.result) and "refusal" not in str(f.params):
        found[1].append(f"{f}: an Option that is an error")
    if re.search(r"if let Some\((\w+)\) = [^{]*\{\s*return Err\(", f.body):
        found[1].append(f"{f}: an error tested for and returned")
    for arms in matches(f.body):
        heads = [a[0] for a in arms]
        if len(arms) == 2 and all(re.match(r"^(Some\(|None$|Ok\(|Err\(|Err$)", h) for h in heads) and any(PASSES.match(a[1].rstrip(",")) for a in arms):
            found[1].append(f"{f}: a match that a method or ? says")
    if re.search(r"return Err\((\w+) \{\s*\w+: Outcome", f.body) or re.search(r"else \{\s*return Err\(", f.body):
        found[1].append(f"{f}: an error made where ok_or and ? say it")
for file, text in files.items():
    for m in re.finditer(r"//[^\n]*(or the number of|if there is neither|of any other byte|0 where)[^\n]*", text):
        found[1].append(f"{file.replace('crates/', '').replace('/src', '')}:{text.count(chr(10), 0, m.start()) + 1}: {m.group(0)}")

# 2: twins
ordinary = [f for f in all_functions if len(f.body.split()) >= 6 and f.name != "main"]
norm = {id(f): re.sub(r"\s+", " ", f.body) for f in ordinary}
for i, f in enumerate(ordinary):
    for g in ordinary[i + 1:]:
        a, b = norm[id(f)], norm[id(g)]
        if 2 * min(len(a), len(b)) / (len(a) + len(b)) < 0.8:
            continue
        m = difflib.SequenceMatcher(None, a, b, autojunk=False)
        if m.quick_ratio() >= 0.85 and m.ratio() >= 0.85:
            found[2].append(f"{f} ~ {g}")
types = defaultdict(list)
for file, text in files.items():
    for m in re.finditer(r"\bstruct (\w+)[^{;(]*\{([^}]*)\}", blank(text)):
        fields = " ".join(sorted(re.findall(r"(\w+): [\[&\w]", re.sub(r"ghost [^\n]*", "", m.group(2)))))
        types[fields].append(f"{file} {m.group(1)}")
    for m in re.finditer(r"\bconst (\w+): ([^=]+)= ([^;]+);", blank(text)):
        if not re.search(r"Upload|Settings|&", m.group(2)):
            types[f"const {m.group(1)} {m.group(3)}"].append(f"{file} {m.group(1)}")
for fields, names in types.items():
    if len(names) > 1:
        found[2].append(" ~ ".join(names))

# 3: loops that count
for f in all_functions:
    for m in re.finditer(r"\bwhile (?!let)([^{]*)\{", f.body):
        found[3].append(f"{f}: while {m.group(1).strip()}")
    for m in re.finditer(r"\bfor (\w+) in ([^{]*\.\.[^{]*)\{", f.body):
        inside = f.body[m.end():closing(f.body, m.end() - 1, "{", "}")]
        if m.group(1).startswith("_") and not re.search(r"push|extend", inside):
            continue
        found[3].append(f"{f}: for {m.group(1)} in {m.group(2).strip()}")
    if re.search(r"\bfor (\w+|\([^)]*\)) in [^{]*\{\s*if [^{]*\{\s*return (\w+|true|false|Some\(\w+\));\s*\}\s*\}", f.body):
        found[3].append(f"{f}: a for that position, all or any says")

# 4: equality, conversion and printing by hand
for f in all_functions:
    if re.search(r"(\w+)\.(\w+) == (\w+)\.\2 && \1\.(\w+) == \3\.\4", f.body):
        found[4].append(f"{f}: fields compared one by one")
    for arms in matches(f.body):
        bodies = [a[1].rstrip(",") for a in arms]
        if len(arms) >= 2 and all(b in ("true", "false") for b in bodies):
            found[4].append(f"{f}: a match of true and false")
        elif len(arms) >= 3 and all(re.match(r'^b?"_*"$', b) for b in bodies) and f.name != "name":
            found[4].append(f"{f}: words of an enum")
        elif len(arms) >= 2 and all(re.match(r"^(0x)?\d+$", b) for b in bodies):
            found[4].append(f"{f}: numbers of an enum")
        elif len(arms) >= 3 and f.name != "from" and all(re.match(r"^(\w+::)+\w+( \{ \w+ \}|\(\w+\))?$", b) for b in bodies):
            found[4].append(f"{f}: one enum turned into another")
    if len(re.findall(r"return Some\(\w+::\w+\);", f.body)) >= 2 or re.search(r'== "_+" \{\s*(return )?Some\(\w+::', f.body):
        found[4].append(f"{f}: a chain of comparisons that a table or a match says")

# 5: repeated facts, and parameters that travel together
clauses = defaultdict(set)
groups = defaultdict(set)
for f in all_functions:
    crate = f.file.split("/")[1]
    for m in re.finditer(r"\b(requires|ensures)\*?\s*\w*\s*\{", f.contract):
        end = closing(f.contract, m.end() - 1, "{", "}")
        clauses[crate, re.sub(r"\s+", " ", f.contract[m.end():end - 1].strip())].add(str(f))
    params = [re.sub(r"^mut ", "", p) for p in f.params if ":" in p and not re.match(r"(rt|heap|mut self|self|f):", p) and "HostRuntime" not in p]
    for i, p in enumerate(params):
        for q in params[i + 1:]:
            groups[crate, p, q].add(str(f))
for (crate, clause), where in clauses.items():
    if len(where) >= 3:
        found[5].append(f"{crate}: {{ {clause[:90]} }} in {len(where)} contracts")
together = defaultdict(set)
for (crate, p, q), where in groups.items():
    if len(where) >= 3:
        together[crate, frozenset(where)] |= {p, q}
for (crate, where), params in together.items():
    found[5].append(f"{crate}: ({', '.join(sorted(params))}) in {len(where)} functions")

# 6: lengths beside buffers, arrays side by side
for file, text in files.items():
    for m in re.finditer(r"\bstruct (\w+)[^{;(]*\{([^}]*)\}", blank(text)):
        arrays = re.findall(r"(\w+): \[[^\]]*; [^\]]*\]", m.group(2))
        if arrays and re.search(r"\b(len|count|used|length)\w*: (usize|u64)", m.group(2)):
            found[6].append(f"{file} {m.group(1)}: a buffer with its length beside it")
        if len(arrays) >= 2:
            found[6].append(f"{file} {m.group(1)}: arrays side by side: {', '.join(arrays)}")
        if re.search(r"\bnext: \[", m.group(2)):
            found[6].append(f"{file} {m.group(1)}: an arena of indices")
    for m in re.finditer(r"\b(start|first|at): usize,\s*(pub )?(len|length|size): usize", blank(text)):
        found[6].append(f"{file}:{text.count(chr(10), 0, m.start()) + 1}: a place and a length")
for f in all_functions:
    if any(re.search(r"&(mut )?Vec<", p) for p in f.params) and "push" not in f.body and "extend" not in f.body and "remove" not in f.body and "make(" not in f.body:
        found[6].append(f"{f}: a borrowed Vec that is only read")

# 7: which step to run
for f in all_functions:
    for arms in matches(f.body):
        calls = [re.match(r"^(?:self\.)?(\w+)\(", a[1]) for a in arms]
        if len(arms) >= 3 and sum(1 for c in calls if c and c.group(1) not in ("Some", "Ok", "Err")) >= 3 and len({c.group(1) for c in calls if c}) >= 3:
            found[7].append(f"{f}: a switch on which step to run")
    if any(re.search(r"\b(kind|story|wanted): \w+$", p) for p in f.params) and "match" in f.body and not any(c.startswith(f"{f}:") for c in found[7]):
        found[7].append(f"{f}: a switch on {[p for p in f.params if re.search(r'kind|story|wanted', p)][0]}")

points = [int(a) for a in sys.argv[1:]] or range(1, 8)
for point in points:
    print(f"== point {point}")
    for place in sorted(set(found[point])):
        print("  " + place)
print("counts: " + ", ".join(f"{point}: {len(set(found[point]))}" for point in points))
