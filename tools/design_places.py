#!/usr/bin/env python3
"""Lists the places of eight older designs in crates/*/src and the answers in crates/*/proofs, and counts them.

    tools/design_places.py [--counts] [COMMIT]

Without COMMIT it reads the working tree, else that commit. Each place is a line `point<TAB>file:line<TAB>text`;
the counts stand at the end. It goes by text alone: the same text gives the same lines at any commit.
"""
import collections
import io
import os
import re
import subprocess
import sys
import tarfile

ROOT = os.path.dirname(os.path.dirname(os.path.abspath(__file__)))
POINTS = {
    "1": "own Option or Result, refusal numbers, flags beside values",
    "2": "twins",
    "3": "index loops",
    "4": "equality, conversion, copying by hand",
    "5": "facts and parameters that travel together",
    "6": "lengths beside buffers, parallel arrays, spans of numbers",
    "7": "switches on which step to run",
    "8": "answer files",
}
FAILED = "Refused|Bad|BadLog|BadBatch|NoRoom|Nothing|Unknown|Failed|Negative|Torn|Absent|Long|NoneDue|NoOrder"
NUMBER_TYPE = r"\b[iu](?:8|16|32|64|size)\b"
LENGTH_NAME = r"(?:len|length|end|count|size|next|n|most|reserve)"


def files_of(commit):
    """(path, text) of each .rt file of a src/ folder and each .antt file of a proofs/ folder."""
    if commit:
        raw = subprocess.run(["git", "-C", ROOT, "archive", commit, "crates"], check=True, capture_output=True).stdout
        with tarfile.open(fileobj=io.BytesIO(raw)) as tar:
            found = [(m.name, tar.extractfile(m).read().decode()) for m in tar.getmembers() if m.isfile() and wanted(m.name)]
    else:
        names = subprocess.run(["git", "-C", ROOT, "ls-files", "-co", "--exclude-standard", "crates"], check=True, capture_output=True, text=True).stdout.split("\n")
        found = [(n, open(os.path.join(ROOT, n)).read()) for n in names if wanted(n) and os.path.exists(os.path.join(ROOT, n))]
    return sorted(found)


def wanted(name):
    return re.fullmatch(r"crates/\w+/src/[\w/]+\.rt", name) or re.fullmatch(r"crates/\w+/proofs/.+\.antt", name)


def blank(text):
    """The text with comments and strings blanked out, each byte and line where it was."""
    hide = lambda m: re.sub(r"[^\n]", " ", m.group())
    return re.sub(r'//[^\n]*|b?"(?:\\.|[^"\\])*"', hide, text)


def closing(text, at):
    """Where the bracket that opens at `at` closes."""
    depth = 0
    for i in range(at, len(text)):
        if text[i] in "([{":
            depth += 1
        elif text[i] in ")]}":
            depth -= 1
            if depth == 0:
                return i
    return len(text)


def split_top(text, mark):
    """The parts of a text between marks that stand outside brackets."""
    parts, depth, last = [], 0, 0
    for i, c in enumerate(text):
        if c in "([{<" and not text.startswith("<=", i) and not text.startswith("< ", i):
            depth += 1
        elif c in ")]}" or (c == ">" and text[i - 1] not in "-=" and text[i + 1:i + 2] != "=" and text[i - 1] != " "):
            depth -= 1
        elif depth == 0 and text.startswith(mark, i):
            parts.append(text[last:i])
            last = i + len(mark)
    parts.append(text[last:])
    return [p.strip() for p in parts if p.strip()]


Item = collections.namedtuple("Item", "path line kind name head body")


def items_of(path, text):
    """The structs, enums and functions of a file. The body of a function is what follows its contract."""
    clean = blank(text)
    found = []
    for m in re.finditer(r"^[ ]*(?:pub(?:\([a-z]+\))? )?(struct|enum|fn) (\w+)", clean, re.M):
        kind, name = m.group(1), m.group(2)
        line = clean.count("\n", 0, m.start(1)) + 1
        if kind == "fn":
            at = clean.index("(", m.end())
            after = closing(clean, at)
            # clauses are `word name { .. }`; the body is the first brace that no clause word leads
            i, body = after, None
            while body is None:
                brace = clean.find("{", i)
                semi = clean.find(";", i)
                if brace < 0 or 0 <= semi < brace:
                    break
                lead = clean[i:brace].strip().split("\n")[-1].strip()
                end = closing(clean, brace)
                if re.match(r"(requires|ensures|decreases|ghost)\b", lead):
                    i = end + 1
                else:
                    body = (brace, end)
            if body:
                found.append(Item(path, line, kind, name, text[m.start():body[0]], clean[body[0] + 1:body[1]]))
        else:
            brace = re.compile(r"[{;]").search(clean, m.end()).start()
            end = closing(clean, brace) if clean[brace] == "{" else brace
            found.append(Item(path, line, kind, name, "", clean[brace + 1:end]))
    return found


def parameters(item):
    at = item.head.index("(")
    return [re.sub(r"^mut ", "", p) for p in split_top(" ".join(item.head[at + 1:closing(item.head, at)].split()), ",")]


def point_1(items, texts):
    for i in items:
        if i.kind == "enum":
            variants = split_top(i.body, ",")
            names = [re.match(r"\w+", re.sub(r"#\[[^\]]*\]\s*", "", v)).group() for v in variants]
            bare = [n for n, v in zip(names, variants) if "(" not in v and "{" not in v]
            two = len(names) == 2 and len(bare) == 1
            failed = len(bare) < len(names) and any(re.fullmatch(FAILED, n) for n in names)
            if two or failed:
                yield i.path, i.line, f"enum {i.name}: {', '.join(names)}"
        if i.kind == "struct":
            for f in re.finditer(r"(\w+): (bool\b|u8\b)", i.body):
                yield i.path, i.line, f"struct {i.name}: {f.group()}"
        if i.kind == "fn":
            for p in parameters(i):
                if re.match(r"(refusal|number|refused): u8$", p):
                    yield i.path, i.line, f"fn {i.name}: {p}"
            if re.search(r"\)\s*-> u8\s", i.head + " "):
                yield i.path, i.line, f"fn {i.name} -> u8"
    for path, text in texts:
        for n, line in enumerate(text.split("\n"), 1):
            if re.match(r"\s*(pub )?const \w+: u8 =", line):
                yield path, n, line.strip()


def shape(body):
    """A body with its types, constants, numbers and own names put aside."""
    body = re.sub(r"\s+", " ", body).strip()
    names = {}
    def put(m):
        w = m.group()
        if re.fullmatch(r"let|if|else|match|return|while|for|in|mut|as|true|false|self|loop|break", w):
            return w
        if re.fullmatch(r"[iu](8|16|32|64|size)|\d\w*|[A-Z]\w*", w):
            return "#"
        return w
    return re.sub(r"[A-Za-z_]\w*|\d\w*", put, body), names


def point_2(items):
    groups = collections.defaultdict(list)
    for i in items:
        if i.kind == "fn" and len(i.body.split()) >= 4:
            groups[shape(i.body)[0]].append(i)
    seen = set()
    for members in groups.values():
        if len(members) >= 2:
            for i in members:
                seen.add((i.path, i.line))
                yield i.path, i.line, f"fn {i.name}: body as of {', '.join(sorted({m.name for m in members}))}"
    suffix = r"_?(?:[iu]?(?:8|16|32|64)|usize|one|two|three|four)$"
    by_name = collections.defaultdict(list)
    for i in items:
        if re.search(suffix, i.name, re.I):
            by_name[i.path.split("/")[1], i.kind, re.sub(suffix, "", i.name, flags=re.I)].append(i)
    for members in by_name.values():
        if len(members) >= 2:
            for i in members:
                if (i.path, i.line) not in seen:
                    yield i.path, i.line, f"{i.kind} {i.name}: name as of {', '.join(m.name for m in members)}"


def point_3(texts):
    for path, text in texts:
        clean = blank(text)
        for m in re.finditer(r"^[ ]*while [^\n]*", clean, re.M):
            line = clean.count("\n", 0, m.start()) + 1
            yield path, line, m.group().strip()
        for m in re.finditer(r"^[ ]*for (\w+) in [^\n]*\.\.[^\n]*\{", clean, re.M):
            body = clean[m.end():closing(clean, m.end() - 1)]
            if re.search(r"\[" + m.group(1) + r"\]", body):
                yield path, clean.count("\n", 0, m.start()) + 1, m.group().strip()


PLAIN = r"(?:\s*[\w:]+\s*=>\s*(?:true|false|-?\d\w*|[\w]+(?:::\w+)+|Some\([\w:]+\)|None)\s*,?)+"


def point_4(items, texts):
    for i in items:
        if i.kind != "fn":
            continue
        m = re.fullmatch(r"\s*match [\w.]+ \{((?:.|\n)*)\}\s*", i.body)
        if m and re.fullmatch(r"(?:\s*[\w:| ]+(?:\{[^}]*\}|\([^)]*\))?\s*=>\s*(?:true|false|-?\d\w*|\w+(?:::\w+)+)\s*,?)+\s*", m.group(1)):
            yield i.path, i.line, f"fn {i.name}: a match of plain values"
        elif re.match(r"(same|eq|equal|wide|copy|greater|minus|to_natural)(_\w+)?$", i.name):
            yield i.path, i.line, f"fn {i.name}: by hand"
        elif re.search(r"if [\w.]+ == -?\w+ \{\s*return [\w:]+;\s*\}\s*if [\w.]+ == -?\w+ \{\s*return", i.body):
            yield i.path, i.line, f"fn {i.name}: a row of ifs that converts"
    for path, text in texts:
        for n, line in enumerate(blank(text).split("\n"), 1):
            for m in re.finditer(r"numbers::(same|wide_\w+|copy|greater|minus|to_natural)\(", line):
                yield path, n, f"call of numbers::{m.group(1)}"


def point_5(items):
    facts, groups = collections.defaultdict(list), collections.defaultdict(list)
    for i in items:
        if i.kind != "fn":
            continue
        for m in re.finditer(r"requires[^{\n]*\{", i.head):
            clause = " ".join(i.head[m.end():closing(i.head, m.end() - 1)].split())
            for fact in split_top(clause, " × "):
                while fact.startswith("(") and closing(fact, 0) == len(fact) - 1:
                    fact = fact[1:-1].strip()
                facts[re.sub(r"\.(now|old)\b", "", fact)].append(i)
        plain = sorted({p for p in parameters(i) if ":" in p and not p.startswith("rt:")})
        for a in range(len(plain)):
            for b in range(a + 1, len(plain)):
                for c in range(b + 1, len(plain)):
                    groups[plain[a], plain[b], plain[c]].append(i)
    for fact, members in sorted(facts.items()):
        if len(members) >= 3:
            for i in members:
                yield i.path, i.line, f"fn {i.name}: requires {fact}"
    kept = collections.defaultdict(set)
    for group, members in groups.items():
        if len(members) >= 3:
            kept[tuple((i.path, i.line, i.name) for i in members)].update(group)
    seen = set()
    for members, group in sorted(kept.items(), key=lambda k: (-len(k[0]), k[0])):
        for path, line, name in members:
            if (path, line) not in seen:
                seen.add((path, line))
                yield path, line, f"fn {name}: parameters ({', '.join(sorted(group))}) of {len(members)} functions"


def point_6(items):
    for i in items:
        if i.kind == "struct":
            arrays = re.findall(r"(\w+): \[[^\]]*\]", i.body)
            lengths = re.findall(r"(\w+): (?:usize|u64)", i.body)
            beside = [n for n in lengths if re.fullmatch(LENGTH_NAME, n)]
            if arrays and beside:
                yield i.path, i.line, f"struct {i.name}: {', '.join(arrays)} beside {', '.join(beside)}"
            if len(arrays) >= 2:
                yield i.path, i.line, f"struct {i.name}: arrays {', '.join(arrays)}"
            if {"from", "len"} <= set(lengths) or {"from", "to"} <= set(lengths) or {"start", "end"} <= set(lengths):
                yield i.path, i.line, f"struct {i.name}: a span of numbers"
        if i.kind == "enum":
            for m in re.finditer(r"from: usize,\s*len: usize", i.body):
                yield i.path, i.line, f"enum {i.name}: a span of numbers"
        if i.kind == "fn":
            params = parameters(i)
            if any(re.search(r": &(mut )?\[", p) for p in params):
                for p in params:
                    if re.fullmatch(LENGTH_NAME + r": (usize|u64)", p):
                        yield i.path, i.line, f"fn {i.name}: {p} beside a slice"


def point_7(items):
    for i in items:
        if i.kind != "fn":
            continue
        for m in re.finditer(r"\bmatch [^{\n]*\{", i.body):
            inner = i.body[m.end():closing(i.body, m.end() - 1)]
            arms = re.findall(r"=>\s*(?:\{\s*)?(?:Ok\()?([a-z_]\w*(?:::[a-z_]\w*)*)\(", inner)
            if len(arms) >= 3:
                yield i.path, i.line, f"fn {i.name}: a match on {m.group()[6:-1].strip()} that calls {len(arms)} functions"
        calls = re.findall(r"if (?:k|kind|number|call|which|row) == [\w:]+ \{\s*return \w+\(", i.body)
        if len(calls) >= 3:
            yield i.path, i.line, f"fn {i.name}: a row of ifs that calls {len(calls)} functions"


def main():
    arguments = [a for a in sys.argv[1:] if a != "--counts"]
    every = files_of(arguments[0] if arguments else None)
    texts = [(p, t) for p, t in every if p.endswith(".rt")]
    items = [i for p, t in texts for i in items_of(p, t)]
    places = []
    for point, found in (
        ("1", point_1(items, texts)), ("2", point_2(items)), ("3", point_3(texts)), ("4", point_4(items, texts)),
        ("5", point_5(items)), ("6", point_6(items)), ("7", point_7(items)),
        ("8", ((p, 1, f"{len(t.splitlines())} lines") for p, t in every if re.search(r"/Answers\.antt$", p))),
    ):
        places += sorted({(point, path, line, text) for path, line, text in found})
    if "--counts" not in sys.argv:
        for point, path, line, text in places:
            print(f"{point}\t{path}:{line}\t{text}")
    for point, name in POINTS.items():
        print(f"# {point}\t{sum(p[0] == point for p in places)}\t{name}")
    print(f"# files\t{len(texts)} sources with {sum(i.kind == 'fn' for i in items)} functions, {len(every) - len(texts)} proof files with {sum(len(t.splitlines()) for p, t in every if p.endswith('.antt'))} lines")


if __name__ == "__main__":
    main()
