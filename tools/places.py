#!/usr/bin/env python3
"""Counts the places of the points of docs/DESIGN-PASS.md in crates/*/src, and in crates/*/proofs for point 8.
Usage: tools/places.py [--list] [COMMIT]   with a commit, its files are read and not those on disk; --list names each place."""
import re
import subprocess
import sys
from collections import defaultdict

LIST = "--list" in sys.argv
COMMIT = next((a for a in sys.argv[1:] if not a.startswith("-")), None)


def run(*command):
    return subprocess.run(command, capture_output=True, text=True, check=True).stdout


def files(pattern):
    """Path and text of each file of the tree that the pattern fits."""
    names = run("git", "ls-tree", "-r", "--name-only", COMMIT) if COMMIT else run("git", "ls-files", "-co", "--exclude-standard")
    for name in sorted(names.split("\n")):
        if re.fullmatch(pattern, name):
            if COMMIT:
                yield name, run("git", "show", f"{COMMIT}:{name}")
            else:
                try:
                    yield name, open(name).read()
                except FileNotFoundError:
                    pass


def functions(text):
    """Name, header and body of each function, by the layout that the formatter gives."""
    for m in re.finditer(r'(?m)^( *)(?:pub(?:\(crate\))? )?(?:extern "C" )?fn (\w+)', text):
        brace = re.compile(r"(?m)^" + m.group(1) + r"\{$").search(text, m.end())
        inline = re.compile(r"\{\n").search(text, m.end())
        if inline and (not brace or inline.start() < brace.start()) and not re.search("requires|ensures", text[m.end():inline.start()]):
            brace = inline
        end = re.compile(r"(?m)^" + m.group(1) + r"\}$").search(text, brace.end())
        yield m.group(2), text[m.start():brace.start()], text[brace.end():end.start()]


SOURCES = list(files(r"crates/[^/]+/src/.*\.rt"))
places = defaultdict(list)


def by_line(point, pattern):
    for name, text in SOURCES:
        for number, line in enumerate(text.split("\n"), 1):
            code = line.split("//")[0]
            for found in re.findall(pattern, code):
                places[point].append(f"{name}:{number}: {line.strip()}")


# 1
for name, text in SOURCES:
    for m in re.finditer(r"(?m)^(?:pub )?enum (\w+) \{\n((?:    .*\n)+)\}", text):
        variants = [v.strip() for v in m.group(2).split("\n") if re.match(r"    \w", v)]
        if len(variants) == 2 and sum("(" in v for v in variants) in (1, 2):
            places["1a own enums of the shape of Option or Result"].append(f"{name}: {m.group(1)}")
    for function, head, body in functions(text):
        if re.search(r"-> u32\s*$|-> u32\n", head) and re.search(r"\b[Rr]efusal::[A-Z]|_refusal\(|\brefusal\b", body) and not re.search(r'extern "C"', head):
            places["1b functions that answer a refusal's number"].append(f"{name}: {function}")
        for parameter in re.findall(r"\b(kind|party|actor|destination|to|conduct|way|status|rule|receiver|giver): u(?:8|32)\b", re.search(r"\(([^)]*)\)", head).group(1)):
            places[f"1c parameters that are numbers for kinds ({parameter if parameter in ('kind', 'rule') else 'party' if parameter in ('party', 'actor', 'receiver', 'giver') else 'destination' if parameter in ('destination', 'to') else 'conduct, status'})"].append(f"{name}: {function}({parameter})")
by_line("1d refusals and kinds as constants", r"^pub const (?:SHEET|SETUP|STEP|JOURNAL|BUFFER|ACCEPTED|ENDING|BLOCKS|LIST|TIMELOCK|COUNT|BASE)[A-Z_0-9]*: u32 = \d+;")
by_line("1e a value that says none (NEVER, NONE, NOBODY, NOWHERE, NO_TRANSACTION)", r"\b(?:NEVER|NONE|NOBODY|NOWHERE|NO_TRANSACTION)\b")
for name, text in SOURCES:
    for m in re.finditer(r"(?m)^(?:pub )?struct (\w+)[^{]*\{\n((?:    .*\n)+)\}", text):
        fields = re.findall(r"(?m)^    (?:pub )?(\w+): (\w+)", m.group(2))
        if any(t == "bool" for _, t in fields) and len(fields) > 1 and len([t for _, t in fields if t == "bool"]) == 1:
            places["1f a flag with values beside it"].append(f"{name}: {m.group(1)}")
        if [n for n, _ in fields] == ["refusal", "count"]:
            places["2b structs of the same fields (refusal, count)"].append(f"{name}: {m.group(1)}")
# 2
shapes = defaultdict(list)
for name, text in SOURCES:
    for function, head, body in functions(text):
        lines = [l.strip() for l in body.split("\n") if l.strip() and not l.strip().startswith("//")]
        if len(lines) < 3 or 'extern "C"' in head:
            continue
        shape = re.sub(r"\d+", "0", re.sub(r"\b(?!let\b|mut\b|if\b|else\b|while\b|for\b|in\b|return\b|match\b|true\b|false\b)[A-Za-z_]\w*\b", "x", " ".join(lines)))
        shape = re.sub(r"(?:x::)+x", "x", shape)
        shapes[shape].append(f"{name}: {function}")
for shape, group in shapes.items():
    if len(group) > 1:
        for place in group:
            places["2a functions of three lines or more that differ in names and numbers alone"].append(f"{place}  [{len(group)} alike]")
# 3
by_line("3 loops by while", r"^\s*while .*")
# 4
for name, text in SOURCES:
    for function, head, body in functions(text):
        if re.match(r"same|equal|is_same|copy$|clone$", function):
            places["4a equality and copying by hand"].append(f"{name}: {function}")
        if re.fullmatch(r"\s*\w+ as \w+\s*", body) or function in ("destination_number", "party_at", "place", "wide_status", "wide_payee", "spelled", "of_kind"):
            places["4b conversions by hand"].append(f"{name}: {function}")
        if re.search(r"digit|write_number|write_text", function):
            places["4c printing by hand"].append(f"{name}: {function}")
# 5
facts = defaultdict(list)
for name, text in SOURCES:
    for function, head, body in functions(text):
        for clause in re.findall(r"requires (?:\w+ )?\{ (.*) \}", head):
            word = re.match(r"\(?([A-Z]\w*)\b", clause)
            if word:
                facts[word.group(1)].append(f"{name}: {function}")
for word, group in facts.items():
    if len(group) >= 3:
        places[f"5a contracts that require {word}"] = group
for name, text in SOURCES:
    for function, head, body in functions(text):
        parameters = [p.strip() for p in re.search(r"\(([^)]*)\)", head).group(1).replace("\n", " ").split(",") if p.strip()]
        if len(parameters) >= 7:
            places["5b functions of seven parameters or more"].append(f"{name}: {function} {len(parameters)}")
# 6
for name, text in SOURCES:
    for function, head, body in functions(text):
        parameters = re.search(r"\(([^)]*)\)", head).group(1)
        if re.search(r"\bn: usize", parameters) and re.search(r": &?(?:'a )?\[u\d+; \d+\]|: &\[", parameters):
            places["6a an array or a buffer with a length beside it"].append(f"{name}: {function}")
        if re.search(r"let mut at: usize = 0;", body):
            places["6b a running place in a buffer"].append(f"{name}: {function}")
        if re.search(r"\bnext::next\(", body):
            places["6c a set's members looked for by hand"].append(f"{name}: {function}")
# 7
for name, text in SOURCES:
    for function, head, body in functions(text):
        if re.search(r"match (?:kind|k|rule|column)\b", body) or len(re.findall(r"if (?:kind|k|rule|column) == ", body)) > 1:
            places["7 a switch on which step to run"].append(f"{name}: {function}")
# 8
for name, text in files(r"crates/[^/]+/proofs/.*\.antt"):
    kind = "8a lines of answers" if name.endswith("/Answers.antt") else "8b lines of invariants" if name.endswith("/Invariants.antt") else "8c lines of lemmas"
    places[kind] += [name] * text.count("\n")
    if name.endswith("/Answers.antt"):
        places["8d answers"] += [name] * len(re.findall(r"(?m)^pub [\w-]+ : goal\.", text))
        places["8e answers that are one search or omega"] += [name] * len(re.findall(r"(?m)^[\w-]+ (?:\w+ )*= (?:search \w+|search \([^()]*\)|omega \w+)$", text))

for point in sorted(places):
    print(f"{len(places[point]):6} {point}")
    if LIST and not point.startswith("8"):
        for place in places[point]:
            print(f"         {place}")
