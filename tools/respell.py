#!/usr/bin/env python3
"""Spells this repository's own definitions and lemmas in snake case: camelCase and dashes become underscores. Types and modules keep their
capitals, functions of src/, exported names, strings, inputs and outputs keep their names.

usage: tools/respell.py [--table] [--check]     at the top of the repository, after the kit's own port; --table prints old and new names
"""

import collections
import os
import re
import sys

WORD = re.compile(r'[^\s(){}.;,@"«»]+')
# A declaration at any indentation: words of visibility, the name, then arguments in braces or a colon.
DECLARED = re.compile(r"(?m)^[ \t]*(?:(?:abbrev|unfoldable|pub|private) +)*([^\s(){}.;,@\"«»]+) :(?= )")
HEADED = re.compile(r"(?m)^[ \t]*(?:(?:pub|private) +)*(?:record|data|ruleset) +([^\s(){}.;,@\"«»]+)")
CLAUSE = re.compile(r"\b(?:requires|ensures)\*?\s*(?:\w+\s*)?\{|\bghost\s*(?:\w+\s*(?::\s*(?:(?:owns|lends)\s*)?|=\s*))?\{")
GHOST_USE = re.compile(r"\bghost\s+use\b[^;]*;")
SPAN = re.compile(r"`[^`\n]+`")
# Laws and fields that are in snake case already, and would have the name of a definition that comes to it: everywhere, and in some files.
APART = {name: name + "_lem" for name in ("shown_of", "read_number", "none_kept", "block_to", "list_steps")}
APART_IN = {
    ("claim_parties", "any_owed"): "any_owed_lem",
    ("prospect", "waits_in"): "waits_in_lem",
}


PLAIN = {old for _, old in APART_IN}


def snake(name):
    name = name.replace("ADay", "_a_day")
    words = re.sub(r"(?<=[a-z0-9₀₁₂₃₄₅₆₇₈₉])[A-Z](?=[a-z])", lambda m: "_" + m[0].lower(), name)
    words = re.sub(r"(?<=[a-z0-9])[A-Z](?=$|[A-Z_'-]|\d)", lambda m: "_" + m[0].lower(), words)
    return words.replace("-", "_")


def files(root):
    for folder, dirs, names in os.walk(os.path.join(root, "crates")):
        dirs[:] = sorted(d for d in dirs if d != "out")
        for name in sorted(names):
            yield os.path.join(folder, name)


def is_function_proof(path):
    return os.path.basename(path) in ("Proof.antt", "Answers.antt", "Invariants.antt") and len(path.split("/proofs/")[1].split("/")) > 1 if "/proofs/" in path else False


def uncommented(text):
    return re.sub(r"(?m)(?<![^\s(){}.;,@\"«»])--[^\n]*", "", text)


def table(root):
    found = {}
    for path in files(root):
        if path.endswith(".antt") and not is_function_proof(path):
            text = uncommented(open(path).read())
            for name in DECLARED.findall(text) + HEADED.findall(text):
                if not re.match(r"[a-z]", name):
                    if re.match(r"[A-Z]", name) and "-" in name:
                        found[name] = name.replace("-", "_")
                    continue
                new = APART.get(name, snake(name))
                if new != name:
                    found[name] = new
    return kept_apart(root, found)


def kept_apart(root, found):
    """A lemma that would have the name of a definition, or of a word that stands beside it, gets _lem."""
    met = {old for _, old, _ in meetings(root, found)}
    counts = collections.Counter(found.values())
    for old, new in list(found.items()):
        if "-" in old and (old in met or counts[new] > 1 or new in APART):
            found[old] = new + "_lem"
    return found


def of_crate(path, names):
    """The names as a file of a crate has them."""
    own = {old: new for (crate, old), new in APART_IN.items() if f"crates/{crate}/" in path and "/src/" not in path}
    return names | own if own else names


def turn_antt(text, names, function=False):
    def word(m):
        # behind a dot a function of src/ keeps its name, and in a function's proof so does the step that calls it
        if m.start() and m.string[m.start() - 1] == ".":
            if m[0] in PLAIN:
                return m[0]
            if function:
                return re.sub("_lem$", "", names.get(m[0], m[0]))
        return names.get(m[0], m[0])

    out = []
    for line in text.split("\n"):
        cut = re.search(r"(?<![^\s(){}.;,@\"«»])--( |$)", line)
        code, comment = (line[: cut.start()], line[cut.start() :]) if cut else (line, "")
        out.append(WORD.sub(word, code) + comment_turned(comment, names))
    return "\n".join(out)


def turn_function_proof(text, names):
    return turn_antt(text, names, True)


def comment_turned(text, names):
    # In prose only what no English word is: camelCase, or a name with a dash and a capital.
    return re.sub(r"[A-Za-z][\w'-]*", lambda m: names.get(m[0], m[0]) if re.search(r"[a-z0-9][A-Z]", m[0]) else m[0], text)


def closing(text, at):
    depth = 0
    for k in range(at, len(text)):
        if text[k] == "{":
            depth += 1
        elif text[k] == "}":
            depth -= 1
            if depth == 0:
                return k + 1
    return len(text)


def turn_rt(text, names):
    def word(m):
        return names.get(m[0], m[0])

    spans = [(m.start(), m.end()) for m in GHOST_USE.finditer(text)]
    for m in CLAUSE.finditer(text):
        spans.append((m.end() - 1, closing(text, m.end() - 1)))
    spans.sort()
    out, at = [], 0
    for a, b in spans:
        if a < at:
            continue
        out.append(rest_turned(text[at:a], names))
        out.append(WORD.sub(word, text[a:b]))
        at = b
    out.append(rest_turned(text[at:], names))
    return "".join(out)


def rest_turned(text, names):
    return re.sub(r"//[^\n]*", lambda m: comment_turned(m[0], names), text)


def turn_edit(text, names):
    rt = re.search(r"(?m)^file: .*\.rt$", text)
    out = []
    for line in text.split("\n"):
        m = re.match(r"(old|new): ", line)
        if not m:
            out.append(comment_turned(line, names) if line.startswith("#") else line)
        elif rt and not CLAUSE.search(line):
            out.append(line)
        else:
            out.append(m[0] + WORD.sub(lambda w: names.get(w[0], w[0]), line[m.end() :]))
    return "\n".join(out)


def turn_spans(text, names):
    return SPAN.sub(lambda m: WORD.sub(lambda w: names.get(w[0], w[0]) if re.search(r"[A-Z-]", w[0]) else w[0], m[0][1:-1]).join("``"), text)


def meetings(root, names):
    """Where a new name stands in a file already that has the old one, but behind a dot."""
    for path in files(root):
        if not path.endswith((".antt", ".rt")):
            continue
        text = open(path).read()
        if path.endswith(".antt"):
            text = uncommented(text)
        else:
            text = "\n".join([m[0] for m in GHOST_USE.finditer(text)] + [text[m.end() - 1 : closing(text, m.end() - 1)] for m in CLAUSE.finditer(text)]) + "\n" + "\n".join(re.findall(r"\b(\w+): ", text))
        here = collections.Counter()
        for m in WORD.finditer(text):
            if m.start() and text[m.start() - 1] == ".":
                continue
            here[m[0]] += 1
        for old in list(here):
            new = of_crate(path, names).get(old)
            if new and ((new in here and new not in of_crate(path, names)) or sum(names.get(o) == new for o in here) > 1):
                yield path, old, new


def main(argv):
    root = "."
    names = table(root)
    if "--table" in argv:
        for old in sorted(names):
            print(f"{old}\t{names[old]}")
        return
    if "--check" in argv:
        for path, old, new in meetings(root, names):
            print(f"{path}: {old} -> {new}")
        return
    for path in files(root):
        kind = os.path.splitext(path)[1]
        turn = {".antt": turn_antt, ".rt": turn_rt, ".edit": turn_edit}.get(kind)
        if is_function_proof(path):
            turn = turn_function_proof
        if turn:
            write(path, turn, names)
    for folder in ("tests/edits", "docs", "."):
        for where, dirs, found in os.walk(folder):
            if folder == ".":
                dirs[:] = []
            for name in sorted(found):
                path = os.path.join(where, name)
                if name.endswith(".edit"):
                    write(path, turn_edit, names)
                elif name.endswith(".md") and name != "PORT.md":
                    write(path, turn_spans, names)


def write(path, turn, names):
    old = open(path).read()
    new = turn(old, of_crate(path, names))
    if new != old:
        open(path, "w").write(new)


if __name__ == "__main__":
    main(sys.argv[1:])
