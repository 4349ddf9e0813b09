#!/usr/bin/env python3
"""respell            writes the repository's own definitions and lemmas as today's Rattle spells names, in every crate
respell --check    writes nothing, and lists the names that would fall together

Run once, right after the kit's port.py. In must-fail edits the kit's own new spellings are written too, as far as they go by text. A definition, lemma, field or local name of specs/ and proofs/ becomes snake case: `positionOf` is
`position_of`, `buyer-place` is `buyer_place`; `ℤ` at the end is a word of its own. A dash stays where it joins two names, as in `total-append`.
Types, modules, functions of src/ and names that Rattle makes for a proof stay as they are.
"""
import os
import re
import subprocess
import sys

TOP = os.path.dirname(os.path.dirname(os.path.abspath(__file__)))
WORD = r"[^\s(){}.;,@\"«»\[\]\\|`]+"
TOKEN = re.compile(r"\"(?:[^\"\\]|\\.)*\"|" + WORD)
# A declaration of a name: at the head of a line, or bound by `let`, `λ` or in brackets before a colon.
DECLARED = re.compile(r"^\s*(?:(?:abbrev|unfoldable)\s+)*(?:pub\s+)?(?:(?:record|data)\s+)?(" + WORD + r")(?: (?:\{[^{}]*\}|\([^()]*\)))* :(?=\s|$)", re.M)
BOUND = re.compile(r"\blet (" + WORD + r")(?= )|[({]((?:" + WORD + r" )+):(?= )|\bλ ((?:" + WORD + r" ?)+)\.")
FIELD = re.compile(r"[{;]\s*(" + WORD + r") [=:](?=\s)")
# What Rattle makes: goals, invariants, measures, theorems.
MADE = re.compile(r"^(?:[^:\n]*?)(" + WORD + r") : (?:tie|goal)\.\S", re.M)
# Names that a dash may join: general operations.
NAMES = set(
    "append map take drop set replicate cons length flat_map total totalℤ every some passing apart ascending counted listed entry less over put placed ordered gathered many same before number_of bytes_of".split()
)
# A lemma that would have its function's name gets `_lem`: those that meet a name which has today's spelling already.
CHOSEN = {name: snake_name + "_lem" for name, snake_name in (("counted_of", "counted_of"), ("found-at", "found_at"), ("is-number", "is_number"), ("of-code", "of_code"), ("lines-of", "lines_of"))}


def files(*endings):
    names = subprocess.run(["git", "ls-files", "-co", "--exclude-standard", "crates"], cwd=TOP, capture_output=True, text=True, check=True).stdout
    return sorted(os.path.join(TOP, f) for f in names.split("\n") if f.endswith(endings) and os.path.isfile(os.path.join(TOP, f)))


def read(path):
    with open(path, encoding="utf-8") as f:
        return f.read()


def snake(name):
    """the name in snake case; its dashes stay where they join two names"""
    name = re.sub(r"(?<=[a-z0-9])(?=[A-ZℤℕΣ])", "_", name) if not name[0].isupper() else name
    parts = name.split("-")
    out = parts[0]
    for before, part in zip(parts, parts[1:]):
        joins = before.split("_")[-1] in NAMES and part.split("_")[0] in NAMES or part == ""
        out += ("-" if joins or before == "" else "_") + part
    if out[0].islower():
        out = re.sub(r"[A-Z]+(?![a-z])|[A-Z]", lambda m: m[0].lower(), out)
    return out


def own(paths):
    """the names that the repository declares and that are spelled otherwise today"""
    declared, made = set(), set()
    for path in paths:
        if not path.endswith(".antt"):
            continue
        text = re.sub(r"(?m)^\s*--.*$", "", read(path))
        here = set(DECLARED.findall(text))
        for a, b, c in BOUND.findall(text):
            here.update((a + " " + b + " " + c).split())
        here.update(FIELD.findall(text))
        goals = set(MADE.findall(text)) | {n for n in here if re.search(r"(^|-)(spec|requires|loop)(-?\d+)?$", n) or re.match(r"(invariant|decreases|loop|returns)\b", n)}
        if path.endswith(("/Proof.antt", "/Answers.antt", "/Invariants.antt")):
            made |= goals
        declared |= here - goals
    library = set()
    for path in paths:
        if path.endswith(".antt"):
            for source, names in re.findall(r"(?m)^\s*(?:unfoldable )?(?:pub )?use (\S+?)\.\{([^}]*)\}", read(path)):
                if not source.startswith("Rattle.") or source.startswith("Rattle.std"):
                    library |= {n.split(" as ")[0].strip() for n in names.split(",")}
    names = {}
    camel = {snake(n) for n in declared if "-" not in n}
    for n in declared - library - made:
        if n[0].isupper() or "◌" in n or "·" in n or re.fullmatch(r"[\W\d_]*", n) or n in ("->", "--"):
            continue
        to = CHOSEN.get(n) or (snake(n) + "_lem" if "-" in n and snake(n) in camel else snake(n))
        if to != n:
            names[n] = to
    return names


# Other names for words of the library, with a middle dot.
DOTTED = (("get_or-append as List·getD-append", "get_or-append"), ("get_or-eq_default as List·getD-eq-default", "get_or-eq_default"), ("get_or-map as List·getD-map", "get_or-map"), ("leb-suc-suc as leb·suc-suc", "leb-suc-suc"))


def turned(text, names):
    text = TOKEN.sub(lambda m: names.get(m[0], m[0]), text)
    text = re.sub(r"\b(?:firstLots|heldNow)\b", lambda m: snake(m[0]), text)
    for aliased, name in DOTTED:
        text = text.replace(aliased, name).replace(aliased.split(" as ")[1], name)
    return text


def edit_turned(text):
    """an edit, as the kit's scripts and this one write the files that it is of: they turn no edits"""
    lines = []
    for line in text.split("\n"):
        if line.startswith(("old: ", "new: ")):
            head, line = line[:5], line[5:]
            line = re.sub(r"Rattle·(\w+)·specs\.specs", r"Rattle.\1.specs", line).replace("Rattle·", "Rattle.")
            line = re.sub(r"\(((?:offer_answer|offerAnswer|call_answer|callAnswer) b \w+) \.(\w+)\)", r"(\1).\2", line)
            line = re.sub(r"((?:offer_answer|offerAnswer) b \w+) \.(\w+)(?= ∷)", r"(\1).\2", line)
            line = re.sub(r"(?<=[\w')]) \.(?=\w)", ".", line)
            line = re.sub(r"(?<![\w')])\((\w+(?:\.\w+)+)\)(?![.])", r"\1", line)
            line = re.sub(r"(?<![\w◌])_([^\w\s]+|and|if)_(?![\w◌])", r"◌\1◌", line)
            line = re.sub(r"\bgetD\b", "get_or", line)
            line = TOKEN.sub(lambda m: snake(m[0]) if m[0][0] != '"' and re.fullmatch(r"[a-z]\w*", m[0]) else m[0], line)
            line = head + line
        lines.append(line)
    return "\n".join(lines)


def main(argv):
    paths = files(".antt", ".rt", ".edit")
    names = own(paths)
    clash = []
    by_new = {}
    for old, new in sorted(names.items()):
        by_new.setdefault(new, []).append(old)
    for path in paths:
        words = set(TOKEN.findall(read(path)))
        for old in words & set(names):
            if names[old] in words:
                clash.append((old, names[old], os.path.relpath(path, TOP)))
    if argv == ["--check"]:
        for new, olds in by_new.items():
            if len(olds) > 1:
                print("two become one:", new, olds)
        for row in sorted(clash):
            print("meet:", *row)
        print(len(names), "names")
        return 0
    for path in paths:
        text = read(path)
        now = edit_turned(turned(text, names)) if path.endswith(".edit") else turned(text, names)
        if now != text:
            with open(path, "w", encoding="utf-8") as f:
                f.write(now)
    return 0


if __name__ == "__main__":
    raise SystemExit(main(sys.argv[1:]))
