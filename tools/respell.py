#!/usr/bin/env python3
"""Spells the definitions, fields and lemmas of the repository as the library spells its own: words in snake case, and a dash only
between two names that stand for definitions or functions.

usage: tools/respell.py [--check]       at the top of the repository, once, behind the port

What changes is a name that a file of specs/ or proofs/ declares: camel case becomes snake case (`wordSum` is `word_sum`), and a dash
beside a plain word becomes an underscore (`left-none` is `left_none`; `length-take` stays). Types, modules, constructors of enums and all
names of Rust source stay, and so do the names that the check makes. It turns .antt and .rt files, must-fail edits and code spans of pages.
--check writes nothing and lists each new name that a file holds already, two names that become one, and each parameter that would hide a
definition in its function's clauses.
"""
import collections
import os
import re
import sys

WORD = re.compile(r'[^\s(){}.;,@"«»\[\]`]+')
DECLARED = re.compile(r'^ *(?:unfoldable |abbrev |ruleset )*(?:pub )?(?:abbrev )?(?:pub )?([^\s(){}.;,@"«»]+)(?: \{[^{}]*\})* :(?: (.*))?$')
FUNCTION = re.compile(r'\bfn (\w+)')
MADE = re.compile(r'^(?:returns|loop|in|if|then|else|index|slice|overflow|bounds|match|invariant|decreases|cast|add|sub|mul|div|rem|shl|shr|left|after|at)\b-')
# Words of the library that the names of lemmas begin or end with.
LIBRARY = set("""length take drop append map replicate get_or set min max cond not or and add mul sub div mod nil cons zip reverse filter
foldl sum concat slice_index slice_get suc pred swap insert count all any""".split())

# Lemmas that would get the name of a definition.
LEMMAS = """answered-by bit-value bytes-from compared-given embedded-to for-us handed-by handed-in link-local no-locator outer-in outer-whole
part-from piece-in plain-judged refused-by report-event report-seen seen-after sent-event settled-in size-toward table-left too-big-bytes
all-steps so-far all_held all_ones any_held by_first by_number fields_in first_below first_piece fit_of from_first held_in is_same none_kept
taken_memory""".split()
OTHERWISE = {name: name.replace("-", "_") + "_lem" for name in LEMMAS} | {"lastOf-each": "last_of-each"}


def files(root, *endings):
    for folder, dirs, names in os.walk(root):
        dirs[:] = sorted(d for d in dirs if d not in ("out", ".git", "target"))
        for name in sorted(names):
            if name.endswith(endings):
                yield os.path.join(folder, name)


def read(path):
    with open(path, encoding="utf-8") as f:
        return f.read()


def snake(part):
    if part[:1].isupper():
        return part
    return re.sub(r"(?<=[a-z0-9])([A-Z])(?=[A-Z]|$|[^a-z])|(?<=[a-z0-9])([A-Z])", lambda m: "_" + (m[1] or m[2]).lower(), part)


def answers(path):
    return os.path.basename(path) in ("Proof.antt", "Answers.antt", "Invariants.antt")


def inventory(crates):
    """The names that texts declare, and those of definitions and functions."""
    declared, names = set(), set(LIBRARY)
    for path in files(crates, ".antt"):
        for line in read(path).splitlines():
            m = DECLARED.match(line)
            if not m or m[1] in ("let", "in", "elim", "module", "use", "mod", "record", "data", "λ", "→", "unfolding"):
                continue
            kind = m[2] or ""
            if answers(path) and (re.search(r"\b(?:tie|lts|goal|walk-lts|[\w-]*lts)\.", kind) or m[1].endswith("-spec") or "statement" in kind):
                continue
            declared.add(m[1])
            if "/specs/" in path:
                names.add(snake(m[1]))
    for path in files(crates, ".rt"):
        names.update(FUNCTION.findall(read(path)))
    return declared, names


def respelled(name, names):
    if name in OTHERWISE:
        return OTHERWISE[name]
    if MADE.match(name) or not re.search(r"[a-zA-Z]", name):
        return name
    parts = [snake(p) for p in name.split("-")]
    out = parts[0]
    for before, after in zip(parts, parts[1:]):
        is_name = lambda p: p in names or p[:1].isupper()
        plain = re.fullmatch(r"\w+'*", before) and re.fullmatch(r"\w+'*", after)
        out += ("_" if plain and not (is_name(before) and is_name(after)) else "-") + after
    return out


def turned(text, table):
    return WORD.sub(lambda m: table.get(m[0], m[0]), text)


def of_libraries(text, crates):
    """The names that a file imports from a library: they stay in it."""
    own = set(os.listdir(crates))
    found = set()
    for m in re.finditer(r"\buse ([^\s;{]+?)\.?(\{[^}]*\})?(?: as \S+)?;?\s*$", text, re.M):
        parts = m[1].split(".")
        if not (parts[0] == "Rattle" and parts[1] in own):
            found.update(WORD.findall(m[2] or ""))
    return found


def code_spans(text, table):
    return re.sub(r"`[^`\n]+`", lambda m: turned_span(m[0], table), text)


def turned_span(span, table):
    return re.sub(r"[^\s(){}.;,@\"«»\[\]`:/]+", lambda m: table.get(m[0], m[0]), span)


def hidden(text, table):
    """Functions whose clauses name a definition that one of their parameters would hide."""
    new = set(table.values())
    for m in re.finditer(r"\bfn (\w+)[^(]*\(([^)]*)\)([^{]*(?:\b(?:requires|ensures)\b[^{]*\{.*?\}\s*)*)\{", text, re.S):
        params = set(re.findall(r"\b(\w+):", m[2]))
        used = {table.get(w, w) for w in WORD.findall(m[3])} & new
        for p in sorted(params & used):
            yield m[1], p


def main(argv):
    check = argv == ["--check"]
    root = os.getcwd()
    crates = os.path.join(root, "crates")
    declared, names = inventory(crates)
    table = {}
    for name in sorted(declared):
        new = respelled(name, names)
        if new != name:
            table[name] = new
    if check:
        back = collections.defaultdict(set)
        for old, new in table.items():
            back[new].add(old)
        for new, olds in sorted(back.items()):
            if len(olds) > 1:
                print("together:", new, sorted(olds))
        new_names = set(table.values())
        for path in files(crates, ".antt", ".rt"):
            text = read(path)
            words = set(WORD.findall(text))
            for word in sorted(words & new_names):
                if any(old in words for old in back[word]):
                    print("held:", os.path.relpath(path, root), word, sorted(back[word] & words))
            if path.endswith(".rt"):
                for f, p in hidden(text, table):
                    olds = back[p] & set(WORD.findall(text))
                    if olds:
                        print("hidden:", os.path.relpath(path, root), f, p, sorted(olds))
        for name in sorted(declared):
            if name in new_names and name not in table:
                print("declared:", name, sorted(back[name]))
        print(len(table), "names of", len(declared))
        return 0
    for path in files(crates, ".antt", ".rt", ".edit"):
        text = read(path)
        stay = of_libraries(text, crates)
        new = turned(text, {old: new for old, new in table.items() if old not in stay})
        if new != text:
            with open(path, "w", encoding="utf-8") as f:
                f.write(new)
    for path in files(root, ".md"):
        text = read(path)
        new = code_spans(text, table)
        if new != text:
            with open(path, "w", encoding="utf-8") as f:
                f.write(new)
    with open(os.path.join(root, "docs", "respelled.txt"), "w", encoding="utf-8") as f:
        f.writelines(f"{old} {new}\n" for old, new in sorted(table.items()))
    print(len(table), "names")
    return 0


if __name__ == "__main__":
    raise SystemExit(main(sys.argv[1:]))
