#!/usr/bin/env python3
"""Turns the names of definitions, lemmas, fields and locals from dashes to underscores, as `token-reply` to `token_reply`.

usage: python3 tools/respell.py [--check]   at the top, once, right after the kit's port.py; --check writes nothing

What turns: whole words with a dash between letters or digits, in .antt files, in the clauses and `ghost use` lines of .rt files,
in the code spans of .md files and in the texts of must-fail edits. What stays: names that a file imports from the kit's library,
names that the checker makes (a goal, a step, a loop), strings, and the prose of comments but for words that the same file's code has.
It says where two names of one file would fall together.
"""
import os
import re
import sys

WORD = re.compile(r'[^\s(){}.;,@"«»⌜⌝]+')
DASHED = re.compile(r"^[a-z][A-Za-z0-9_]*(?:-[a-z0-9][A-Za-z0-9_]*)+'*$")
MADE = re.compile(r"^(?:Need|Then|Else|After|In|At|Lts|loop|overflow|overflow_\w+|returns|invariant|decreases|bounds|offset|offset_bounds|shape_of|same|if|then|else|in)-|-(?:lts|claims|kinds|walk|discrete)$|^at-(?:args|if)\d*|^enum-told\d*$|^shared-slice-known\d*$")
QUIET = re.compile(r'"(?:[^"\\\n]|\\.)*"|(?<![^\s(){}.;,@"«»])--[^\n]*', re.S)
IMPORT = re.compile(r"\buse\s+([^\s{;]+)\.\{([^}]*)\}")
CLAUSE = re.compile(r"(?:requires|ensures)\s*\*?\s*(?:\w+\s*)?\{|ghost\s*(?:\w+\s*:\s*)?\{")
GHOST_USE = re.compile(r"ghost\s+use\b[^;]*;")
SPAN = re.compile(r"`[^`\n]+`")


def turned(word):
    return word.replace("-", "_")


def files(root, *endings):
    for folder, dirs, names in os.walk(root):
        dirs[:] = sorted(d for d in dirs if d not in ("out", "target", ".git"))
        for name in sorted(names):
            if name.endswith(endings):
                yield os.path.join(folder, name)


def own_crates():
    return set(os.listdir("crates"))


def declared(code):
    """The names that a file declares or imports."""
    found = set(re.findall(r"(?m)^\s*(?:(?:pub|abbrev|unfoldable) )*([^\s(){}.;,@]+) :(?: |$)", code))
    for _, names in IMPORT.findall(code):
        found |= {name.split()[-1] for name in names.split(",") if name.split()}
    return found


def foreign(code, crates):
    """The names that imports of the kit's library bring in."""
    found = set()
    for path, names in IMPORT.findall(code):
        parts = path.split(".")
        if parts[0] != "Rattle" or len(parts) < 2 or parts[1] not in crates:
            for name in names.split(","):
                found |= set(name.split())
    return found


def turns(word, kept):
    return DASHED.match(word) and word not in kept


def made(code, known):
    """The names in a proof by hand that the checker makes."""
    return {w for w in WORD.findall(code) if MADE.search(w) and w not in known}


def words(code, kept, only=None):
    def put(match):
        word = match.group(0)
        if turns(word, kept) and (only is None or word in only):
            return turned(word)
        return word

    return WORD.sub(put, code)


def antt(text, kept):
    """The code turned, strings left, and of a comment the words that the code has."""
    code = QUIET.sub(" ", text)
    has = {w for w in WORD.findall(code) if turns(w, kept)}
    names = declared(code)
    for word in sorted(has & names):
        if turned(word) in names:
            print(f"falls together: {word}", file=sys.stderr)
    out, at = [], 0
    for match in QUIET.finditer(text):
        out.append(words(text[at : match.start()], kept))
        quiet = match.group(0)
        out.append(words(quiet, kept, has) if quiet.startswith("--") else quiet)
        at = match.end()
    out.append(words(text[at:], kept))
    return "".join(out), has


def clauses(text):
    """Where the clauses and the `ghost use` lines of a .rt file stand."""
    spans = [m.span() for m in GHOST_USE.finditer(text)]
    for match in CLAUSE.finditer(text):
        level, at = 1, match.end()
        while level and at < len(text):
            level += {"{": 1, "}": -1}.get(text[at], 0)
            at += 1
        spans.append((match.end(), at))
    return sorted(spans)


def rt(text, kept):
    out, at = [], 0
    for start, end in clauses(text):
        if start < at:
            continue
        out += [text[at:start], words(text[start:end], kept)]
        at = end
    return "".join(out) + text[at:]


def main(check):
    crates = own_crates()
    known = set()
    new = {}
    paths = list(files("crates", ".antt", ".rt"))
    for path in sorted(paths, key=lambda p: p.endswith("/Proof.antt")):
        text = open(path, encoding="utf-8").read()
        kept = foreign(text, crates)
        if path.endswith("/Proof.antt"):
            kept |= made(text, known)
        if path.endswith(".antt"):
            result, has = antt(text, kept)
            known |= has
        else:
            result = rt(text, kept)
            for start, end in clauses(text):
                known |= {w for w in WORD.findall(text[start:end]) if turns(w, kept)}
        new[path] = (text, result)
    for path in files("crates", ".edit"):
        text = open(path, encoding="utf-8").read()
        lines = [words(l, set(), known) if re.match(r"(?:old|new):", l) else l for l in text.split("\n")]
        new[path] = (text, "\n".join(lines))
    for path in list(files("docs", ".md")) + ["README.md"]:
        text = open(path, encoding="utf-8").read()
        if "landings" in path:
            continue
        new[path] = (text, SPAN.sub(lambda m: "`" + words(m.group(0)[1:-1], set(), known) + "`", text))
    count = 0
    for path, (old, result) in new.items():
        if old != result:
            count += 1
            if not check:
                open(path, "w", encoding="utf-8").write(result)
    print(f"{count} files, {len(known)} names")


if __name__ == "__main__":
    main("--check" in sys.argv[1:])
