#!/usr/bin/env python3
"""Respells this repository's own words of specs/ and proofs/ after the kit's port.py has run: words in snake case, tests by the library's names.

usage: python3 tools/respell.py [--say]      once, at the top of the repository; --say only lists what it would do

Own words are those that crates/*/specs/*.antt or a Proof.antt declares, and what a 'use' line calls something 'as'. Functions of src/, exported names,
strings, types and modules keep their names. A lemma that would get the name of a definition has _lem behind it. It stops where two words of one file
would become one.
"""

import glob
import os
import re
import sys

WORD = re.compile(r"[^\s(){}\[\];,.«»\"`@]+")
DECLARED = re.compile(r"\s*(?:(?:abbrev|unfoldable|pub|data|record|mutual|constructor|ruleset)\s+)*([^\s(){}\[\];,.«»\"`@:=]+)\s*(?:\{[^}]*\}\s*)?:(?!=)")
ALIAS = re.compile(r"\bas ([A-Za-z][\w'-]*)")
# Tests on numbers have one name in the library and an older one.
TESTS = {"eqb": "nat_eq", "ltb": "nat_lt", "leb": "nat_le"}
# The library's name for a choice that always unfolds; the repository's own stays shut, and has another.
CHOICE = {"if": "when", "if◌then◌else◌": "when◌then◌else◌"}
LOGIC = re.compile(r"^use ((?!Rattle\.std\.specs\.Prelude|Rattle\.std\.proofs\.Common)[\w.]+)\.\{([^}]*)\}$", re.M)


def snake(word):
    """A word in snake case. What stands for a type or a fact keeps its capital."""
    if re.fullmatch(r"[A-Z][A-Z0-9]*(-[A-Z0-9]+)+", word):
        return word.replace("-", "_")  # named as the constant of src/
    if re.match(r"[A-Z]", word):
        return word.replace("-", "")
    word = word.replace("getD", "get_or")
    parts = [re.sub(r"(?<=[a-z0-9])(?=[A-Z])", "_", p) for p in word.split("-")]
    parts = [p.lower() if not re.fullmatch(r"[A-Z]\w*", p) else p for p in parts]
    return "_".join(parts)


def plain(word):
    return re.fullmatch(r"[A-Za-z][A-Za-z0-9_'₀-₉-]*", word) and not word.endswith("-")


def code_and_comment(line):
    at = 0
    while True:
        at = line.find("--", at)
        if at < 0:
            return line, ""
        if at == 0 or line[at - 1] in " \t":
            return line[:at], line[at:]
        at += 2


def declared(path):
    words = set()
    for line in open(path, encoding="utf-8"):
        code, _ = code_and_comment(line.rstrip("\n"))
        m = DECLARED.match(code)
        if m:
            words.add(m.group(1))
        if re.match(r"\s*(pub )?(ghost )?use ", code):
            words |= set(ALIAS.findall(code))
    return words


def fields(path):
    words, inside = set(), False
    for line in open(path, encoding="utf-8"):
        if re.match(r"\s*(pub )?(abbrev )?record ", line):
            inside = True
        elif inside and re.match(r"\S", line):
            inside = False
        elif inside:
            m = DECLARED.match(code_and_comment(line.rstrip("\n"))[0])
            if m:
                words.add(m.group(1))
    return words


def turn_code(text, words, projected, seen):
    """Turns the words of a piece of antt. What follows a dot turns only if it is a field of an own record, or in a use line."""
    out, last = [], 0
    for m in WORD.finditer(text):
        word = m.group(0)
        behind_dot = m.start() and text[m.start() - 1] == "."
        to = words.get(word) if not behind_dot or word in projected else None
        if to is None and not behind_dot:
            to = TESTS.get(word, CHOICE.get(word))
        if not behind_dot:
            seen.setdefault(to or word, set()).add(word)
        if to:
            out.append(text[last:m.start()] + to)
            last = m.end()
    return "".join(out) + text[last:]


def turn_comment(text, words):
    def quoted(m):
        return "`" + turn_code(m.group(1), words, words, {}) + "`"

    text = re.sub(r"`([^`]*)`", quoted, text)
    return re.sub(r"(?<![\w-])[a-z]\w*[A-Z]\w*(?![\w-])", lambda m: words.get(m.group(0), m.group(0)), text)


def turn_qualified(text, words):
    """Turns a word behind a module's name, which is a whole path or what a 'use' line of the file calls it."""
    text = re.sub(r"(Rattle\.\w+\.specs\.(?:[A-Z]\w*\.)+)([a-z][\w'-]*)", lambda m: m.group(1) + words.get(m.group(2), m.group(2)), text)
    for path, alias in re.findall(r"^\s*(?:pub )?use ([^\s{]+?)(?: as ([\w'-]+))?$", text, re.M):
        name = re.escape(alias or path.split(".")[-1])
        text = re.sub(rf"(?<![\w'.-])({name}\.)([A-Za-z][\w'₀-₉-]*)", lambda m: m.group(1) + words.get(m.group(2), m.group(2)), text)
    return text


def turn_antt(text, words, projected, seen):
    lines = []
    text = turn_qualified(LOGIC.sub(lambda m: logic_use(m.group(1), m.group(2)), text), words)
    for line in text.split("\n"):
        code, comment = code_and_comment(line)
        lines.append(turn_code(code, words, projected, seen) + turn_comment(comment, words))
    return "\n".join(lines)


def logic_use(module, names):
    """An import of tests by their older name comes from where the library has the newer one."""
    names = [n.strip() for n in names.split(",")]
    tests = [n for n in names if n in TESTS]
    rest = [n for n in names if n not in TESTS]
    lines = ["use Rattle.std.proofs.Common.{" + ", ".join(tests) + "}"] if tests else []
    return "\n".join(lines + ([f"use {module}.{{" + ", ".join(rest) + "}"] if rest else []))


def clauses(text):
    """Where the antt of a .rt file stands: its 'ghost use' items and the braces of its clauses."""
    for m in re.finditer(r"^\s*(?:pub )?ghost use [^;]*;|\b(?:requires|ensures|ghost)\*?(?: [\w]+)?:? \{", text, re.M):
        if m.group(0).endswith(";"):
            yield m.start(), m.end()
            continue
        at, depth = m.end(), 1
        while depth:
            depth += {"{": 1, "}": -1}.get(text[at], 0)
            at += 1
        yield m.end(), at - 1


def turn_rt(text, words, projected, seen):
    out, last = [], 0
    for start, end in clauses(text):
        out.append(text[last:start] + turn_code(text[start:end], words, projected, seen))
        last = end
    text = "".join(out) + text[last:]
    return re.sub(r"//[^\n]*", lambda m: turn_comment(m.group(0), words), text)


def own_words():
    words, projected = set(), set()
    for path in glob.glob("crates/*/specs/*.antt"):
        words |= declared(path)
        projected |= fields(path)
    for path in glob.glob("crates/*/src/**/*.rt", recursive=True):
        for start, end in clauses(text := open(path, encoding="utf-8").read()):
            if "use " in text[start:end][:12]:
                words |= set(ALIAS.findall(text[start:end]))
    camel = {w: snake(w) for w in words if plain(w) and "-" not in w and snake(w) != w}
    taken = set(camel.values()) | {w for w in words if "-" not in w and snake(w) == w}
    table = dict(camel)
    for w in words:
        if plain(w) and w not in camel and (snake(w) != w or w in camel.values()):
            table[w] = snake(w) + ("_lem" if snake(w) in taken else "")
    return table, {w for w in projected if w in table}


def main(argv):
    say = argv == ["--say"]
    table, projected = own_words()
    turned, bad = {}, []
    met = {}
    for a, b in table.items():
        met.setdefault(b, set()).add(a)
    for b, names in sorted(met.items()):
        if len(names) > 1:
            print("look: one word for", ", ".join(sorted(names)), "->", b)
    paths = sorted(glob.glob("crates/*/specs/**/*.antt", recursive=True) + glob.glob("crates/*/proofs/**/*.antt", recursive=True) + glob.glob("crates/*/src/**/*.rt", recursive=True))
    for path in paths:
        text = open(path, encoding="utf-8").read()
        words = dict(table)
        if path.endswith("/Proof.antt"):
            words |= {w: snake(w) for w in declared(path) if plain(w) and not re.search(rf"^(?:pub |abbrev )*{re.escape(w)} : (?:tie\.|.*statement M)", text, re.M)}
        seen = {}
        new = (turn_antt if path.endswith(".antt") else turn_rt)(text, words, projected, seen)
        for to, names in sorted(seen.items()):
            if len(names - set(TESTS)) > 1:
                bad.append(f"{path}: {', '.join(sorted(names))} all become {to}")
        if new != text:
            turned[path] = new
    print("\n".join("stop: " + b for b in bad))
    print(f"respell: {len(table)} words, {len(turned)} files")
    if bad or say:
        return 1 if bad else 0
    for path, new in turned.items():
        with open(path, "w", encoding="utf-8") as f:
            f.write(new)
    return 0


if __name__ == "__main__":
    os.chdir(os.path.join(os.path.dirname(os.path.abspath(__file__)), ".."))
    raise SystemExit(main(sys.argv[1:]))
