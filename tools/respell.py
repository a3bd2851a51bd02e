#!/usr/bin/env python3
"""Respells the names of definitions and lemmas: words in snake case, a lemma that would have another name's spelling with `_lem`.

usage: tools/respell.py [FOLDER..]    in the repository: rewrites crates/*/{specs,proofs}/**/*.antt and crates/*/src/*.rt in place
       tools/respell.py --map         prints each name and its new spelling

Which names: those declared at the head of a line in specs/ and proofs/, aside from the proofs of functions (Proof.antt, Answers.antt,
Invariants.antt), whose names Rattle makes. A FOLDER below crates/ is turned by the names of the whole repository.
"""
import glob
import re
import sys
from collections import defaultdict

TOKEN = re.compile(r"[^\s(){}\[\],;.⌜⌝λ\"`]+")
ITEM = re.compile(r"^\s*(?:(?:pub|abbrev|unfoldable|opaque) )*((?:[^\s(){}\[\]:=→λ,.]+ )+):(?:\s|$)")
IMPORT = re.compile(r"^use ([^\s{]+?)\.\{([^}]*)\}", re.M)
# `result` is the returned value in a clause of today's, so the definition of that name in this file gets another.
RESULT = ("commands/specs/Call.antt", "Rattle.commands.specs.Call", re.compile(r"(?<![.\w'-])result(?![\w'-])"), "result_of")
MADE = re.compile(r"/proofs/.+/(Proof|Answers|Invariants)\.antt$")


def antt_files(root):
    return sorted(glob.glob(f"{root}/*/specs/**/*.antt", recursive=True) + glob.glob(f"{root}/*/proofs/**/*.antt", recursive=True))


def code_of(text):
    return re.sub(r"--.*", "", text)


def snake(name):
    name = name.replace("-", "_")
    if name[0].islower():
        name = re.sub(r"(?<=[A-Za-z0-9])([A-Z])", lambda m: "_" + m.group(1).lower(), name)
    return name


def renames(root="crates"):
    declared, library, functions = set(), set(), set()
    for path in antt_files(root):
        text = code_of(open(path, encoding="utf-8").read())
        for module, names in IMPORT.findall(text):
            if not module.startswith("Rattle.") or module.startswith("Rattle.std"):
                library |= {n.strip().split(" as ")[0] for n in names.split(",")}
        if not MADE.search(path):
            declared |= {n for m in map(ITEM.match, text.split("\n")) if m for n in m.group(1).split()}
    for path in glob.glob(f"{root}/*/src/*.rt"):
        functions |= set(re.findall(r"\bfn (\w+)", re.sub(r"//.*", "", open(path, encoding="utf-8").read())))
    turned = {n: snake(n) for n in declared if n[0].isalpha() and "◌" not in n and n not in library and snake(n) != n}
    together = defaultdict(list)
    for old, new in turned.items():
        together[new].append(old)
    for new, olds in together.items():
        definitions = [n for n in olds if "-" not in n]
        if definitions and new in declared:
            turned[new] = new + "_lem"
        for old in olds:
            if "-" in old and (definitions or new in functions or new in declared):
                turned[old] = new + "_lem"
    assert len(set(turned.values())) == len(turned), "names fall together"
    assert not set(turned.values()) & (declared - set(turned)), "a name stands already"
    return turned


def turn_token(turned, is_comment):
    def turn(match):
        token = match.group(0)
        if is_comment and not re.match(r"^[a-z]+[a-z0-9]*[A-Z]", token):
            return token
        return turned.get(token, token)

    return turn


def turn_line(turned, line, mark):
    """A line's code by every name; its comment by the names in camel case, and by each that stands in backquotes."""
    code, dash, comment = line.partition(mark)
    code = TOKEN.sub(turn_token(turned, False), code)
    comment = re.sub(r"`[^`]*`", lambda m: TOKEN.sub(turn_token(turned, False), m.group(0)), comment)
    return code + dash + TOKEN.sub(turn_token(turned, True), comment)


def turn_antt(turned, text):
    return "\n".join(turn_line(turned, line, "--") for line in text.split("\n"))


def turn_rust(turned, text):
    """Only ghost items and clauses hold names of definitions; an alias such as `X·good` for `good` goes, since names need no alias."""
    for name, alias in re.findall(r"(\w+) as (\w+·\w+)", text):
        assert alias.endswith("·" + name), alias
        text = text.replace(f"{name} as {alias}", name).replace(alias, name)
    lines, inside = [], False
    for line in text.split("\n"):
        starts = re.match(r"\s*(ghost use|requires|ensures|ghost|invariant)\b", line)
        inside = bool(starts) or (inside and not line.startswith(("{", "    {", "pub ", "fn ", "use ", "mod ", "//")))
        if inside and not line.lstrip().startswith("//"):
            line = turn_line(turned, line, "//")
        elif "//" in line:
            code, slashes, comment = line.partition("//")
            line = code + slashes + turn_line(turned, "--" + comment, "--")[2:]
        lines.append(line)
        if inside and line.rstrip().endswith(("}", ";")) and line.count("{") <= line.count("}"):
            inside = False
    return "\n".join(lines)


def main(words):
    turned = renames()
    if words == ["--map"]:
        for old in sorted(turned):
            print(old, turned[old])
        return
    for root in words or ["crates/*"]:
        for path in sorted(glob.glob(f"{root}/specs/**/*.antt", recursive=True) + glob.glob(f"{root}/proofs/**/*.antt", recursive=True)):
            rewrite(path, lambda t: turn_antt(turned, t))
        for path in sorted(glob.glob(f"{root}/src/*.rt")):
            rewrite(path, lambda t: turn_rust(turned, t))


def turn_result(path, text):
    home, module, name, new = RESULT
    names = [n for line in re.findall(re.escape(module) + r"\.\{([^}]*)\}", text) for n in line.split(", ")]
    if not path.endswith(home) and "result" not in names:
        return text
    lines = []
    for line in text.split("\n"):
        mark = "//" if path.endswith(".rt") else "--"
        code, dash, comment = line.partition(mark)
        lines.append(name.sub(new, code) + dash + comment)
    return "\n".join(lines)


def rewrite(path, turn):
    text = open(path, encoding="utf-8").read()
    new = turn_result(path, turn(text))
    if new != text:
        with open(path, "w", encoding="utf-8") as file:
            file.write(new)


if __name__ == "__main__":
    main(sys.argv[1:])
