#!/usr/bin/env python3
"""Brings the names of this repository's own definitions, fields and lemmas to one spelling.

    python3 tools/snake_names.py FOLDER --force

Run once, at the top of a checkout, behind the kit's own script. A name declared in specs/ or proofs/ that has dashes gets
underscores; if it begins with a capital it is a fact or a type, and its words are joined in camel case. Names that the prover
makes (the goals that an answer file answers) and names of the kit's library stay as they are. Strings are left alone. It
prints the names that would fall together with another, and changes nothing then without --force: those that it prints today
stand in different places (a field beside a parameter, a definition beside the function whose answer it is).
"""

import re
import sys
from pathlib import Path

TOP = Path(sys.argv[1] if len(sys.argv) > 1 else ".")

# Where the plain rule would make a name that is taken, or that says something else.
OTHER = {"bit-xor": "bit_xor_lem"}

# Parameters and names given at an import, which the statements show.
SHOWN = {"first-kept", "driven-byte"}

WORD = r"[^\s(){}\[\].,;|«»\"λ∀`]+"
DECLARED = re.compile(r"^\s*(?:(?:abbrev|unfoldable|opaque|pub|private|record|data|class|mod|module)\s+)*(" + WORD + r")(?:\s+[({].*)?\s:(?:\s(?!=)|$)")
HEAD = re.compile(r"^\s*(?:pub\s+)?(?:record|data)\s+(" + WORD + r")")
LET = re.compile(r"\blet\s+(" + WORD + r")\s*[:=]")
ANSWER = re.compile(r"^\s*(?:abbrev\s+)?(?:pub\s+)?(" + WORD + r")\s*:\s*(?:goal|given|need)\.")


def antt_files():
    for kind in ("specs", "proofs"):
        yield from sorted(TOP.glob("crates/*/" + kind + "/**/*.antt"))


def is_dashed(name):
    return re.fullmatch(r"[A-Za-zℕ₀-₉0-9_'-]*[A-Za-z][A-Za-zℕ₀-₉0-9_']*(-[A-Za-zℕ₀-₉0-9_']+)+", name) is not None


def camel(name):
    first, *rest = name.split("-")
    return first + "".join(word[:1].upper() + word[1:] for word in rest)


def declared_names():
    found, answers = set(), set()
    for path in antt_files():
        for line in path.read_text().splitlines():
            if line.lstrip().startswith("--"):
                continue
            answer = ANSWER.match(line)
            if answer:
                answers.add(answer.group(1))
                continue
            for pattern in (DECLARED, HEAD):
                match = pattern.match(line)
                if match:
                    found.add(match.group(1))
            found.update(LET.findall(line))
    return {name for name in found if is_dashed(name)} - answers


def library_names():
    names = set()
    for path in Path("/opt/rattle/rattle").glob("std/**/*.antt"):
        for line in path.read_text(errors="ignore").splitlines():
            match = DECLARED.match(line)
            if match:
                names.add(match.group(1))
    return names


def files():
    yield from antt_files()
    yield from sorted(TOP.glob("crates/*/src/**/*.rt"))
    yield from sorted(TOP.glob("crates/*/must-fail/*.edit"))


def main():
    names = declared_names()
    clash = names & library_names()
    if clash:
        print("also in the library, left alone:", sorted(clash))
    names = (names - clash) | SHOWN
    new = {name: OTHER.get(name) or (camel(name) if name[0].isupper() else name.replace("-", "_")) for name in sorted(names)}
    words = set()
    texts = {path: path.read_text() for path in files()}
    token = re.compile(r'"(?:[^"\\\n]|\\.)*"|' + WORD)
    for text in texts.values():
        words.update(token.findall(text))
    taken = {name: to for name, to in new.items() if to in words}
    back = {}
    for name, to in new.items():
        back.setdefault(to, []).append(name)
    double = {to: many for to, many in back.items() if len(many) > 1}
    for name, to in sorted(taken.items()):
        print("taken:", name, "->", to)
    for to, many in sorted(double.items()):
        print("fall together:", many, "->", to)
    if (taken or double) and "--force" not in sys.argv:
        return 1
    for path, text in texts.items():
        changed = token.sub(lambda m: new.get(m.group(0), m.group(0)), text)
        # In a remark the call is a power-up; only a statement names the case of a record so.
        changed = re.sub(r"(?m)((?:--|//).*\b(?:[aA]|or) )power_up\b", r"\1power-up", changed)
        if changed != text:
            path.write_text(changed)
    print(len(new), "names respelled")
    return 0


sys.exit(main())
