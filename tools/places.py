#!/usr/bin/env python3
"""Lists the places in src/ at which an older form of the language may stand, point by point (docs/DESIGN-PASS.md).

    tools/places.py 3          the lines of point 3
    tools/places.py            how many lines each point has

A line listed is a place to look, not a verdict: the page says which of them are places, and what became of each.
"""
import collections
import glob
import os
import re
import sys

TOP = os.path.join(os.path.dirname(os.path.abspath(__file__)), "..")

LOOK_FOR = {
    1: r"\benum \w+|^\s+(pub )?\w+: bool,$|stands? for (any more|none)|=> \d+,$|fn .*-> bool\b|^\s*\) -> bool",
    3: r"^\s*(for|while|loop)\b.*\{$",
    4: r"=> (true|false),|_ => (true|false|None|0),|Ok\((\w+)\) => (Ok\(\3\)|\3)|Err\((\w+)\) => Err\(|Err\(_\) =>|None => Err"
       r"|[/%*] 256\b|256 \* |b'A' \+|b'0' \+|fn (fmt|eq|cmp|clone|from|number|as_str|\w+_of|print_\w+|choose_\w+)\b",
    6: r": \[\w+(<\w+>)?; \w+\]|count: usize|Vec<",
    7: r"match (\*?self(\.\w+)?|\*?phase|step|call|activity|instruction|record|\(activity, named\)|\(call, answer\)|self\.draw\(\).*) \{$",
}


def sources():
    return sorted(glob.glob("crates/*/src/*.rt"))


def code_lines():
    for path in sources():
        with open(path, encoding="utf-8") as text:
            for number, line in enumerate(text, 1):
                if not re.match(r"\s*(ghost use|use) ", line):
                    yield path, number, line.rstrip("\n")


def by_pattern(point):
    pattern = re.compile(LOOK_FOR[point])
    for path, number, line in code_lines():
        comment = line.lstrip().startswith("//")
        if pattern.search(line) and (not comment or point == 1 and "stand" in line):
            yield f"{path}:{number}: {line.strip()}"


WORDS_THAT_STAY = set("fn let mut match if else for in while loop return impl struct enum pub const use mod as self Self "
                      "requires ensures Ok Err Some None true false".split())
ALIKE = 3


def shape_of(line):
    """A line with every name, number and string put in the same place by one sign."""
    line = re.sub(r'b?"[^"]*"', "S", line.strip())
    line = re.sub(r"\b(0x)?[0-9][0-9A-Fa-f_]*\b", "N", line)
    return re.sub(r"[A-Za-z_]\w*", lambda word: word[0] if word[0] in WORDS_THAT_STAY else "I", line)


def lines_of_functions():
    """Each line of a function's body and contract, with the function that it stands in, and its shape."""
    function = None
    for path, number, line in code_lines():
        text = line.strip()
        named = re.match(r"(pub(\([a-z]+\))? )?(fn|const|struct|enum|impl.*|trait|mod) (\w+)", text)
        if named:
            function = f"{path}:{named.group(4)}" if named.group(3) == "fn" else None
        if function and len(text) > 3 and not text.startswith(("//", "#")):
            yield function, shape_of(line)


def functions_alike():
    """Point 2: pairs of functions that share three lines or more which differ only in names and values."""
    lines = list(lines_of_functions())
    stands_in = collections.defaultdict(list)
    for at in range(len(lines) - ALIKE + 1):
        run = lines[at:at + ALIKE]
        if run[0][0] == run[-1][0] and sum(shape.count("I") for _, shape in run) >= 10:
            stands_in[tuple(shape for _, shape in run)].append(run[0][0])
    pairs = collections.Counter()
    for functions in stands_in.values():
        pairs.update({(a, b) for a, b in zip(functions, functions[1:]) if a != b})
    for (first, second), runs in sorted(pairs.items()):
        yield f"{first} ~ {second} ({runs + ALIKE - 1} lines)"


def parts_in_brackets(clause):
    opened = []
    for place, sign in enumerate(clause):
        if sign == "(":
            opened.append(place)
        elif sign == ")" and opened:
            yield clause[opened.pop():place + 1]


def repeated_facts():
    """Point 5: parts of clauses, of 30 characters or more, that stand in the contracts of three functions or more."""
    told_by = collections.defaultdict(set)
    function = ""
    for path, _, line in code_lines():
        named = re.search(r"\bfn (\w+)", line)
        if named and not line.lstrip().startswith("//"):
            function = f"{path}:{named.group(1)}"
        if re.match(r"\s*(requires|ensures)\b", line):
            for part in parts_in_brackets(line):
                if len(part) >= 30:
                    told_by[re.sub(r"\b(old|new|now)\b", "_", part)].add(function)
    for part, functions in sorted(told_by.items(), key=lambda told: (-len(told[1]), told[0])):
        if len(functions) >= 3:
            yield f"{len(functions)} functions: {part}"


def proof_lines():
    """Point 8: how many lines of proof each crate has."""
    for crate in sorted(glob.glob("crates/*/proofs")):
        count = sum(len(open(path, encoding="utf-8").read().splitlines())
                    for path in glob.glob(crate + "/**/*.antt", recursive=True))
        yield f"{crate}: {count}"


def listed(point):
    if point == 2:
        return list(functions_alike())
    if point == 5:
        return list(repeated_facts())
    if point == 8:
        return list(proof_lines())
    return list(by_pattern(point))


def main():
    os.chdir(TOP)
    if len(sys.argv) > 1:
        print("\n".join(listed(int(sys.argv[1]))))
        return
    for point in range(1, 9):
        print(f"point {point}: {len(listed(point))} lines")


main()
