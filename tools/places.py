#!/usr/bin/env python3
"""Counts the places of the eight points of docs/DESIGN-PASS.md in crates/*/src.

usage: python3 tools/places.py [ROOT] [--list]

For each point it prints how many candidates its pattern finds, by sort; --list prints each with its file and line. A pattern finds what it can
tell by text alone: what a reader found besides stands in docs/DESIGN-PASS.md.
"""
import collections
import pathlib
import re
import sys

WORD = r"[A-Za-z_]\w*"


class Source:
    """A file of src without its comments and strings, so that its lines keep their numbers."""

    def __init__(self, path, name):
        self.name = name
        text = path.read_text()
        text = re.sub(r'b?"(?:\\.|[^"\\])*"', lambda m: '""' + "\n" * m.group(0).count("\n"), text)
        self.text = re.sub(r"//[^\n]*", "", text)

    def line(self, at):
        return self.text.count("\n", 0, at) + 1

    def functions(self):
        """Each function: name, line, parameters, clauses, body."""
        for m in re.finditer(r"\bfn (%s)[^(]*\(" % WORD, self.text):
            end = closing(self.text, m.end() - 1, "(", ")")
            params = self.text[m.end() : end - 1]
            body = end
            while True:
                # the clauses stand in braces of their own, each on its line behind requires or ensures
                clause = re.compile(r"(?:(?!\bfn\b|;\n)[^{])*?(?=\{)", re.S).match(self.text, body)
                if not clause:
                    break
                opening = clause.end()
                if not re.search(r"\b(requires|ensures)\b[^{}]*$", self.text[body:opening]):
                    break
                body = closing(self.text, opening, "{", "}")
            if not clause:
                continue
            clauses = self.text[end:opening]
            yield m.group(1), self.line(m.start()), params, clauses, self.text[opening : closing(self.text, opening, "{", "}")]


def closing(text, at, left, right):
    depth = 0
    for i in range(at, len(text)):
        depth += (text[i] == left) - (text[i] == right)
        if depth == 0:
            return i + 1
    raise ValueError(text[at : at + 60])


def names_of(params):
    return [p.split(":")[0].strip().removeprefix("mut ") for p in re.split(r",(?![^<(\[]*[>)\]])", params) if ":" in p]


def option_like(sources):
    """Enums with two variants, of which one has nothing or a number and a place; structs and parameters with a number beside a place;
    fields and parameters that are numbers for kinds; flags."""
    for s in sources:
        for m in re.finditer(r"\benum (%s)[^{;]*\{" % WORD, s.text):
            body = s.text[m.end() : closing(s.text, m.end() - 1, "{", "}") - 1]
            variants = [v.strip() for v in re.split(r",\s*(?![^(]*\))", body) if v.strip()]
            plain = [v for v in variants if re.fullmatch(WORD, v) or re.fullmatch(WORD + r"\((u8, u64|Error)\)", v)]
            if len(variants) == 2 and plain or len(variants) == 3 and any(re.search(r"\(", v) for v in variants) and plain:
                yield "enum of two or three outcomes", s, m.start(), m.group(1)
        for m in re.finditer(r"\bnumber: u8,\s+(?:pub )?place: u64\b", s.text):
            yield "number beside a place", s, m.start(), ""
        for m in re.finditer(r"\bpub (kind|coding|side|sort): u\d+\b", s.text):
            yield "number for a kind", s, m.start(), m.group(1)
        for m in re.finditer(r"\bpub (stopped|begun|answer|outcome|in_range|inside): \w+", s.text):
            yield "flag or answer beside a value", s, m.start(), m.group(1)


def twins(sources):
    """Functions whose bodies differ in names and numbers alone."""
    groups = collections.defaultdict(list)
    for s in sources:
        for name, line, params, _, body in s.functions():
            seen = {}
            tokens = re.findall(r"\w+|[^\w\s]", body)
            shape = tuple(seen.setdefault(t, len(seen)) if re.match(r"[A-Za-z_]", t) else "n" if t[0].isdigit() else t for t in tokens)
            if len(tokens) >= 24:
                groups[shape].append((s, line, name))
    for group in groups.values():
        if len(group) > 1:
            for s, line, name in group:
                yield "function of one shape with another", s, line, name


def loops(sources):
    for s in sources:
        for m in re.finditer(r"\b(while\b(?! let)[^{]*|loop |for \w+ in 0\.\.[^{]*)\{", s.text):
            yield "while" if m.group(1)[0] == "w" else "loop" if m.group(1)[0] == "l" else "for over numbers", s, m.start(), " ".join(m.group(1).split())


def by_hand(sources):
    """Functions that only compare, order, convert or print."""
    names = r"(same\w*|exactly|lower|join_ends|flag_of|signed|unsigned|exponent|last_place|above|is_intra|is_field|by_field|digit_of|structure_of|numbers_of|print_name|print_answer|found_or_none|conclude|put_decimal|mount_of|mounts_of|mount_shift_of|summary_of|outcome_of|byte_at|word_at|number_at|lengths_of|number64|unless|positive|negative|is_missing|is_asked_for)"
    for s in sources:
        for m in re.finditer(r"\bfn %s\b" % names, s.text):
            yield "function that compares, converts or prints", s, m.start(), m.group(1)


def facts(sources):
    """Facts of requires that stand in three functions or more of one crate, and four parameters that travel together through three."""
    found = collections.defaultdict(list)
    travel = collections.defaultdict(list)
    for s in sources:
        crate = s.name.split("/")[0]
        for name, line, params, clauses, _ in s.functions():
            for clause in re.findall(r"requires\s*\w*\s*\{(.*?)\}\s*(?=requires|ensures|$)", clauses, re.S):
                for fact in set(p.strip().strip("()").strip() for p in re.split(r"×", clause)):
                    found[crate, fact].append((s, line, name))
            ps = names_of(params)
            for i in range(len(ps) - 3):
                travel[crate, tuple(ps[i : i + 4])].append((s, line, name))
    for (crate, fact), where in found.items():
        if len(where) >= 3:
            for s, line, name in where:
                yield "fact in three contracts or more: " + fact, s, line, name
    taken = set()
    for (crate, group), where in sorted(travel.items(), key=lambda x: -len(x[1])):
        if len(where) >= 3:
            for s, line, name in where:
                if (s.name, name) not in taken:
                    taken.add((s.name, name))
                    yield "four parameters that travel together", s, line, name


def buffers(sources):
    for s in sources:
        for m in re.finditer(r"\b(bytes|buffer): \[u\d+; \d+\],\s+pub (len|held)|\b(held|len): usize,\s+pub (bytes|buffer)", s.text):
            yield "array with a length beside it", s, m.start(), ""
        for name, line, params, _, _ in s.functions():
            ps = names_of(params)
            if any((a in ps and b in ps) for a, b in [("buffer", "used"), ("old", "held"), ("buffer", "from"), ("bytes", "from"), ("sheets", "end"), ("sheets", "count")]):
                yield "parameters of a buffer and a length", s, line, name


def switches(sources):
    for s in sources:
        for m in re.finditer(r"\bfn\(|\bdyn |if \w+ == \d+ \{\s+\w+\(", s.text):
            yield "step chosen by a number, or a function pointer", s, m.start(), ""


POINTS = [
    ("1 own Option, Result, flags, numbers", option_like),
    ("2 twins", twins),
    ("3 loops by hand", loops),
    ("4 equality, order, conversion, printing by hand", by_hand),
    ("5 facts and parameters that repeat", facts),
    ("6 buffers with a length beside", buffers),
    ("7 switches on a step", switches),
]


def main():
    arguments = [a for a in sys.argv[1:] if not a.startswith("--")]
    root = pathlib.Path(arguments[0] if arguments else ".")
    paths = sorted(root.glob("crates/*/src/**/*.rt"))
    sources = [Source(p, p.relative_to(root / "crates").as_posix().replace("/src/", "/")) for p in paths]
    for title, find in POINTS:
        found = list(find(sources))
        print(f"{title}: {len(found)}")
        for sort, n in sorted(collections.Counter(f[0] for f in found).items()):
            print(f"    {sort}: {n}")
        if "--list" in sys.argv:
            for sort, s, at, what in found:
                line = at if sort.startswith(("function of one", "fact", "four", "parameters of")) else s.line(at)
                print(f"        {s.name}:{line} {what}")
    proofs = sorted(root.glob("crates/*/proofs/**/*.antt"))
    answers = [p for p in proofs if p.name in ("Answers.antt", "Invariants.antt")]
    print(f"8 proofs: {len(answers)} files of answers and invariants, {sum(len(p.read_text().splitlines()) for p in answers)} lines; "
          f"{len(proofs) - len(answers)} of lemmas, {sum(len(p.read_text().splitlines()) for p in proofs if p not in answers)} lines")


if __name__ == "__main__":
    main()
