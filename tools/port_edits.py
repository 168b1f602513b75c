#!/usr/bin/env python3
"""Brings the wrong answers crates/NAME/must-fail/*.edit of a repository over to the spelling that its files have now.

usage: python3 port_edits.py LANDED PORTED [--report FILE]

LANDED and PORTED are folders with crates/: the repository as it was when each edit applied, and as it is now. Each edit is read from LANDED,
applied to its file there, and written to PORTED with the same name: the file's line as it was, edited, is put into today's spelling, and what
tells it from the file's line as it is now is the new pair. How names are spelled is learned from the two trees. The rule is tried on each line
before it is edited: it must give the very line that stands in PORTED. What it cannot give stands in BY_HAND. The lines name:, guards: and why:
stay, a law: line is respelled. Other files of PORTED are only read, so the script can be run again after each change of them.
"""
import argparse
import collections
import difflib
import pathlib
import re
import sys

# What is written by hand, by (crate, file, name of the block or '', number of the pair): the pairs that stand in its place, as (old, new) or
# (file, old, new). They are written in today's forms with the names of LANDED; names are respelled as everywhere.
# Same wrong meaning, where the old text would change the words of a condition or a pattern: today's goals are named by them, and an answer
# that names one which is gone would show nothing of the contract.
BY_HAND = {
    ("batch_code", "wrong_3.edit", "zero_behind_end_refused", 1): [("        let word = words[at];", "        let word = words[at] ^ 1;")],
    ("commands_code", "wrong_1.edit", "judged_before_whole", 1): [("        return NextCommand::Incomplete;", "        return NextCommand::Whole(header, n);")],
    ("decoding_code", "wrong_1.edit", "refusal_writes", 1): [
        (
            "            let Report::Accepted(reported) = report else {",
            "            let Report::Accepted(reported) = (match report { Report::Short(_, _, r) => Report::Accepted(r), _ => Report::Refused(0, 0) }) else {",
        )
    ],
    ("decoding_code", "wrong_2.edit", "room_of_one_record", 1): [
        ("            let needed = log_length(p.picture.grid);", "            let needed = log_length(Grid { columns: 1, rows: 1 });")
    ],
    ("mounts_code", "wrong_1.edit", "side_2_taken", 1): [
        ("let judged = asking::judge(sheets, count, boat, u32::MAX);", "let judged = asking::judge(sheets, count, boat, u32::MAX); let side = side - side / 2;")
    ],
    ("mounts_code", "wrong_1.edit", "turned_on_starboard", 1): [("if 1 < side {", "let side = side ^ 1; if 1 < side {")],
    ("prediction_code", "wrong_1.edit", "join_empty_as_byte_0", 1): [
        ("        return other;", "        return Extent { first: lower(one.first, other.first), end: other.end };")
    ],
}

IDENT = r"[^\s(){}\[\];,.\"|⟦⟧λ∥]+"
TOKEN = re.compile(r'"(?:\\.|[^"\\])*"|' + IDENT + r"|[^\s]")
WORD = re.compile(r"[^\W\d]|«")
KEYWORDS = {"let", "in", "where", "with", "use", "pub", "abbrev", "unfoldable", "unfolding", "record", "data", "λ"}


def tokens(text):
    return [m.group(0) for m in TOKEN.finditer(text)]


def is_name(token):
    return bool(WORD.match(token)) or (len(token) > 1 and token[0] in "_◌") or token[:1].isalpha()


def bare(line):
    """A line without what a respelling may change: spaces, parentheses, dots, dashes and case."""
    return re.sub(r"[\s().«»_◌′'-]", "", line).lower()


def squeezed(line):
    return " ".join(line.split())


# ---- projections: `(p .field)` was written, `p.field` is --------------------------------------------------------------------------------------

PROJECTION = re.compile(r"(?<=[\w)»'′]) \.(?=[^\W\d]|«)")


def atom_before(text, end):
    """Where the atom begins that ends at end: a group in parentheses, or a name with its projections; None if there is none."""
    at = end
    while at > 0 and text[at - 1] not in " ({[;,":
        if text[at - 1] in ")}]":
            depth, at = 1, at - 1
            while at > 0 and depth:
                at -= 1
                depth += {")": 1, "}": 1, "]": 1, "(": -1, "{": -1, "[": -1}.get(text[at], 0)
            if depth:
                return None
        else:
            at -= 1
    word = text[at:end]
    if not word or word.endswith((".", ":")) or word in KEYWORDS or not re.search(r"[\w)»\]}]", word):
        return None
    return at


def tightened(line):
    """The line with each projection in today's form."""
    while m := PROJECTION.search(line):
        start = atom_before(line, m.start())
        if start is None:
            return line
        head, has_arguments = start, False
        while head > 0 and line[head - 1] == " ":
            before = atom_before(line, head - 1)
            if before is None:
                break
            head, has_arguments = before, True
        field = re.compile(IDENT).match(line, m.end())
        own = line[head if has_arguments else start : m.start()]
        path = f"({own}).{field.group(0)}" if has_arguments else f"{own}.{field.group(0)}"
        left, right = line[: head if has_arguments else start], line[field.end() :]
        if re.match(r"\)", right) and left.endswith("("):
            left, right = left[:-1], right[1:]
        line = left + path + right
    return line


# ---- names ------------------------------------------------------------------------------------------------------------------------------------


class Names:
    """How names are spelled today, learned from lines that stand in both trees."""

    def __init__(self):
        self.everywhere = collections.defaultdict(collections.Counter)
        self.in_file = collections.defaultdict(lambda: collections.defaultdict(collections.Counter))

    def learn(self, file, was, now):
        a, b = ([t for t in tokens(x) if is_name(t)] for x in (was, now))
        if len(a) == len(b):
            for x, y in zip(a, b):
                self.everywhere[x][y] += 1
                self.in_file[file][x][y] += 1

    def of(self, file, name):
        for votes in (self.in_file[file].get(name), self.everywhere.get(name)):
            if votes:
                return votes.most_common(1)[0][0]
        operator = re.fullmatch(r"_(\S+)_", name)
        return f"◌{operator[1]}◌" if operator else name

    def respelled(self, file, text):
        return TOKEN.sub(lambda m: self.of(file, m.group(0)) if is_name(m.group(0)) else m.group(0), text)


class Pair:
    """A file in both trees, and which of its lines are the same."""

    def __init__(self, landed, ported):
        self.was, self.now = (p.read_text(encoding="utf-8").split("\n") for p in (landed, ported))
        keys = [bare(x) for x in self.was], [bare(x) for x in self.now]
        self.at = {}  # of a line of LANDED, by its number, the line of PORTED that it became
        for kind, a, b, c, d in difflib.SequenceMatcher(None, *keys, autojunk=False).get_opcodes():
            if kind == "equal" or (kind == "replace" and b - a == d - c):
                self.at.update(zip(range(a, b), range(c, d)))
            elif kind == "replace":
                # lines of as many names, in order, are the same line respelled
                taken = c
                for i in range(a, b):
                    for j in range(taken, d):
                        x, y = ([t for t in tokens(line) if is_name(t)] for line in (self.was[i], self.now[j]))
                        if x and len(x) == len(y) and difflib.SequenceMatcher(None, keys[0][i], keys[1][j]).ratio() > 0.7:
                            self.at[i], taken = j, j + 1
                            break


IMPORT = re.compile(r"^\s*(?:pub )?(?:ghost )?use ([^\s{;]+)\.\{([^}]*)\}")


def imported(line):
    m = IMPORT.match(line)
    return (m[1], [x for x in re.split(r",\s*", m[2].strip()) if x]) if m else (None, [])


class Trees:
    """Both trees: their files side by side, how names are spelled, and which import of PORTED gives a name."""

    def __init__(self, landed, ported):
        self.landed, self.ported, self.names, self.pairs = landed, ported, Names(), {}
        self.giver = collections.defaultdict(collections.Counter)
        for was in sorted(landed.glob("crates/*/*/**/*")):
            file = str(was.relative_to(landed))
            now = ported / file
            if was.suffix not in (".rt", ".antt") or not now.is_file():
                continue
            pair = self.pairs[file] = Pair(was, now)
            for i, j in pair.at.items():
                if not IMPORT.match(pair.was[i]):
                    self.names.learn(file, pair.was[i], pair.now[j])
            for line in pair.now:
                module, given = imported(line)
                for name in given:
                    self.giver[name][module] += 1

    def spelled(self, file, text):
        """A text of a file of LANDED in today's spelling."""
        text = self.names.respelled(file, text)
        return tightened(text) if file.endswith(".antt") else text


# ---- edits ------------------------------------------------------------------------------------------------------------------------------------


class Left(Exception):
    """A pair that the rule cannot give."""


def cuts(line):
    """The places in a line where a token begins or ends."""
    return {0, len(line)} | {at for m in TOKEN.finditer(line) for at in m.span()}


def edges(a, b):
    """How many characters two texts share at the front and at the back, cut at tokens."""
    of_a, of_b = cuts(a), cuts(b)
    front = max(k for k in of_a & of_b if a[:k] == b[:k])
    room = min(len(a), len(b)) - front
    return front, max(k for k in {len(a) - x for x in of_a} & {len(b) - x for x in of_b} if k <= room and a[len(a) - k :] == b[len(b) - k :])


class Port:
    """One block of an edit (or a whole edit of one block), applied to both trees pair by pair."""

    def __init__(self, trees, crate):
        self.trees, self.crate, self.was, self.now = trees, crate, {}, {}

    def file(self, path):
        file = f"crates/{self.crate}/{path}"
        if file not in self.was:
            if file not in self.trees.pairs:
                raise Left(f"{path} is not in both trees")
            pair = self.trees.pairs[file]
            self.was[file], self.now[file] = list(pair.was), list(pair.now)
        return file

    def apply(self, path, old, new):
        """The pairs of today for one pair, with what is to be said of them."""
        file = self.file(path)
        was, now = self.was[file], self.now[file]
        rows = [i for i, line in enumerate(was) if old in line]
        if len(rows) != 1 or was[rows[0]].count(old) != 1:
            raise Left("its old text does not stand once in LANDED")
        row = rows[0]
        before, after = was[row], was[row].replace(old, new)
        was[row] = after
        if IMPORT.match(before):
            return self.imports(file, before, after)
        here = self.trees.pairs[file].at.get(row)
        given = self.trees.spelled(file, before)
        if here is None or squeezed(now[here]) != squeezed(given):
            same = [j for j, line in enumerate(now) if squeezed(line) == squeezed(given)]
            if len(same) != 1:
                return self.alone(path, file, old, new, f"the rule gives `{squeezed(given)}`, and there is `{squeezed(now[here]) if here is not None else '(no line)'}`")
            here = same[0]
        line, wrong = now[here], self.trees.spelled(file, after).strip()
        indent = line[: len(line) - len(line.lstrip())]
        if given.strip() != line.strip():
            wrong = squeezed(wrong)
        wrong = indent + wrong if wrong else ""
        if wrong == line:
            raise Left("it changes nothing today")
        # the part of the line that was named, or what has changed if that says more
        start, end = self.span(file, before, old, line)
        front, back = edges(line, wrong)
        start, end = min(start, front), max(end, len(line) - back)
        made = self.cut(now, here, line, wrong, start, end)
        now[here] = wrong
        return [(path, *made)]

    def alone(self, path, file, old, new, why):
        """The texts by themselves, where the lines are laid out anew and the old text, in today's spelling, still stands once."""
        old, new = self.trees.spelled(file, old), self.trees.spelled(file, new)
        text = "\n".join(self.now[file])
        if text.count(old) != 1:
            raise Left(why)
        self.now[file] = text.replace(old, new).split("\n")
        return [(path, old, new)]

    def span(self, file, before, old, line):
        """Where the names of the old text stand in today's line."""
        at = before.index(old)
        first = len([t for t in tokens(before[:at]) if is_name(t)])
        count = len([t for t in tokens(old) if is_name(t)])
        spans = [m.span() for m in TOKEN.finditer(line) if is_name(m.group(0))]
        if old in line and line.count(old) == 1:
            return line.index(old), line.index(old) + len(old)
        if count == 0 or first + count > len(spans):
            return len(line), 0
        start, end = spans[first][0], spans[first + count - 1][1]
        spelled = self.trees.spelled(file, old)
        for piece in (spelled, spelled.strip()):
            if line.count(piece) == 1:
                return line.index(piece), line.index(piece) + len(piece)
        return start, end

    @staticmethod
    def cut(now, here, line, wrong, start, end):
        """The old and the new text: that part of the line, made longer until it stands once in the file."""
        marks = sorted(cuts(line))
        text = "\n".join(now)
        from_end = len(line) - len(wrong)
        left, wider = True, False
        while True:
            old, new = line[start:end], wrong[start : end - from_end]
            if old.strip() and text.count(old) == 1 and (not wider or start == 0 or (old == old.strip() and old[0] not in ",;)]}")):
                return old, new
            wider = True
            lower, higher = [x for x in marks if x < start], [x for x in marks if x > end]
            if not lower and not higher:
                raise Left(f"its line stands {text.count(line)} times")
            if (left and lower) or not higher:
                start = lower[-1]
            else:
                end = higher[0]
            left = not left

    def imports(self, file, before, after):
        """Names that an edit adds to an import or takes from one: those that the file does not import today."""
        path = file.split("/", 2)[2]
        names, now = self.trees.names, self.now[file]
        was, to = imported(before)[1], imported(after)[1]
        added, gone = ([names.of(file, x) for x in some if x not in other] for some, other in ((to, was), (was, to)))
        have = {x for line in now for x in imported(line)[1]}
        rows = {}
        for name in added:
            if name in have:
                continue
            givers = [module for module, _ in self.trees.giver[name].most_common()]
            found = [(givers.index(imported(line)[0]), j) for j, line in enumerate(now) if imported(line)[0] in givers]
            if not found:
                raise Left(f"no import of today's file can give `{name}`")
            rows.setdefault(min(found)[1], []).append(name)
        made = []
        for row, names_there in rows.items():
            line, own = now[row], imported(now[row])[1]
            out = [x for x in gone if x in own][:1]
            anchor = out[0] if out else own[-1]
            other = ", ".join(names_there if out else [anchor, *names_there])
            inside = line.index("{") + 1
            at = inside + re.search(r"(?:^|(?<=[\s,]))" + re.escape(anchor) + r"(?=\s*(?:,|$))", line[inside : line.index("}")]).start()
            wrong = line[:at] + other + line[at + len(anchor) :]
            made.append((path, *self.cut(now, row, line, wrong, at, at + len(anchor))))
            now[row] = wrong
        return made


def blocks(text):
    """The blocks of an edit: lists of its lines. A block begins at a line name:, or is the whole."""
    parts = re.split(r"^(?=name: )", text, flags=re.M) if re.search(r"^name: ", text, re.M) else [text]
    return [part for part in parts if part]


class Report:
    """What became of each pair: 'same' text, 'spelling' alone, another 'cut' of its line, 'by hand', or LEFT as it was."""

    def __init__(self):
        self.lines, self.counts, self.left, self.marked = [], collections.Counter(), [], []

    def text(self):
        marked = [f"   {x}" for x in self.marked] or ["   none"]
        return "\n".join(["Changed by more than spelling (another cut of the line, an import, by hand, left):", *marked, "", *self.lines, ""])


def same_shape(file, trees, old, new, made):
    """Whether the pair of today is the old one in today's spelling, and no more or less of its line."""
    return len(made) == 1 and [squeezed(x) for x in made[0][1:]] == [squeezed(trees.spelled(file, x)) for x in (old, new)]


def law_line(trees, crate, line, report, where):
    path, _, name = line[len("law: ") :].partition(" ")
    file = f"crates/{crate}/{path}"
    if file not in trees.pairs:
        report.left.append(f"{where}: {path} of its law is not in both trees")
        return line
    now = trees.names.of(file, name)
    if not any(re.match(r"\s*(?:\w+ )*" + re.escape(now) + r"(?: .*)?(?: :|$)", x) for x in trees.pairs[file].now):
        report.left.append(f"{where}: {path} declares no {now}")
    return f"law: {path} {now}"


def ported(trees, crate, name, text, report):
    whole = []
    for block in blocks(text):
        out = []
        title = (re.search(r"^name: (.*)$", block, re.M) or [None, ""])[1]
        where = f"{crate}/{name}" + (f": {title}" if title else "")
        port, path, old, number, written = Port(trees, crate), "", None, 0, None
        report.lines.append(f"== {where}")
        for line in block.split("\n"):
            if line.startswith("file: "):
                path = line[len("file: ") :].strip()
                out.append(line)
                written = path
            elif line.startswith("old: "):
                old = line[len("old: ") :]
            elif line.startswith("new:"):
                new = line[len("new:") :].removeprefix(" ")
                number += 1
                file = f"crates/{crate}/{path}"
                try:
                    key = (crate, name, title, number)
                    if key in BY_HAND:
                        made, kind = by_hand(port, path, old, new, BY_HAND[key]), "by hand"
                    else:
                        made = port.apply(path, old, new)
                        kind = "same" if made == [(path, old, new)] else "spelling" if same_shape(file, trees, old, new, made) else "cut" if made else "import there"
                except Left as why:
                    made, kind = [(path, old, new)], "LEFT"
                    report.left.append(f"{where}, pair {number}: {why}")
                report.counts[kind] += 1
                if kind not in ("same", "spelling"):
                    report.marked.append(f"[{kind}] {where}, pair {number}: {old} => {new}   ->   {'; '.join(f'{x} => {y}' for _, x, y in made)}")
                report.lines += [f"   [{kind}] {path}", f"     old: {old}", f"      ->: {' | '.join(x[1] for x in made)}", f"     new: {new}", f"      ->: {' | '.join(x[2] for x in made)}"]
                for at, x, y in made:
                    if at != written:
                        out.append(f"file: {at}")
                        written = at
                    out += [f"old: {x}", f"new: {y}"]
            elif line.startswith("law: "):
                out.append(law_line(trees, crate, line, report, where))
                if out[-1] != line:
                    report.lines.append(f"   {line} -> {out[-1][5:]}")
            else:
                out.append(line)
        whole.append("\n".join(out))
    return "".join(whole)


def by_hand(port, path, old, new, pairs):
    """The pairs written by hand, put on the texts."""
    made = []
    file = port.file(path)
    rows = [i for i, line in enumerate(port.was[file]) if old in line]
    if rows:
        port.was[file][rows[0]] = port.was[file][rows[0]].replace(old, new)
    for pair in pairs:
        at, x, y = pair if len(pair) == 3 else (path, *pair)
        f = port.file(at)
        x, y = (port.trees.names.respelled(f, t) for t in (x, y))
        text = "\n".join(port.now[f])
        if text.count(x) != 1:
            raise Left(f"`{x}`, by hand, stands {text.count(x)} times")
        port.now[f] = text.replace(x, y).split("\n")
        made.append((at, x, y))
    return made


def applied(crate, text):
    """Why today's edit does not apply, or None: read as rt reads it."""
    path, old, texts = "", None, {}
    for line in text.split("\n"):
        if line.startswith("file: "):
            path = line[len("file: ") :].strip()
        elif line.startswith("old: "):
            old = line[len("old: ") :]
        elif line.startswith("new:"):
            new = line[len("new:") :].removeprefix(" ")
            if path not in texts:
                if not (crate / path).is_file():
                    return f"there is no {path}"
                texts[path] = (crate / path).read_text(encoding="utf-8")
            if texts[path].count(old) != 1:
                return f"in {path} {texts[path].count(old)} times: {old}"
            texts[path] = texts[path].replace(old, new)
    return None


def main(argv):
    parser = argparse.ArgumentParser(description=__doc__.split("\n")[0])
    parser.add_argument("landed", type=pathlib.Path)
    parser.add_argument("ported", type=pathlib.Path)
    parser.add_argument("--report", type=pathlib.Path, help="write each pair beside what became of it")
    said = parser.parse_args(argv)
    trees, report = Trees(said.landed, said.ported), Report()
    faults = count = 0
    for edit in sorted(said.landed.glob("crates/*/must-fail/*.edit")):
        crate = edit.parent.parent.name
        count += 1
        if not (said.ported / "crates" / crate).is_dir():
            report.left.append(f"{crate}/{edit.name}: no crate {crate}")
            continue
        text = ported(trees, crate, edit.name, edit.read_text(encoding="utf-8"), report)
        to = said.ported / "crates" / crate / "must-fail" / edit.name
        to.parent.mkdir(exist_ok=True)
        if not to.is_file() or to.read_text(encoding="utf-8") != text:
            to.write_text(text, encoding="utf-8")
        if why := applied(said.ported / "crates" / crate, text):
            faults += 1
            print(f"does not apply: {crate}/{edit.name}: {why}")
    for line in report.left:
        print(f"left: {line}")
    if said.report:
        said.report.write_text(report.text(), encoding="utf-8")
    print(f"{count} edits; pairs: {', '.join(f'{n} {kind}' for kind, n in report.counts.most_common())}; {faults} edits do not apply, {len(report.left)} places left")
    return 1 if faults or report.left else 0


if __name__ == "__main__":
    sys.exit(main(sys.argv[1:]))
