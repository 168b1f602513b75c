"""Texts without their comments: every character stays at its place, and a comment is blank."""
import re

# What begins a line comment, what begins a block comment, what ends it, and a text in which nothing begins a comment.
FORMS = {
    '.rt': (r'//', r'/\*', r'\*/', r'b?"(?:\\.|[^"\\\n])*"|b\'(?:\\.|[^\'\\\n])\''),
    '.antt': (r'(?<![^\s(){};,])--', r'\{-', r'-\}', r'"(?:\\.|[^"\\\n])*"'),
}


def blank(text):
    return re.sub(r'[^\n]', ' ', text)


def code_of(text, suffix):
    line, opening, closing, quoted = FORMS[suffix]
    out, at, depth = [], 0, 0
    for token in re.finditer(rf'(?P<line>{line})|(?P<opening>{opening})|(?P<closing>{closing})|(?P<quoted>{quoted})', text, re.S):
        if token.start() < at:
            continue
        gap = text[at:token.start()]
        out.append(blank(gap) if depth else gap)
        at = token.end()
        if token['line'] and not depth:
            at = text.find('\n', token.start())
            at = len(text) if at < 0 else at
        elif token['opening']:
            depth += 1
        elif token['closing'] and depth:
            depth -= 1
        elif not depth:
            out.append(token[0])
            continue
        out.append(blank(text[token.start():at]))
    out.append(blank(text[at:]) if depth else text[at:])
    return ''.join(out)


def read_code(file):
    return code_of(file.read_text(), file.suffix)


def same_code(before, after, suffix):
    """Whether two texts differ in no more than comments, blanks and what may be named or unfolded."""
    plain = [re.sub(r'\b(?:pub|abbrev|unfoldable)\b|\s', '', code_of(text, suffix)) for text in (before, after)]
    return plain[0] == plain[1]
