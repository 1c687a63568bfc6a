#!/usr/bin/env python3
"""Brings this repository's own definitions and lemmas to today's spelling: words in snake case, as check-answer to check_answer.

usage: python3 tools/snake_names.py     at the top of the repository, once, after the kit's port.py

It writes the .antt files of specs/ and proofs/, what the .rt files cite of them (clauses, ghost items and ghost use lines; no name of
Rust's has a dash), and the lines of must-fail/*.edit. Names that a file takes from the kit's libraries stay, and so do names that Rattle makes, as
invariant-loop. What falls together is printed: two names of one file that become one, and in a .rt file a cited name that is also a name
of the code.
"""
import glob
import re
import sys

DASHED = re.compile(r"(?<![-\w'])[^\W\d_][\w'₀₁₂₃]*(?:-[\w'₀₁₂₃]+)+")
MADE = re.compile(r"^(Need|After|In|At|Else|Then|Goals|Given)-|^(invariant|decreases)-loop")
# Which names are the kit's, a file's use lines tell.
USE = re.compile(r"use\s+([\w.·+]+)\.\{([^}]*)\}(;?)")


def own_path(path):
    return path.startswith('Rattle.') and not path.startswith(('Rattle.std.', 'Rattle.io.', 'Rattle.libc.', 'Rattle.core.'))


def foreign(text):
    out = set()
    for path, names, _ in USE.findall(text):
        if not own_path(path):
            for n in names.split(','):
                out.add(n.split(' as ')[0].strip())
    return out


def snake(word):
    return word.replace('-', '_')


def turn(text, keep):
    return DASHED.sub(lambda m: m[0] if m[0] in keep or MADE.match(m[0]) else snake(m[0]), text)


def split_comments(text, mark):
    """The text as pieces (is_comment, piece)."""
    out = []
    for line in text.split('\n'):
        i = comment_at(line, mark)
        out.append((line, '') if i < 0 else (line[:i], line[i:]))
    return out


def comment_at(line, mark):
    if mark == '--':
        m = re.search(r'(^|\s)--(\s|$)', line)
        return -1 if not m else m.start() + len(m[1])
    return line.find('//')


def declared(files):
    """Each dashed name that stands in the code of specs/ or proofs/, and is not the kit's: what a comment may name."""
    out = set()
    for p in files:
        text = open(p, encoding='utf-8').read()
        keep = foreign(text)
        for code, _ in split_comments(text, '--'):
            m = re.match(r"\s*(?:(?:abbrev|unfoldable|opaque|pub|record|data)\s+)*([^\W\d_][\w'₀₁₂₃]*(?:-[\w'₀₁₂₃]+)+)(?:\s|$)", code)
            if m and m[1] not in keep and not MADE.match(m[1]):
                out.add(m[1])
    return out


EDITS = [
    (r"now \((\w+) \.entry\)(?=.*now \(\1 \.exit\))", r"\1.old"),
    (r"now \((\w+) \.exit\)", r"\1.new"),
    (r"now \((\w+) \.entry\)", r"\1.now"),
    (r"now \(«(\w+)» \.exit\)", r"\1.new"),
    (r"now «(\w+)»", r"\1.now"),
    (r"now (\w+)", r"\1.now"),
    (r"⌜ (.*?) ⌝", r"\1"),
    (r"\) \.(?=[a-z])", r")."),
    (r"(?<=[\w'₀]) \.(?=[a-z0-9])", r"."),
    (r"(?<=[ (])\((\w+(?:\.\w+)+)\)", r"\1"),
    (r"\(history-of log\.takes-part\)", r"(history-of log).takes_part"),
    (r"\bgetD\b", r"get_or"),
    (r"Rattle·(\w+)·specs\.specs\.", r"Rattle.\1.specs."),
    (r"Rattle·(\w+)\.specs\.", r"Rattle.\1.specs."),
    (r"(?<=[{, ])_([+*<≤^%/-]|≡|&&|\|\||\+\+|∷|then)_(?=[, }])", r"◌\1◌"),
]


def edit_line(line):
    if not line.startswith(('old:', 'new:')):
        return line
    for old, new in EDITS:
        line = re.sub(old, new, line)
    return turn(line, set())


def main():
    antt = sorted(set(glob.glob('crates/*/specs/**/*.antt', recursive=True) + glob.glob('crates/*/proofs/**/*.antt', recursive=True)))
    names = declared(antt)
    for p in antt:
        text = open(p, encoding='utf-8').read()
        keep = foreign(text)
        lines, seen = [], {}
        for code, said in split_comments(text, '--'):
            for w in DASHED.findall(code):
                if w not in keep and not MADE.match(w):
                    seen.setdefault(snake(w), set()).add(w)
            for w in re.findall(r"[^\W\d_][\w'₀₁₂₃]*", DASHED.sub(' ', code)):
                seen.setdefault(w, set()).add(w)
            lines.append(turn(code, keep) + DASHED.sub(lambda m: snake(m[0]) if m[0] in names else m[0], said))
        for new, olds in sorted(seen.items()):
            if len(olds) > 1:
                print('%s: %s fall together' % (p, ' and '.join(sorted(olds))))
        open(p, 'w', encoding='utf-8').write('\n'.join(lines))
    for p in sorted(glob.glob('crates/*/src/*.rt')):
        text = open(p, encoding='utf-8').read()
        keep = foreign(text)
        cited = {snake(n.split(' as ')[-1].strip()) for path, ns, end in USE.findall(text) if own_path(path) for n in ns.split(',') if '-' in n}
        lines = []
        for code, said in split_comments(text, '//'):
            lines.append(turn(code, keep) + DASHED.sub(lambda m: snake(m[0]) if m[0] in names else m[0], said))
        new = '\n'.join(lines)
        code = re.sub(r'//.*|^ghost use .*$', '', new, flags=re.M)
        for n in sorted(cited):
            if re.search(r'\b(fn|let|mut|const|static|struct|enum) ' + re.escape(n) + r'\b|[(,]\s*(mut )?' + re.escape(n) + r': |^\s+(pub )?' + re.escape(n) + r': |\buse [\w:{, ]*\b' + re.escape(n) + r'\b', code, flags=re.M):
                print('%s: the cited name %s is a name of the code too' % (p, n))
        open(p, 'w', encoding='utf-8').write(new)
    for p in sorted(glob.glob('crates/*/must-fail/*.edit')):
        text = open(p, encoding='utf-8').read()
        text = '\n'.join(edit_line(l) for l in text.split('\n'))
        open(p, 'w', encoding='utf-8').write(text)


if __name__ == '__main__':
    sys.exit(main())
