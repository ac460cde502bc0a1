#!/usr/bin/env python3
"""Brings the repository's own definitions and lemmas to the toolchain's spelling, snake case. It ran
once, at the top, right after port.py (docs/PORT.md). It reads the names that specs/ and proofs/
declare, turns each of them in .antt files, in clauses and comments of .rt files, in must-fail edits
and in documents, and prints what it turned. Types and modules keep their names, and so do the words
of strings. Where a lemma would have the name of a definition, it ends in _lem. With --list it
writes nothing."""
import pathlib
import re
import sys

ROOT = pathlib.Path('.')
# names that are spelled anew as a whole
WHOLE = {'getD': 'get_or'}
TOKEN = re.compile(r"[^\s(){}\[\],;.:`\"=|&<>*!?/·⌜⌝λ→×@«»+]+")


def declared():
    """The names that specs/ and proofs/ declare, but for those of a function's proof, each with
    whether it is a definition (else a lemma)."""
    found = {}
    for path in sorted(ROOT.glob('crates/*/specs/**/*.antt')) + sorted(ROOT.glob('crates/*/proofs/**/*.antt')):
        if path.name in ('Proof.antt', 'Lib.antt'):
            continue
        text = path.read_text()
        form = r'^ *((?:(?:pub|abbrev|unfoldable|mod|record|data) )*)([^\s(){}:=.,;]+(?: [^\s(){}:=.,;]+)*) :(?=\s)'
        for m in re.finditer(form, text, re.M):
            made = 'unfoldable' in m[1] or 'abbrev' in m[1]
            for name in m[2].split():
                found[name] = found.get(name, False) or made
    return found


def snake(name):
    """Snake case; a part that begins with a capital, the name of a type, stays as it is."""
    parts = []
    for part in name.split('-'):
        part = WHOLE.get(part, part)
        if part[:1].islower():
            part = re.sub(r'(?<=[a-z0-9])([A-Z])', lambda m: '_' + m[1].lower(), part)
        parts.append(part)
    return '_'.join(parts)


def table(found):
    """Each name that is turned, with its new spelling. Where a lemma would have the name of a
    definition, or of a lemma that had it already, it ends in _lem."""
    taken, turned = set(), {}
    rank = lambda n: (not found[n], not re.match(r'[a-z]+[A-Z]\w*$', n), snake(n) != n, n)
    names = sorted((n for n in found if '◌' not in n), key=rank)
    for name in names:
        new = snake(name) if name[1:] else name
        if new in taken:
            new += '_lem'
        if new in taken:
            sys.exit(f'{name}: {new} stands already')
        taken.add(new)
        if new != name:
            turned[name] = new
    return turned


def of_library(text):
    """The names that a file takes from the library: those stay."""
    lines = re.findall(r'^use (?!Rattle\.)\S+\.\{([^}]*)\}|^use Rattle\.std\S+\.\{([^}]*)\}', text, re.M)
    return {word for line in lines for part in line for word in re.split(r'[,\s]+', part)}


def code(text, turned):
    """A text of code with every token turned."""
    return TOKEN.sub(lambda m: turned.get(m[0], m[0]), text)


def prose(text, turned):
    """A comment or a document: camel case is turned anywhere, a hyphened name only in backticks or
    after the name of its file, since it may be words of English elsewhere."""
    camel = {o: n for o, n in turned.items() if '-' not in o}
    text = re.sub(r'`[^`\n]*`', lambda m: code(m[0], turned), text)
    text = re.sub(r'(?<=[a-z]\.)[\w\'-]+|(?<=Laws\.)[\w\'-]+', lambda m: turned.get(m[0], m[0]), text)
    form = r"(\.antt: )([\w'-]+(?:,\s[\w'-]+)*)"
    text = re.sub(form, lambda m: m[1] + re.sub(r"[\w'-]+", lambda w: turned.get(w[0], w[0]), m[2]), text)
    return TOKEN.sub(lambda m: camel.get(m[0], m[0]), text)


def turn(path, text, turned, found):
    """A file turned. Documents and edits, which port.py leaves, also have names that it turned."""
    if path.suffix in ('.md', '.edit'):
        more = {t: snake(t) for t in TOKEN.findall(text) if re.match("[a-z][A-Za-z0-9'-]*$", t)}
        turned = {**{t: n for t, n in more.items() if n in found}, **turned}
    if path.suffix == '.md':
        return prose(text, turned)
    kept = of_library(text)
    turned = {o: n for o, n in turned.items() if o not in kept}
    mark = '//' if path.suffix == '.rt' else '--'
    out = []
    for line in text.splitlines(keepends=True):
        if path.suffix == '.edit':
            out.append(code(line, turned) if re.match('(old|new): ', line) else prose(line, turned))
            continue
        at = line.find(mark) if '"' not in line else -1
        if at < 0:
            out.append(code(line, turned) if path.suffix == '.antt' or '"' not in line else line)
        else:
            out.append(code(line[:at], turned) + prose(line[at:], turned))
    return ''.join(out)


def main():
    found = declared()
    turned = table(found)
    paths = [ROOT / 'README.md', ROOT / 'CONTRIBUTING.md', ROOT / 'examples/README.md']
    for top in ('crates', 'docs'):
        paths += [p for p in sorted((ROOT / top).rglob('*')) if p.suffix in ('.antt', '.rt', '.edit', '.md')]
    count = 0
    for path in paths:
        text = path.read_text()
        new = turn(path, text, turned, found)
        if new != text and '--list' not in sys.argv:
            path.write_text(new)
        count += new != text
    for old, new in sorted(turned.items()):
        print(f'{old}\t{new}')
    print(f'{len(turned)} names in {count} files')


main()
