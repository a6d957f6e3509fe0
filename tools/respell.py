#!/usr/bin/env python3
"""Spells the repository's own definitions and lemmas as today's Rattle does; run once, at the top, after port.py.

usage: respell.py [--list]

A name in camel case becomes snake case (addInRange: add_in_range). A dash stays where it joins two names
(length-pasted) and becomes an underscore before or after a plain word (room-first: room_first). Types keep their
capitals, and functions of src/, exported names, strings and files keep their names. A lemma that would get the name
of a definition ends in _lem. --list prints each old name with its new one, and names that fall together.
"""
import glob
import re
import sys

TOKEN = r'[^\s(){}.;,@"«»\[\]\\]+'
DECLARED = re.compile(
    r'^[ ]*(?:(?:pub|abbrev|unfoldable|opaque|postulate|record|data)[ ]+)*(?P<name>' + TOKEN + r')(?:[ ]+[({][^:=\n]*)?[ ]:(?:[ ]|$)', re.M)
# A name that Rattle makes for a goal, in a function's own folder.
MADE = re.compile(r'^(?:invariant|decreases|returns|overflow|bounds|slice|same-length)(?:-|$)|-(?:requires|spec|again|holds|less|preserved|init|smaller|conditions?)(?:-|$)')
# A definition, to which a lemma of the same spelling gives way.
DEFINITION = re.compile(r'^[ ]*(?:pub[ ]+)?(?:abbrev|unfoldable|record|data)[ ]+(?:pub[ ]+)?(?P<name>' + TOKEN + ')', re.M)
USE = re.compile(r'^(?:ghost |pub )*use ([^\s;{]+?)\.?(?:\{([^}]*)\})?(?: as (\S+?))?;?$', re.M)


def files(kind):
    return sorted(glob.glob(f'crates/*/{kind}/**/*.antt', recursive=True))


def read(path):
    with open(path, encoding='utf-8') as f:
        return f.read()


def code_parts(text, mark):
    """The text cut into (is code, piece): comments from `mark` to the end of a line, and string literals, are none."""
    out, at = [], 0
    for m in re.finditer(r'"(?:[^"\\\n]|\\.)*"|(?<![^\s(){}.;,])' + re.escape(mark) + r'[^\n]*', text):
        out += [(True, text[at:m.start()]), (False, m.group())]
        at = m.end()
    return out + [(True, text[at:])]


def bare(text):
    return ''.join(p for is_code, p in code_parts(text, '--') if is_code)


def crate_names():
    return {p.split('/')[1] for p in glob.glob('crates/*/src')}


def outside(text, own):
    """The names that a file imports from other libraries."""
    names = set()
    for m in USE.finditer(text):
        steps = m.group(1).split('.')
        if steps[0] == 'Rattle' and len(steps) > 1 and steps[1] in own:
            continue
        for item in (m.group(2) or steps[-1]).split(','):
            names |= set(item.replace(' as ', ' ').split())
    return names


def snake(part):
    return re.sub(r"(?<=[a-z0-9'])([A-Z])(?![A-Z])", lambda m: '_' + m.group(1).lower(), part) if part[:1].islower() else part


def table():
    own = crate_names()
    in_specs, in_proofs, library, definitions = set(), set(), set(), set()
    for p in files('specs') + files('proofs'):
        text = bare(read(p))
        library |= {n for n in outside(text, own) if '-' not in n}
        names = {m.group('name') for m in DECLARED.finditer(text)}
        if re.search(r'/proofs/.+/[^/]+\.antt$', p):
            names = {n for n in names if not MADE.search(n)}
        (in_specs if '/specs/' in p else in_proofs).update(names)
        definitions |= {m.group('name') for m in DEFINITION.finditer(text)}
    known = {snake(n) for n in definitions if '-' not in n} | library

    def spelled(name):
        parts = [snake(p) for p in name.split('-')]
        if '' in parts:
            return snake(name)
        new = parts[0]
        for part in parts[1:]:
            last = re.split('-', new)[-1]
            new += ('-' if part in known and (last in known or new in known) else '_') + part
        return new

    new = {}
    for n in sorted(in_specs) + sorted(in_proofs):
        if n not in new and (('-' in n and not n.startswith('-')) or (n[:1].islower() and snake(n) != n)):
            new[n] = spelled(n)
    # names that fall together: the definition keeps the name, or the one that had it
    taken, together = {}, []
    for n in sorted(in_specs | in_proofs, key=lambda n: (n not in definitions, n not in in_specs, n in new, n)):
        to = new.get(n, n)
        if to in taken and taken[to] != n:
            together.append((taken[to], n, to))
            to = to + '_lem'
            while to in taken:
                to += "'"
            new[n] = to
        taken[to] = n
    return own, new, together


def turn_words(text, change):
    return re.sub(TOKEN, lambda m: change(m.group(), text[m.start() - 1] if m.start() else ' ', text[:m.start()]), text)


def main():
    own, new, together = table()
    if '--list' in sys.argv:
        for n in sorted(new):
            print(n, new[n])
        for a, b, to in together:
            print(f'together: {a} and {b} at {to}')
        return
    camel = {n: to for n, to in new.items() if '-' not in n}

    def in_comment(piece):
        piece = re.sub(r'(?<![\w\'-])[a-z]\w*[A-Z]\w*(?![\w-])', lambda m: camel.get(m.group(), m.group()), piece)
        return re.sub(r'`([^`\n]+)`', lambda m: '`' + turn_words(m.group(1), lambda w, before, _: new.get(w, w)) + '`', piece)

    for p in files('specs') + files('proofs'):
        text = read(p)
        others = outside(bare(text), own)
        by_function = re.search(r'/proofs/.+/[^/]+\.antt$', p) is not None

        def change(word, before, head):
            if word in others or word not in new:
                if '-' not in word and word not in others and word[:1].islower() and snake(word) != word and before != '.':
                    return snake(word)
                return word
            if before == '.' and by_function and word not in camel and re.search(r'(?:tie|goal|before|c)\.$', head[-12:]):
                return word
            return new[word]

        turned = ''.join(turn_words(piece, change) if is_code else in_comment(piece) for is_code, piece in code_parts(text, '--'))
        if turned != text:
            with open(p, 'w', encoding='utf-8') as f:
                f.write(turned)
    for p in sorted(glob.glob('crates/*/src/**/*.rt', recursive=True)):
        text = read(p)

        def in_clause(m):
            return turn_words(m.group(), lambda word, before, _: new.get(word, word))

        turned = ''
        for is_code, piece in code_parts(text, '//'):
            if is_code:
                piece = re.sub(r'ghost use [^;]*;', in_clause, piece)
                piece = re.sub(r'\b(?:requires|ensures|ghost)\b\*?[ \w]*\{(?:[^{}]|\{(?:[^{}]|\{[^{}]*\})*\})*\}', in_clause, piece)
            else:
                piece = in_comment(piece)
            turned += piece
        if turned != text:
            with open(p, 'w', encoding='utf-8') as f:
                f.write(turned)


main()
