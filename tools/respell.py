#!/usr/bin/env python3
"""Gives the repository's own words the spelling of today's Rattle.

    python3 tools/respell.py [ROOT] [--table | --check]

Functions, definitions, lemmas, fields, constructors and bound names become
snake_case, part by part in a name that a dash joins: `ticksIn-few` becomes
`ticks_in-few`. Parts that begin with a capital stay, a prime becomes an
apostrophe. --table prints the names, old and new, and changes nothing.
--check prints new names that would fall together with another name of the
same scope, and changes nothing.
"""
import glob
import re
import sys

# Lemmas that have the name a definition gets: `endLine` becomes `end_line`, and the lemma `end_line` becomes
# `end_line_lem`. By crate; a crate where the definition's old name is gone was turned before.
LEMMAS = {
    'import': {'end_line': 'endLine', 'digit_value': 'digitValue'},
    'observation': {'seen_all': 'seenAll'},
    'text': {'end_line': 'endLine'},
    'texts': {'words_left': 'wordsLeft', 'read_answer': 'readAnswer'},
}

RESERVED = set('''record ruleset data open where do let in if then else module use pub mod abbrev
unfoldable search grind simp omega rw syntax result ground assumption'''.split())

NAME = r'[^\s(){}\[\],.;"`⟨⟩⌜⌝]+'
CHAIN = rf'{NAME}(?:\.{NAME})*'
# A backslash may end a line within a string of Rust.
STRING = r'"(?:\\[\s\S]|[^"\\])*"'
ANTT = re.compile(rf'(?P<string>{STRING})|(?P<comment>(?<!\S)--[^\n]*)|(?P<chain>\.?{CHAIN})')
CLAUSE = re.compile(rf'(?P<string>{STRING})|(?P<comment>//[^\n]*)|(?P<chain>\.?{CHAIN})')
USE = re.compile(r'(?<!\S)use\s+([^\s{};]+)\.\{([^}]*)\}')
# What begins a clause or a ghost item of a .rt file, up to its brace.
OPENING = re.compile(r'\b(?:(?:requires|ensures)\b[ \t]*\w*\s*\{|ghost\b(?! use)[^{};"]*\{)')
GHOST_USE = re.compile(r'\bghost use [^;]*;')


def snake(part):
    """`sinM` is `sin_m`; a part that begins with a capital stays."""
    if not re.match(r'[a-z]', part):
        return part
    part = re.sub(r'([a-z0-9])([A-Z])', r'\1_\2', part)
    return re.sub(r'([A-Z])([A-Z][a-z])', r'\1_\2', part).lower()


def respelled(name):
    name = name.replace('′', "'")
    return re.sub(r"[A-Za-z0-9_']+", lambda m: snake(m[0]), name)


class Words:
    """Which names change: those that no other library gives."""

    def __init__(self, root):
        self.root = root
        self.antt = self.files('crates/*/specs/**/*.antt') + self.files('crates/*/proofs/**/*.antt')
        self.rust = self.files('crates/**/*.rt')
        self.edits = self.files('crates/*/must-fail/*.edit')
        self.crates = sorted(path.split('/')[-1] for path in glob.glob(f'{root}/crates/*'))
        self.foreign = set()
        for path in self.antt + self.rust:
            for module, names in USE.findall(read(path)):
                steps = module.split('.')
                if steps[0] != 'Rattle' or steps[1] not in self.crates:
                    self.foreign.update(re.findall(NAME, re.sub(r'\bas\s+' + NAME, '', names)))
        self.table = {}
        self.lemmas = {}

    def files(self, pattern):
        found = glob.glob(f'{self.root}/{pattern}', recursive=True)
        return sorted(path for path in found if '/out/' not in path[len(self.root):])

    def lemmas_of(self, crate):
        """The lemmas that give their name to a definition, in a crate that has the definition's old name."""
        here = set()
        for path in self.antt:
            if path.startswith(f'{self.root}/crates/{crate}/'):
                here |= names_in(read(path))
        return {name: name + '_lem' for name, old in LEMMAS.get(crate, {}).items() if old in here}

    def name(self, old):
        if old in self.foreign:
            return old
        new = respelled(old)
        if new != old:
            self.table[old] = new
        return new

    def chain(self, text):
        """Names with dots between. What follows `tie.` is Rattle's, and no lemma stands after a dot."""
        first, *rest = text.split('.')
        if first == 'tie':
            return text
        return '.'.join([self.lemmas.get(first) or self.name(first)] + [self.name(step) for step in rest])

    def code(self, text, form):
        def turn(m):
            if m['chain']:
                return self.chain(m['chain'])
            if m['comment']:
                return re.sub(r'`[^`\n]*`', lambda s: '`' + self.code(s[0][1:-1], form) + '`', m[0])
            return m[0]
        return form.sub(turn, text)

    def file_antt(self, text):
        return self.code(text, ANTT)

    def file_rust(self, text):
        out, at = [], 0
        for begin, end in clauses(text):
            out += [text[at:begin], self.code(text[begin:end], CLAUSE)]
            at = end
        return ''.join(out) + text[at:]

    def file_edit(self, text):
        lines, turn = [], self.file_rust
        for line in text.split('\n'):
            if line.startswith('file:'):
                antt = re.match(r'file:\s*(specs|proofs)/', line)
                turn = self.file_antt if antt else self.file_rust
            if line.startswith(('old:', 'new:')):
                line = line[:4] + turn(line[4:])
            lines.append(line)
        return '\n'.join(lines)

    def all(self):
        """Each file with its text, as it is and as it should be."""
        lemmas = {crate: self.lemmas_of(crate) for crate in self.crates}
        for paths, turn in ((self.antt, self.file_antt), (self.rust, self.file_rust), (self.edits, self.file_edit)):
            for path in paths:
                text = read(path)
                crate = path[len(self.root) + 1:].split('/')[1]
                self.lemmas = lemmas[crate] if path.endswith('.antt') else {}
                yield path, text, turn(text)


def read(path):
    with open(path, encoding='utf-8', newline='') as file:
        return file.read()


def clauses(text):
    """Where clauses, ghost items and ghost imports stand in a .rt file."""
    # Braces in comments and strings count for nothing.
    plain = re.sub(rf'//[^\n]*|{STRING}', lambda m: ' ' * len(m[0]), text)
    places = [m.span() for m in GHOST_USE.finditer(plain)]
    for m in OPENING.finditer(plain):
        depth, at = 1, m.end()
        while depth and at < len(plain):
            depth += {'{': 1, '}': -1}.get(plain[at], 0)
            at += 1
        places.append((m.end(), at))
    return sorted(places)


def names_in(code):
    """The names of some code, without strings, comments, and paths of modules."""
    code = re.sub(rf'{STRING}|(?<!\S)(--|//)[^\n]*', ' ', code)
    code = re.sub(r'\buse\s+[^\s{};]+(\s+as\b)?', ' ', code)
    return set(re.findall(NAME, code))


def scopes(path, text):
    """The code that can see one another's names: a file, or a function's parameters and clauses."""
    if path.endswith('.antt'):
        yield names_in(text)
    else:
        for piece in re.split(r'\bfn (?=\w)', text):
            parameters = re.match(r'\w+[^(]*\(([^)]*)\)', piece)
            cited = [names_in(piece[begin:end]) for begin, end in clauses(piece)]
            yield set().union(re.findall(r'(\w+)\s*:', parameters[1] if parameters else ''), *cited)


def check(words):
    """Prints the new names that another name of the same scope has or gets, or that are taken words."""
    for old, new in sorted(words.table.items()):
        if new in RESERVED or new in words.foreign:
            print(old, new, 'is a word of antt or of a library')
    for path, text, _ in words.all():
        if path.endswith('.edit'):
            continue
        for here in scopes(path, text):
            here, given = {words.lemmas.get(name, name) for name in here}, {}
            for old in sorted(here & set(words.table)):
                new = words.table[old]
                if new in here or new in given:
                    print(old, new, given.get(new, ''), path)
                given[new] = old


def main():
    options = [word for word in sys.argv[1:] if word.startswith('--')]
    words = Words(next((word for word in sys.argv[1:] if not word.startswith('--')), '.').rstrip('/'))
    turned = list(words.all())
    if '--table' in options:
        for old in sorted(words.table):
            print(old, words.table[old])
    elif '--check' in options:
        check(words)
    else:
        for path, text, new in turned:
            if new != text:
                with open(path, 'w', encoding='utf-8', newline='') as file:
                    file.write(new)
        print(f'respell: {len(words.table)} names, {sum(new != text for _, text, new in turned)} files')


main()
