#!/usr/bin/env python3
"""The public clauses of the repository, and the wrong bodies that are aimed at them, read from the sources.

usage: tools/contracts.py [CRATE..]        of these crates; of all where none is named
       tools/contracts.py --without        the clauses that none is aimed at, by why, as docs/wrong-bodies.md has them

It prints a line for each clause of a public function: how many wrong bodies of crates/*/must-fail are aimed at it, the
function, the clause. A clause without a name of its own is called `ensures`. A wrong body says in its first line what it is
aimed at, as `# aimed at: crate::function, clause`; the function may have its module and its type before it, as in
`crate::module::Type::function` and, of a trait's method, `crate::module::TypeTrait::function`, as the prover writes it.

A function is public where its crate's root file hands it out: by a `pub use`, or as a method of a type or a trait that is
handed out so; of a program, where it is `pub`. So is a type's method of a trait that some crate hands out. One that has no clauses of
its own has the trait's.
"""
from __future__ import annotations

import collections
import glob
import os
import re
import sys
from typing import Callable, Iterator, NamedTuple, Optional

from lib.crates import dependencies
from lib.frame import Words, framed

ROOT = os.path.dirname(os.path.dirname(os.path.abspath(__file__)))
CRATES = os.path.join(ROOT, 'crates')
HEAD = re.compile(r'^# aimed at: (\w+)((?:::\w+)+), (\w+)$')
ITEM = re.compile(r'^(?P<indent> *)(?:(?P<public>pub) )?(?:const )?(?:unsafe )?(?:'
                  r'impl(?:<[^{;]*?>)? (?:(?P<trait>\w+)(?:<[^{;]*?>)? for )?(?:\w+::)*(?P<type>\w+)'
                  r'|trait (?P<declared>\w+)|fn (?P<function>\w+))', re.M)
CLAUSE = re.compile(r'^ *ensures\*? *(\w*) *\{', re.M)

# A crate, the way to a function in it, and a clause.
Aim = tuple[str, list[str], str]


class Function(NamedTuple):
    """A public function: where it stands, its clauses, whether a trait declares it, and its body."""

    crate: str
    module: list[str]
    owner: Optional[str]
    trait: Optional[str]
    name: str
    clauses: list[str]
    is_declared: bool
    body: str



# Why no wrong body is aimed at a clause: the first of these that holds of its function and its name.
WHYS: list[tuple[str, Callable[[Function, str], object]]] = [
    ('of a comparison program or of the tests', lambda f, clause: re.match('plain_|test_|bench_', f.crate)),
    ('a law: its body is empty or only calls others, so that no other body means anything', lambda f, clause: f.name.endswith('_law')),
    ('of a trait: its bodies are those of the types that have it', lambda f, clause: f.is_declared),
    ('of the streams in memory, which only the tests use', lambda f, clause: re.match('Mem|Repeat|Sure', f.owner or '')),
    ('of `run`: its caller is `main`, which has no contract, so nothing above would notice; wrong bodies for the other clauses of `run` stand for it',
     lambda f, clause: (f.crate, f.name) == ('topo_run', 'run')),
    ('a copy is equal: `error_store/a_copy_loses_its_mark` stands for all', lambda f, clause: f.name in ('try_copy', 'to_data')),
    ('after a refusal nothing has changed: `topo_core/a_refused_change_dirties` stands for all',
     lambda f, clause: clause in ('err', 'kept', 'same', 'uncounted', 'no_memory', 'errors_kept', 'dirt_kept')),
    ('a bound or a shape of the value that another clause of the function says in full',
     lambda f, clause: clause in ('bound', 'valid', 'reach', 'in_reach', 'few', 'points', 'loose', 'named', 'whole', 'ends', 'from_1',
                                  'room', 'keeps')),
    ('what every state keeps: a body that breaks it breaks what the call says of the new state too',
     lambda f, clause: clause in ('ordered', 'ascending', 'own', 'fits', 'sound', 'settled', 'rising', 'on_grid')),
    ('its body is one line, which hands out or makes a value: whoever calls it could not be proved with another',
     lambda f, clause: f.body.count('\n') <= 2 or not re.search(r'\b(if|match|for|while|let)\b|\?', f.body)),
    ('another clause of the function has one', lambda f, clause: False),
    ('not yet: a caller above could not be proved with another value', lambda f, clause: True),
]


def text_of(path: str) -> str:
    with open(path, encoding='utf-8') as file:
        return file.read()


def handed_out(crate: str) -> set[str]:
    """The names that a crate's root file hands out; of a program, which has no callers, all that are `pub`."""
    folder = os.path.join(CRATES, crate, 'src')
    root, names = os.path.join(folder, 'lib.rt'), set()
    paths = [root] if os.path.exists(root) else glob.glob(os.path.join(folder, '*.rt'))
    for text in map(text_of, paths):
        for used in re.findall(r'^pub use ([^;]*);', text, re.M):
            names |= set(re.findall(r'\w+', used))
        names |= set(re.findall(r'^pub (?:fn|struct|enum|trait) (\w+)', text, re.M))
    return names


def head_of(text: str, start: int) -> str:
    """What stands before the body of the function that begins here: its name, parameters and clauses."""
    depth = 0
    for i in range(start, len(text)):
        if text[i] == '{':
            depth += 1
        elif text[i] == '}':
            depth -= 1
        at_body = text[i] == '{' and depth == 1 and re.search(r'\n *$', text[:i]) and not text[:i].endswith('ensures ')
        if depth == 0 and text[i] == ';' or at_body:
            return text[start:i]
    return text[start:]


def body_of(text: str, start: int) -> str:
    """The body that begins here, with its braces; nothing where there is none."""
    depth = 0
    for i in range(start, len(text)):
        depth += {'{': 1, '}': -1}.get(text[i], 0)
        if depth == 0:
            return text[start:i + 1]
    return ''


def handed_out_traits() -> set[str]:
    """The traits that some crate hands out."""
    traits = set()
    for crate in dependencies():
        texts = map(text_of, glob.glob(os.path.join(CRATES, crate, 'src', '**', '*.rt'), recursive=True))
        traits |= handed_out(crate) & {name for text in texts for name in re.findall(r'^pub trait (\w+)', text, re.M)}
    return traits


def functions_of(crate: str, traits: set[str]) -> Iterator[Function]:
    """The public functions of a crate with the clauses that each has written on it."""
    names = handed_out(crate)
    for path in sorted(glob.glob(os.path.join(CRATES, crate, 'src', '**', '*.rt'), recursive=True)):
        text, owner, trait, is_trait = text_of(path), None, None, False
        for item in ITEM.finditer(text):
            if not item['function']:
                owner, trait = item['type'] or item['declared'], item['trait']
                is_trait = item['declared'] is not None
                continue
            inner = item['indent'] != ''
            if inner and trait not in traits and owner not in names or not inner and item['function'] not in names:
                continue
            if not item['public'] and not (inner and (is_trait or trait)):
                continue
            head = head_of(text, item.start())
            clauses = [name or 'ensures' for name in CLAUSE.findall(head)]
            body = body_of(text, item.start() + len(head))
            module = os.path.splitext(os.path.relpath(path, os.path.join(CRATES, crate, 'src')))[0].split(os.sep)
            of = (owner, trait) if inner else (None, None)
            yield Function(crate, module, *of, item['function'], clauses, inner and is_trait, body)


def all_functions() -> list[Function]:
    """The public functions of all crates with their clauses, those of the trait where a method has none."""
    traits = handed_out_traits()
    found = [function for crate in dependencies() for function in functions_of(crate, traits)]
    of_traits = {(f.owner, f.name): f.clauses for f in found if f.is_declared}
    return [f._replace(clauses=f.clauses or of_traits.get((f.trait, f.name), [])) for f in found]


def edits() -> Iterator[tuple[str, Optional[Aim]]]:
    """Each wrong body, by its path from the root, with what it is aimed at, or None."""
    for path in sorted(glob.glob(os.path.join(CRATES, '*', 'must-fail', '*.edit'))):
        first = text_of(path).split('\n')[0]
        aim = HEAD.match(first)
        yield os.path.relpath(path, ROOT), (aim[1], aim[2].split('::')[1:], aim[3]) if aim else None


def is_aimed(aim: Aim, function: Function) -> bool:
    """Whether what an edit names is this function."""
    crate, path, _ = aim
    rest = path[:-1]
    if rest[:len(function.module)] == function.module:
        rest = rest[len(function.module):]
    of = [[], [function.owner], [(function.owner or '') + (function.trait or '')]]
    return crate == function.crate and path[-1] == function.name and rest in of


def shown(function: Function) -> str:
    return '::'.join(word for word in (function.crate, function.owner, function.name) if word)


def wrong_aims() -> Iterator[str]:
    """A line for each wrong body that is aimed at no clause of a public function."""
    functions = all_functions()
    for path, aim in edits():
        if aim is None:
            yield '%s: its first line is not `# aimed at: crate::function, clause`' % path
        elif not any(is_aimed(aim, f) and aim[2] in f.clauses for f in functions):
            yield '%s: no public function %s::%s has a clause %s' % (path, aim[0], '::'.join(aim[1]), aim[2])


def wrong_texts() -> Iterator[str]:
    """A line for each wrong body that cannot be put in: its old text does not stand there once."""
    for path, _ in edits():
        crate, source, text, old = os.path.join(ROOT, os.path.dirname(os.path.dirname(path))), None, '', None
        for line in text_of(os.path.join(ROOT, path)).split('\n'):
            word, _, rest = line.partition(': ')
            if word == 'file':
                source = os.path.join(crate, rest)
                text = text_of(source) if os.path.exists(source) else ''
            elif word == 'old':
                old = rest
            elif word == 'new':
                if text.count(old) != 1:
                    yield '%s: %r stands %d times in its file' % (path, old, text.count(old))
                text = text.replace(old, rest)


def counts() -> Iterator[tuple[Function, str, int]]:
    """Each public clause with the number of wrong bodies that are aimed at it."""
    aims = [aim for _, aim in edits() if aim]
    for function in all_functions():
        for clause in dict.fromkeys(function.clauses):
            yield function, clause, sum(is_aimed(aim, function) and aim[2] == clause for aim in aims)


def without() -> dict[str, dict[str, list[str]]]:
    """The clauses that no wrong body is aimed at, by why."""
    aimed = {(function.crate, function.owner, function.name) for function, _, count in counts() if count}
    rows: dict[str, dict[str, list[str]]] = {why: collections.defaultdict(list) for why, _ in WHYS}
    for function, clause, count in counts():
        if not count:
            why = next(why for why, holds in WHYS if holds(function, clause))
            if why.startswith('not yet') and (function.crate, function.owner, function.name) in aimed:
                why = WHYS[-2][0]
            rows[why][shown(function)].append(clause)
    return rows


def print_without() -> None:
    """For each reason a heading with the number of its clauses, and a table with a line for each crate."""
    print('<!-- tools/contracts.py --without -->')
    for why, functions in without().items():
        if functions:
            print('\n### %s%s: %d\n\n| Crate | Functions, with their clauses |\n|---|---|' % (
                why[0].upper(), why[1:], sum(map(len, functions.values()))))
            print('\n'.join(lines_by_crate(functions)))


def lines_by_crate(functions: dict[str, list[str]]) -> list[str]:
    """A line of a table for each crate: its functions with these clauses."""
    crates = collections.defaultdict(list)
    for name, clauses in functions.items():
        crate, _, rest = name.partition('::')
        crates[crate].append('%s (%s)' % (rest, ', '.join(clauses)))
    return ['| %s | %s |' % (crate, '; '.join(texts)) for crate, texts in crates.items()]


def main() -> int:
    parser = Words('contracts.py', __doc__)
    parser.add_argument('--without', action='store_true')
    parser.add_argument('crates', nargs='*')
    given = parser.parse_args()
    if given.without:
        print_without()
        return 0
    for function, clause, count in counts():
        if not given.crates or function.crate in given.crates:
            print('%3d %s, %s' % (count, shown(function), clause))
    return 0


if __name__ == '__main__':
    sys.exit(framed('contracts.py', main))
