#!/usr/bin/env python3
"""Brings a tree of before the house (a pilot's branch, say) to the names of the house: crates by stage, some merged, words by one meaning.

    cd a clean checkout; python3 rooms.py        then: rt fmt, git add -A, look at what is left

A crate that is merged becomes a module of its new crate.
"""
import os
import re
import shutil
import subprocess
import sys
from pathlib import Path

# old crate -> new crate, or new crate and module
ROOMS = {
    'dates': ('calendar', 'dates'),
    'ranges': 'message_ranges', 'bits': 'message_bits', 'reader': 'message_reader', 'cursor': 'message_cursor',
    'fieldwise': ('message_cursor', 'fieldwise'), 'pen': 'message_pen', 'writer': 'message_writer',
    'changes': 'session_changes',
    'registry': 'register', 'notices': 'notify_available', 'capacities': 'notify_capacity',
    'loads': 'judge_loads', 'limits': 'judge_limits',
    'keys': 'lodge_keys', 'beside': ('lodge_keys', 'beside'), 'pending': 'lodge_pending', 'admission': 'lodge_judge', 'lodging': 'lodge',
    'annulling': 'annul',
    'ceilings': 'close_ceilings', 'room': ('close_order', 'room'), 'turns': 'close_order', 'holders': 'close_holders',
    'validation': 'close_judge', 'closing': 'close',
    'walks': ('hour_match', 'walks'), 'matching': 'hour_match', 'share': 'hour_share', 'deductions': ('hour_share', 'deductions'),
    'split': 'hour_split', 'borders': 'hour_borders', 'market': 'hour_market', 'cuts': 'hour_cut', 'clearhour': 'hour_clear',
    'readiness': ('hour', 'readiness'),
    'withdrawal': 'withdraw', 'overrun': 'withdraw_keep', 'choice': 'withdraw_choose', 'taking': 'withdraw_take',
    'gathering': 'clear_gather', 'results': 'clear_store', 'stages': ('clear', 'stages'), 'clearing': 'clear',
    'queries': 'query', 'verdicts': 'query_verdict', 'energies': 'query_unit', 'balances': 'query_balance', 'maxima': 'query_maximum',
    'asking': 'query_any',
    'daybook': 'book', 'log': 'book_log',
    'lent': 'gate_store',
    'questions': ('figures', 'questions'), 'wording': 'rehearse_words', 'report': 'rehearse_report', 'lines': 'rehearse_lines',
    'telling': ('rehearse_lines', 'telling'),
}
# files of a merged crate whose name the new crate has already: (old crate, folder, name) -> name
FILES = {}

NAMES = sorted(set(p.name for p in Path('crates').iterdir()))


def room(old):
    new = ROOMS.get(old, old)
    return new if isinstance(new, tuple) else (new, None)


def in_room(crate, text, ending):
    """The text of a file of an old crate, with the new names of crates."""
    mine = room(crate)[0] if crate else None

    def antt(m):
        old, own, rest = m[1], m[2], m[3]
        new, module = room(old)
        kind = m[4] if own is None else own[1:]
        inside = new == mine
        # a law or definition file starts with a capital; a function's folder and `declared` do not
        path = rest
        seg = re.match(r'\.(specs|proofs)\.(\+?[A-Za-z_0-9·]+)', path)
        if seg:
            name = FILES.get((old, seg[1], seg[2]), seg[2])
            deeper = ''
            if module and seg[1] == 'proofs' and name[0] not in 'ABCDEFGHIJKLMNOPQRSTUVWXYZ':
                deeper = module + '.'
            if module and name == 'declared':
                name, deeper = 'declared.' + module, ''
            path = f'.{seg[1]}.{deeper}{name}' + path[seg.end():]
        own = f'·{path[1:].split(".")[0]}' if inside else ''
        return f'Rattle·{new}{own}{path}'

    text = re.sub(r'Rattle·([a-z]+)(·specs|·proofs)?((?:\.\+?[A-Za-z_0-9·]+)*)()', antt, text)
    text = re.sub(r'calls-([a-z]+)·', lambda m: 'calls-' + room(m[1])[0].replace('_', '-') + '·' + (room(m[1])[1] + '·' if room(m[1])[1] else ''), text)
    if ending in ('.rt', '.edit'):
        modules = set(re.findall(r'\bmod (\w+);', text))

        def path(m):
            old = m[2]
            if old not in NAMES or old not in ROOMS and old not in NAMES or old in modules:
                return m[0]
            new, module = room(old)
            start = 'crate' if new == mine else new
            return m[1] + start + '::' + (module + '::' if module else '')
        text = re.sub(r'(^|[^\w:.])([a-z]+)::(?!\{)', path, text, flags=re.M)
        # a crate's own root, now a module of another crate
        module = room(crate)[1] if crate else None
        if module:
            text = re.sub(r'\bcrate::(?=[A-Z])', f'crate::{module}::', text) if crate in ('telling', 'questions') else text
    return text


def move():
    for old in NAMES:
        new, module = room(old)
        src = Path('crates') / old
        dst = Path('/tmp/rooms') / new
        for f in sorted(p for p in src.rglob('*') if p.is_file()):
            rel = f.relative_to(src)
            text = None
            if f.suffix in ('.rt', '.antt', '.edit'):
                text = in_room(old, f.read_text(encoding='utf-8'), f.suffix)
            parts = list(rel.parts)
            if module and parts[0] == 'src':
                if parts[1] == 'lib.rt':
                    parts[1] = module + '.rt'
                else:
                    parts.insert(1, module)
            if module and parts[0] == 'proofs' and len(parts) > 2:
                parts.insert(1, module)
            if module and parts[0] in ('specs', 'proofs') and len(parts) == 2:
                stem = Path(parts[1]).stem
                parts[1] = FILES.get((old, parts[0], stem), stem) + '.antt'
            if f.suffix == '.edit' and module and text:
                text = re.sub(r'^file: src/lib\.rt', f'file: src/{module}.rt', text, flags=re.M)
                text = re.sub(r'^file: specs/(\w+)\.antt', lambda m: f"file: specs/{FILES.get((old, 'specs', m[1]), m[1])}.antt", text, flags=re.M)
            to = dst.joinpath(*parts)
            if to.exists() and to.name == 'Lib.antt':
                lines = to.read_text(encoding='utf-8').split('\n')
                add = [l for l in (text or '').split('\n') if l.startswith(('pub mod', 'mod'))]
                for (o, folder, stem), name in FILES.items():
                    if o == old and folder == parts[0]:
                        add = [l.replace(f'pub mod {stem}', f'pub mod {name}') if l.strip() == f'pub mod {stem}' else l for l in add]
                text = '\n'.join([l for l in lines if l] + [l for l in add if l not in lines]) + '\n'
            elif to.exists():
                sys.exit(f'{to} is there already (from {f})')
            to.parent.mkdir(parents=True, exist_ok=True)
            if text is None:
                shutil.copy2(f, to)
            else:
                to.write_text(text, encoding='utf-8')
    for old, new in ROOMS.items():
        if isinstance(new, tuple):
            crate, module = new
            lib = Path('/tmp/rooms') / crate / 'src' / 'lib.rt'
            if not lib.exists():
                lib = lib.with_name('main.rt')
            lines = lib.read_text(encoding='utf-8').split('\n')
            at = next(i for i, l in enumerate(lines) if not l.startswith(('//', 'ghost use', '#')))
            # modules stand behind the ghost uses
            lines.insert(at, f'pub mod {module};')
            lib.write_text('\n'.join(lines), encoding='utf-8')
    shutil.rmtree('crates')
    shutil.move('/tmp/rooms', 'crates')


STAGES = [
    ('The paper: document 01 as definitions, and its numbers', 'rules'),
    ('What every stage uses: numbers and arrays, no word of the market; the one answer of every call and query', 'arrays answer'),
    ('Hours of the day', 'calendar'),
    ('The lodging message', 'message_ranges message message_bits message_reader message_cursor message_pen message_writer'),
    ('The session: its type and the book that it stands for; what a call changes', 'session session_changes'),
    ('Units and notices', 'register notify_available notify_capacity'),
    ('Judging: a unit\'s limits', 'judge_loads judge_limits'),
    ('Lodging and annulling', 'lodge_keys lodge_pending lodge_judge lodge annul'),
    ('Closing', 'close_ceilings close_holders close_judge close_order close'),
    ('Clearing, one hour', 'hour_match hour_share hour_split hour_borders hour_cut withdraw_keep withdraw_choose withdraw_take withdraw hour_market hour hour_clear'),
    ('Clearing, the day', 'clear_gather clear_store clear'),
    ('Queries', 'query query_verdict query_unit query_balance query_maximum query_any'),
    ('The day book and demand 3', 'book_log book'),
    ('The session lent: C and Rust', 'gate_store gate'),
    ('Programs', 'figures rehearse_words rehearse_report rehearse_lines rehearse recover'),
]


def listing(old_text):
    deps = {}
    for line in old_text.split('\n'):
        line = line.split('#')[0].strip()
        if not line:
            continue
        name, rest = line.split(':')
        new = room(name)[0]
        deps.setdefault(new, [])
        for d in rest.split():
            d = room(d)[0]
            if d != new and d not in deps[new]:
                deps[new].append(d)
    order = [n for _, ns in STAGES for n in ns.split()]
    place = {n: i for i, n in enumerate(order)}
    out = []
    for head, names in STAGES:
        out.append(f'# {head}')
        for n in names.split():
            if n not in deps:
                continue
            ds = sorted(deps.pop(n), key=lambda d: place.get(d, 999))
            out.append(f'{n}: ' + ' '.join(ds) if ds else f'{n}:')
        out.append('')
    for n in deps:
        print('no stage:', n)
        out.append(f'{n}: ' + ' '.join(deps[n]))
    return '\n'.join(out).rstrip() + '\n'


def documents():
    files = ['README.md', 'test', 'rehearse', *map(str, Path('docs').rglob('*.md')), *map(str, Path('tests').rglob('*')), *map(str, Path('rust').rglob('*')),
             *map(str, Path('include').rglob('*')), *map(str, Path('examples').rglob('*'))]
    for f in files:
        p = Path(f)
        if not p.is_file() or 'target' in p.parts:
            continue
        try:
            s = p.read_text(encoding='utf-8')
        except UnicodeDecodeError:
            continue
        t = s

        def folder(m):
            old, rest = m[1], m[2] or ''
            if old not in NAMES:
                return m[0]
            new, module = room(old)
            if module and rest.startswith('/src/lib.rt'):
                rest = f'/src/{module}.rt' + rest[len('/src/lib.rt'):]
            sp = re.match(r'/(specs|proofs)/(\w+)\.antt', rest)
            if sp:
                rest = f'/{sp[1]}/{FILES.get((old, sp[1], sp[2]), sp[2])}.antt' + rest[sp.end():]
            return f'crates/{new}{rest}'
        t = re.sub(r'crates/([a-z]+)((?:/[\w.+]+)*)', folder, t)
    
        if p.suffix in ('.md', '.h', '.rs'):
            def tick(m):
                word = m[1]
                if word in ROOMS and word in NAMES and p.name != 'RULES.md':
                    return f'`{room(word)[0]}`'
                mm = re.match(r'([a-z]+)::(.*)$', word)
                if mm and mm[1] in NAMES and mm[1] in ROOMS:
                    new, module = room(mm[1])
                    return f'`{new}::' + (module + '::' if module else '') + mm[2] + '`'
                mm = re.match(r'([a-z]+)/(.*)$', word)
                if mm and mm[1] in NAMES and mm[1] in ROOMS and p.suffix == '.md':
                    return f'`{room(mm[1])[0]}/{mm[2]}`'
                return m[0]
            t = re.sub(r'`([^`\n]+)`', tick, t)
        if t != s:
            p.write_text(t, encoding='utf-8')


if __name__ == '__main__':
    shutil.rmtree('/tmp/rooms', ignore_errors=True)
    # two files of one name in one new crate: the merged one's is named after its crate
    for old, new in ROOMS.items():
        if isinstance(new, tuple):
            into = [o for o in NAMES if room(o)[0] == new[0] and o != old]
            for folder in ('specs', 'proofs'):
                for f in Path('crates', old, folder).glob('*.antt'):
                    if f.stem != 'Lib' and any(Path('crates', o, folder, f.name).exists() for o in into):
                        FILES[(old, folder, f.stem)] = old.capitalize() + f.stem
    print('files named anew:', FILES)
    text = Path('crates.txt').read_text(encoding='utf-8')
    documents()
    move()
    Path('crates.txt').write_text(listing(text), encoding='utf-8')
