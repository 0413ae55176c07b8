#!/usr/bin/env python3
"""Names of C and Rust that misled, one word for the refusal's row, on a tree that rooms.py and words.py went over."""
import re
from pathlib import Path


def files(*roots):
    for r in roots:
        p = Path(r)
        for f in ([p] if p.is_file() else sorted(p.rglob('*'))):
            if f.is_file() and 'target' not in f.parts and f.suffix in ('.rt', '.antt', '.edit', '.c', '.h', '.rs', '.md', '.py', '') and f.name != '.gitignore':
                try:
                    yield f, f.read_text(encoding='utf-8')
                except UnicodeDecodeError:
                    pass


def put(f, s, t):
    if t != s:
        f.write_text(t, encoding='utf-8')


C = [(r'\bgate_available\b', 'gate_unavailability'), (r'\bgate_market\b', 'gate_market_balance'), (r'\bgate_bilateral\b', 'gate_bilateral_balance'),
     (r'\bgate-available\b', 'gate-unavailability'), (r'\bgate-market\b(?!-maximum)(?!-balance)', 'gate-market-balance'),
     (r'\bgate-bilateral\b(?!-maximum)(?!-balance)', 'gate-bilateral-balance'), (r'\bGateAvailability\b', 'GateUnavailability'),
     (r'\bnotify_available\b', 'notify_unavailability'), (r'\bcalls-notify-available\b', 'calls-notify-unavailability')]
for f, s in files('crates', 'include', 'examples', 'tests', 'rust', 'README.md', 'docs', 'crates.txt'):
    t = s
    for a, b in C:
        t = re.sub(a, b, t)
    put(f, s, t)
for old, new in (('gate_available', 'gate_unavailability'), ('gate_market', 'gate_market_balance'), ('gate_bilateral', 'gate_bilateral_balance')):
    p = Path('crates/gate/proofs') / old
    if p.exists():
        p.rename(p.with_name(new))
if Path('crates/notify_available').exists():
    Path('crates/notify_available').rename('crates/notify_unavailability')
p = Path('crates.txt')
put(p, p.read_text(), p.read_text().replace('notify_available', 'notify_unavailability'))

# Rust: the methods of an exchange, the bindings
for f, s in files('rust'):
    if f.suffix not in ('.rs', '.md'):
        continue
    t = s
    for a, b in (('available', 'unavailability'), ('market', 'market_balance'), ('bilateral', 'bilateral_balance')):
        if 'tests/common' not in f.as_posix():
            t = re.sub(r'\bfn ' + a + r'\(', f'fn {b}(', t)
        t = re.sub(r'(\bffi::|\bself\.|\bsession\.|\bgate\.|\bg\.|\bx\.|\be\.|\bmodel\.|\bday\.|\bs\.|\)\.|Self::|Gate::|Exchange::|Model::|Session::)' + a + r'(?=\()', rf'\1{b}', t)
        t = re.sub(r'\b(exchange)\.' + a + r'(?=\()', rf'\1.{b}', t)
        t = re.sub(r'(?m)^(\s+)\.' + a + r'(?=\()', rf'\1.{b}', t)
        t = re.sub(r'`' + a + r'`', f'`{b}`', t)
    put(f, s, t)

# the refusal's row
for f, s in files('crates'):
    if 'crates/rules/' in f.as_posix() or f.suffix not in ('.rt', '.antt', '.edit'):
        continue
    t = s
    if 'message_writer' in f.as_posix():
        t = re.sub(r'\bfn refusal\(', 'fn row_of(', t)
        t = re.sub(r'= refusal\(', '= row_of(', t)
        t = t.replace('proofs.refusal.', 'proofs.row_of.').replace('refusal-spec', 'row-of-spec').replace('refusal-requires', 'row-of-requires')
        t = t.replace('.refusal .ensures', '.row-of .ensures')
    t = re.sub(r'(?<=[\w)])\.refusal\b', '.row', t) if f.suffix in ('.rt', '.edit') else t
    t = re.sub(r'(?<= )\.refusal\b(?! \.)', '.row', t)
    t = re.sub(r'\brefusal (?==[^=])', 'row ', t)
    t = re.sub(r'\bpub refusal:', 'pub row:', t)
    t = re.sub(r'(?m)^(\s+)refusal:', r'\1row:', t)
    t = re.sub(r'\{ refusal:', '{ row:', t)
    t = re.sub(r'(?m)^(\s+)row: row,$', r'\1row,', t)
    t = re.sub(r': refusal 0 and', ': row 0 and', t)
    put(f, s, t)
p = Path('crates/message_writer/proofs/refusal')
if p.exists():
    p.rename(p.with_name('row_of'))
