#!/usr/bin/env python3
"""One meaning a name, after numbers.py: a Ruling (was session's Judged), HourFigures (was session's Cleared), a Clearance (was hour_clear's Cleared),
BookDemand3 (was the rules' Demand3), stored (was kept, of what a call stores), and smaller ones."""
import re
from pathlib import Path

TOKEN = re.compile(r'[A-Za-z][A-Za-z0-9_-]*')


def swap(text, old, new):
    return re.sub(r'(?<![\w·-])' + re.escape(old) + r'(?![\w-])', new, text)


def main():
    for f in sorted(Path('crates').rglob('*')):
        if not f.is_file() or f.suffix not in ('.rt', '.antt', '.edit'):
            continue
        path = f.as_posix()
        crate = f.parts[1]
        s = t = f.read_text(encoding='utf-8')
        # session's Judged
        if f.suffix in ('.rt', '.edit') and crate != 'rules':
            t = swap(t, 'Judged', 'Ruling')
        elif 'declared.Judged' in t:
            t = swap(t, 'Judged', 'Ruling')
        # session's Cleared, hour_clear's Cleared
        if crate == 'hour_clear' or (crate == 'figures' and f.suffix == '.rt'):
            t = swap(t, 'Cleared', 'Clearance')
        elif crate not in ('rules', 'book') and (f.suffix in ('.rt', '.edit') or 'declared.Cleared' in t or '.proofs.Cleared' in t):
            t = t.replace('Rattle·hour_clear.specs.declared.Cleared.{Cleared}', 'Rattle·hour_clear.specs.declared.Clearance.{Clearance}')
            t = swap(t, 'hour_clear::Cleared', 'hour_clear::Clearance')
            t = swap(t, 'Cleared', 'HourFigures')
        if re.search(r'rules/proofs/(HourLaws|SoundLaws)', path):
            t = swap(t, 'Cleared', 'HourCleared')
        # the rules' Demand3
        if crate == 'rules' and re.search(r'specs/Demands|proofs/DemandLaws', path):
            t = swap(t, 'Demand3', 'BookDemand3')
        # told
        if crate == 'message_reader':
            t = swap(t, 'Told', 'HeadRead')
        if path.endswith('message/proofs/RoundTrips.antt'):
            t = swap(t, 'Told', 'Refusable')
        # kept
        if crate in ('register', 'notify_unavailability', 'notify_capacity', 'clear_store'):
            lines = []
            for l in t.split('\n'):
                comment = l.lstrip().startswith(('--', '//'))
                lines.append(l if comment else re.sub(r'[A-Za-z][A-Za-z0-9_-]*', lambda m: m[0] if m[0] == 'kept-sum' else re.sub(r'(?<![a-z])kept', 'stored', m[0]), l))
            t = '\n'.join(lines)
        if path == 'crates/clear/src/lib.rt' or path.startswith('crates/clear/must-fail'):
            t = t.replace('clear_store::kept', 'clear_store::stored')
        if path == 'crates/clear/proofs/clear_hour/Proof.antt':
            t = t.replace('kept-requires', 'stored-requires').replace('.kept .', '.stored .')
        if crate in ('close_order', 'close_judge', 'lodge_judge', 'book', 'gate') and 'notify_' in t:
            t = re.sub(r'\bkept_notice\b', 'stored_notice', t)
        if t != s:
            f.write_text(t, encoding='utf-8')
    for crate in ('register', 'notify_unavailability', 'notify_capacity', 'clear_store'):
        for p in sorted(Path('crates', crate, 'proofs').glob('kept*')):
            p.rename(p.with_name(p.name.replace('kept', 'stored')))
    for f in [*Path('rust').rglob('*.rs'), *Path('include').glob('*'), *Path('tests/c').glob('*')]:
        if 'target' in f.parts or not f.is_file():
            continue
        s = f.read_text(encoding='utf-8')
        t = swap(s, 'GateCleared', 'GateHourFigures')
        if f.suffix == '.rs' and f.name in ('ffi.rs', 'layout.rs', 'hostile.rs', 'histories.rs'):
            t = swap(t, 'Cleared', 'HourFigures')
        if t != s:
            f.write_text(t, encoding='utf-8')
    for f in [Path('README.md'), *Path('docs').rglob('*.md')]:
        s = f.read_text(encoding='utf-8')
        t = s.replace('`Demand3` of `crates/rules', '`BookDemand3` of `crates/rules')
        if t != s:
            f.write_text(t, encoding='utf-8')


main()
