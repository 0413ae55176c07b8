#!/usr/bin/env python3
"""One meaning a word, on a tree with the rooms' names: a call's *effect* (was turn), closing's *classes* (were turns), a loop's laps, an array's *index* (was place).
Freed so: *turn* (document 02, K3: a turn of the match) and *place* (K11: one of the 128; Match: one tenth of MWh; K1: a row's place in the table)."""
import re
from pathlib import Path

# ------------------------------------------------------------------ turn
EFFECT = {f'{p}Turn': f'{p}Effect' for p in ('', 'Standing', 'Registry', 'Capacity', 'Closing', 'Clearing', 'standing', 'registry', 'capacity', 'closing', 'clearing', 'closed')}
EFFECT |= {f'turn-{w}': f'effect-{w}' for w in ('sound', 'closed', 'closes', 'clears', 'directions', 'stays')}
CLASS = {'closingTurns': 'closingClasses', 'inTurns': 'byClass', 'turnBy': 'classBy', 'turnOf': 'classOf', 'turnAt': 'classAt', 'turnIn': 'classIn', 'turn_of': 'class_of',
         'turn-of': 'class-of', 'turn-of-spec': 'class-of-spec', 'turn-of-requires': 'class-of-requires', 'Need-turn-of-requires': 'Need-class-of-requires',
         'turn-is': 'class-is', 'all-turns': 'all-classes', 'all-unturned': 'all-unclassed', 'sum-turns': 'sum-classes', 'turns-before': 'classes-before',
         'turns-pairwise': 'classes-pairwise', 'turn-first': 'class-first', 'turn-later': 'class-later', 'turn-other': 'class-other', 'turn-at': 'class-at',
         'turn-here': 'class-here', 'turn-last': 'class-last', 'last-turn': 'last-class', 'of-turn': 'of-class', 'taken-turn': 'taken-class', 'turn-ends': 'class-ends'}
CLASS_FILES = re.compile(r'crates/(close_order|close_judge)/|crates/rules/(specs/(Judging|Closing|Demands)|proofs/(ClosingLaws|OrderLaws))|crates/close/proofs/|crates/close/must-fail')
EFFECT_FILES = re.compile(r'crates/rules/(specs/(DayBook|Table)|proofs/(TableLaws|BookLaws))|crates/(session|session_changes|book|register|notify_\w+|lodge\w*|annul|clear|gate)/|crates/close/(src|specs)/')
LAP_FILES = re.compile(r'crates/gate_store/proofs/(Moved|Searched)')
ROUND_FILES = re.compile(r'crates/withdraw/')

TOKEN = re.compile(r'[A-Za-z][A-Za-z0-9_·-]*')


def classes(w):
    return {'turn': 'class', 'turns': 'classes', 'Turns': 'Classes', 'TurnLaws': 'ClassLaws'}.get(w, w)


def effects(w):
    return {'turn': 'effect', 'turned': 'effectOf', 'turns': 'effects'}.get(w, w)


def laps(w):
    return {'turn': 'lap', 'turns': 'laps', 'Turned': 'Lapped'}.get(w, w)


def rounds(w):
    return {'turn': 'round', 'turns': 'rounds', 'Turns': 'Rounds', 'TurnLaws': 'RoundLaws', 'Turning': 'Repeating', 'turn-ended': 'round-ended', 'turn-made': 'round-made'}.get(w, w)


def turn(path, w):
    if w in EFFECT:
        return EFFECT[w]
    if w in CLASS:
        return CLASS[w]
    if CLASS_FILES.search(path):
        return classes(w)
    if EFFECT_FILES.search(path):
        return effects(w)
    if LAP_FILES.search(path):
        return laps(w)
    if ROUND_FILES.search(path):
        return rounds(w)
    return w


# ------------------------------------------------------------------ place
# Match's places of one tenth, and what replaces
KEEP = re.compile(r'^(placesOf|placePrice)$')


def index_word(w):
    if w == 'fourPlaces':
        return 'fourIndices'
    w = re.sub(r'(?<![a-z])Places', 'Indices', w) if 'Places' in w else w
    for a, b in (('Places', 'Indices'), ('places', 'indices'), ('Placed', 'Indexed'), ('placed', 'indexed'), ('Place', 'Index'), ('place', 'index')):
        w = re.sub(r'(?<!re)' + a, b, w)
    return w


MIR = re.compile(r'crates/(gate|gate_store)/proofs/')
MATCH = re.compile(r'crates/hour_match/')


def place(path, w, comment):
    if 'lace' not in w.replace('replac', '') or KEEP.match(w) or 'crates/rules/' in path:
        return w
    if MATCH.search(path):
        return {'PlaceLaws': 'IndexLaws', 'Places': 'Indices'}.get(w, w)
    if MIR.search(path) and not comment and w == 'place':
        return w
    return index_word(w)


# modules of `arrays`, `session` and others keep their new names in path segments too: tokens are split at dots, so nothing more is needed

AS_INDEX = re.compile(r'crates/(clear_gather|clear_store|clear)/')


def as_index(path, w):
    """`clear_gather::index`, a number as an index, is `as_index`, since parameters are now called so."""
    if not AS_INDEX.search(path) or 'index' not in w:
        return w
    if w == 'index':
        return 'as_index' if path.endswith(('.rt', '.edit')) else 'as-index'
    return {'index-requires': 'as-index-requires', 'Need-index-requires': 'Need-as-index-requires', 'mul-index': 'mul-as-index', 'Need-mul-index': 'Need-mul-as-index',
            'element-copy-out-index': 'element-copy-out-as-index', 'Need-element-copy-out-index': 'Need-element-copy-out-as-index', 'index-spec': 'as-index-spec'}.get(w, w)


def line_of(path, line):
    """Code and comment of a line, quotes of the papers left alone."""
    mark = '//' if path.endswith(('.rt', '.edit')) else '--'
    m = re.match(r'^(.*?)(\s*' + mark + r' .*)?$', line) if mark in line else None
    code, comment = (m[1], m[2] or '') if m else (line, '')
    if mark in line and not comment and line.lstrip().startswith(mark):
        code, comment = '', line

    def word(is_comment):
        def go(m):
            w = m[0]
            if not is_comment:
                w = as_index(path, w)
            if 'urn' in w:
                w = turn(path, w)
            if 'lace' in w:
                w = place(path, w, is_comment)
            return w
        return go
    code = TOKEN.sub(word(False), code)
    if comment:
        parts = re.split(r'("[^"]*"|`[^`]*`)', comment)
        for i, p in enumerate(parts):
            if p.startswith('`'):
                parts[i] = TOKEN.sub(word(False), p)
            elif not p.startswith('"'):
                p = re.sub(r"\b(in|one|takes?|took) place\b", lambda m: m[0].replace('place', 'plaçe'), p)
                p = re.sub(r"\bin one place\b", 'in one plaçe', p)
                p = re.sub(r"\b([Aa]) place\b", lambda m: ('an' if m[1] == 'a' else 'An') + ' place', p) if not (MATCH.search(path) or 'crates/rules/' in path) else p
                parts[i] = TOKEN.sub(word(True), p).replace('plaçe', 'place')
        comment = ''.join(parts)
    return code + comment


def main():
    for f in sorted(Path('crates').rglob('*')):
        if not f.is_file() or f.suffix not in ('.rt', '.antt', '.edit'):
            continue
        path = f.as_posix()
        s = f.read_text(encoding='utf-8')
        t = '\n'.join(line_of(path, l) for l in s.split('\n'))
        # files that others name
        t = re.sub(r'(Rattle·withdraw(?:·\w+)?\.specs\.)Turns\b', r'\1Rounds', t)
        t = re.sub(r'(Rattle·withdraw(?:·\w+)?\.proofs\.)TurnLaws\b', r'\1RoundLaws', t)
        t = re.sub(r'(Rattle·close_(?:judge|order)(?:·\w+)?\.specs\.)Turns\b', r'\1Classes', t)
        t = re.sub(r'(Rattle·close_(?:judge|order)(?:·\w+)?\.proofs\.)TurnLaws\b', r'\1ClassLaws', t)
        if t != s:
            f.write_text(t, encoding='utf-8')
    # documents: what stands in backticks
    for f in [Path('README.md'), *Path('docs').rglob('*.md'), Path('rust/README.md'), Path('tests/README.md')]:
        s = f.read_text(encoding='utf-8')

        def word(m):
            w = m[0]
            w = EFFECT.get(w) or CLASS.get(w) or {'turn': 'effect', 'turned': 'effectOf'}.get(w, w)
            if 'lace' in w.replace('replac', '') and not KEEP.match(w) and w not in ('placeOf', 'placeIn', 'places', 'Place', 'place'):
                w = index_word(w)
            return w
        t = re.sub(r'`[^`\n]+`', lambda m: TOKEN.sub(word, m[0]), s)
        t = re.sub(r'crates/close_judge/specs/Turns', 'crates/close_judge/specs/Classes', t)
        t = re.sub(r'crates/withdraw/specs/Turns', 'crates/withdraw/specs/Rounds', t)
        t = re.sub(r'crates/(?!rules|hour_match)(\w+)/(specs|proofs)/(Places|PlaceLaws)\b', lambda m: f'crates/{m[1]}/{m[2]}/' + index_word(m[3]), t)
        if t != s:
            f.write_text(t, encoding='utf-8')
    # files and folders
    for f in sorted(Path('crates').rglob('*'), key=lambda p: -len(p.parts)):
        path = f.as_posix() + ('/' if f.is_dir() else '')
        stem, ending = f.stem if f.is_file() else f.name, f.suffix if f.is_file() else ''
        if ending == '.edit':
            continue
        w = 'as_index' if stem == 'index' and 'clear_gather' in path else stem
        if 'urn' in w and not w.startswith('return'):
            w = turn(path, w)
        if 'lace' in w:
            w = place(path, w, False)
        if w != stem:
            f.rename(f.with_name(w + ending))


main()
