#!/usr/bin/env python3
"""Document 01's numbers by name, in the code of the gate (not in contracts, where the prover reads numerals; not in the programs' buffers)."""
import re
from pathlib import Path

PROGRAMS = ('figures', 'rehearse', 'recover', 'rehearse_words', 'rehearse_report', 'rehearse_lines')

RULES = '''// Document 01 as definitions, in specs/, and laws about them, in proofs/; here its numbers, each once in code. A crate with no
// function is not checked.
ghost use mathlib.Core.Path.{_≡_};
ghost use Rattle·rules·specs.specs.Units.{maxEnergy};
pub mod row;

// "At most 64 units."
pub const UNITS: usize = 64;

// "There are up to 128 standing lodgements"
pub const LODGEMENTS: usize = 128;

// Hours of the longest day: an array by hour has so many.
pub const HOURS: usize = 25;

// "the last Sunday of March has H = 23 hours, the last Sunday of October 25"
pub const SHORT_DAY: u32 = 23;

pub const LONG_DAY: u32 = 25;

// Borders beside 0, the domestic one.
pub const BORDERS: usize = 4;

// "A capacity notice covers the 4 borders in 2 directions"
pub const DIRECTIONS: usize = 8;

// Numbers of units, agents, contracts and lodgements are 1 to 65,535.
pub const MAX_NUMBER: u32 = 65_535;

// The largest energy, in tenths of MWh (document 01, "Units and notices").
pub const MAX_ENERGY: u32 = 99_999;

// The largest price, in hundredths of a euro per MWh.
pub const MAX_PRICE: u32 = 18_030;

// "hour map 25": a map is below 2 to the 25th.
pub const MAPS: u32 = 33_554_432;

pub fn energy_limit() -> u32
    ensures { λ r. ⌜ r ≡ maxEnergy ⌝ }
{
    MAX_ENERGY
}
'''
ROW = '''// The rows of the table "When the gate says no", by its words.
pub const DATE: u32 = 1;

pub const GATE: u32 = 2;

pub const FORM: u32 = 3;

pub const HOUR: u32 = 4;

pub const RANGE: u32 = 5;

pub const NO_UNIT: u32 = 6;

pub const TAKEN: u32 = 7;

pub const SECOND: u32 = 8;

pub const FULL: u32 = 9;

pub const MAXIMUM: u32 = 10;

pub const AVAILABLE: u32 = 11;

pub const BORDER: u32 = 12;

pub const ABSENT: u32 = 13;

pub const SHORT: u32 = 14;
'''
ROWS = re.findall(r'const (\w+)', ROW)
NUMBERS = ['UNITS', 'LODGEMENTS', 'HOURS', 'SHORT_DAY', 'LONG_DAY', 'BORDERS', 'DIRECTIONS', 'MAX_NUMBER', 'MAX_PRICE', 'MAPS']

LENGTHS = [(r'; 128\]', '; LODGEMENTS]'), (r'; 64\]', '; UNITS]'), (r'; 25\]', '; HOURS]'), (r'; 3200\]', '; LODGEMENTS * HOURS]'),
           (r'; 1625\]', '; UNITS * HOURS + HOURS]'), (r'; 125\]', '; BORDERS * HOURS + HOURS]'), (r'\b(Notice|Published|notice|none|absent|blank); 8\]', r'\1; DIRECTIONS]'),
           (r'\b0\.\.128\b', '0..LODGEMENTS'), (r'\b0\.\.64\b', '0..UNITS'), (r'\b0\.\.25\b', '0..HOURS'), (r'\* 25\b', '* HOURS'), (r'rows\[25 \+', 'rows[HOURS +'),
           (r'\bif 64 < ', 'if UNITS < '), (r'\bif 128 < ', 'if LODGEMENTS < '), (r'\bif at < 64 ', 'if at < UNITS '), (r'\bif 128 - n < k', 'if LODGEMENTS - n < k'),
           (r'\bif 25 < (self\.hours|hour)\b', r'if LONG_DAY < \1'), (r'\b33554432\b', 'MAPS')]


def outside_contracts(text, f):
    """f over what is neither contract nor comment."""
    parts = re.split(r'(⌜.*?⌝|//[^\n]*)', text, flags=re.S)
    return ''.join(p if p.startswith(('⌜', '//')) else f(p) for p in parts)


def uses(text, names, crate):
    """`use` lines for the names that stand in the code."""
    code = re.sub(r'⌜.*?⌝|//[^\n]*', '', text, flags=re.S)
    lines = text.split('\n')
    want = []
    for n in names:
        if re.search(r'(?<![\w:])' + n + r'\b', code) and not re.search(r'(const|use \w+(::\w+)*::)\s*' + n + r'\b', code):
            want.append(f'use rules::row::{n};' if n in ROWS else f'use rules::{n};')
    if not want:
        return text
    at = next((i for i, l in enumerate(lines) if l.startswith('use ')), None)
    if at is None:
        at = next(i for i, l in enumerate(lines) if not l.startswith(('//', 'ghost use', 'pub mod', 'mod')))
    old = []
    j = at
    while j < len(lines) and lines[j].startswith('use '):
        old.append(lines[j])
        j += 1
    lines[at:j] = sorted(set(old + want))
    return '\n'.join(lines)


def main():
    Path('crates/rules/src/lib.rt').write_text(RULES, encoding='utf-8')
    Path('crates/rules/src/row.rt').write_text(ROW, encoding='utf-8')
    deps = {}
    needs = set()
    for f in sorted(Path('crates').glob('*/src/*.rt')):
        crate = f.parts[1]
        if crate == 'rules' or crate in PROGRAMS:
            s = f.read_text(encoding='utf-8')
            t = re.sub(r'\buse session::(DATE|GATE|HOUR|RANGE|NO_UNIT|TAKEN|SECOND|FULL);', r'use rules::row::\1;', s)
            t = re.sub(r'\bsession::(DATE|GATE|HOUR|RANGE|NO_UNIT|TAKEN|SECOND|FULL)\b', r'rules::row::\1', t)
            if t != s:
                f.write_text(t, encoding='utf-8')
                needs.add(crate)
            continue
        s = f.read_text(encoding='utf-8')
        t = s
        # rows
        t = re.sub(r'\bsession::(DATE|GATE|HOUR|RANGE|NO_UNIT|TAKEN|SECOND|FULL)\b', r'rules::row::\1', t)
        if crate == 'session':
            t = re.sub(r'// The refusal table\'s numbers\.\n(?:pub const \w+: u32 = \d+;\n\n?)+', '', t)
            t = t.replace('pub const MAX_UNITS: usize = 64;', 'pub const MAX_UNITS: usize = UNITS;').replace('pub const MAX_LODGEMENTS: usize = 128;', 'pub const MAX_LODGEMENTS: usize = LODGEMENTS;')
            t = t.replace('pub const MAX_NUMBER: u32 = 65_535;', 'pub const MAX_NUMBER: u32 = rules::MAX_NUMBER;')
        for name in ('DATE', 'HOUR', 'FORM', 'MAXIMUM', 'AVAILABLE', 'BORDER'):
            if crate in ('calendar', 'judge_limits', 'lodge_pending', 'query_any'):
                t = re.sub(r'(?://[^\n]*\n)*const ' + name + r': u32 = \d+;\n\n?', '', t)
        if crate == 'annul':
            t = re.sub(r'(?://[^\n]*\n)*pub const ABSENT: u32 = 13;\n\n?', '', t)
        if crate == 'query_verdict':
            t = re.sub(r'(?://[^\n]*\n)*const NOT_STANDING: u32 = 13;\n\n?', '', t).replace('NOT_STANDING', 'ABSENT')
        t = re.sub(r'(?://[^\n]*\n)*const (MAX_NUMBER|MAX_PRICE): u32 = \d+;\n\n?', '', t)
        if crate == 'hour_match':
            t = outside_contracts(t, lambda p: re.sub(r'\b18_030 - price', 'MAX_PRICE - price', p))

        def code(p):
            for a, b in LENGTHS:
                p = re.sub(a, b, p)
            if crate in ('notify_capacity', 'book_log'):
                p = re.sub(r'\b0\.\.8\b', '0..DIRECTIONS', p)
            if crate == 'calendar':
                p = re.sub(r'\bhours == 25\b', 'hours == LONG_DAY', p)
                p = re.sub(r'\bhours == 23\b', 'hours == SHORT_DAY', p)
                p = re.sub(r'(?m)^(\s+)25$', r'\1LONG_DAY', p)
                p = re.sub(r'(?m)^(\s+)23$', r'\1SHORT_DAY', p)
            if crate == 'book':
                p = p.replace('s.refused(3, 0)', 's.refused(FORM, 0)')
            if crate in ('message_reader', 'message_cursor'):
                p = p.replace('refused(3)', 'refused(FORM)').replace('refused(4)', 'refused(HOUR)').replace('refused(5)', 'refused(RANGE)')
            if crate == 'message_writer':
                p = p.replace('return 4;', 'return HOUR;').replace('return 5;', 'return RANGE;').replace('return 14;', 'return SHORT;')
            return p
        t = outside_contracts(t, code)
        t = uses(t, NUMBERS + ROWS, crate)
        if t != s:
            f.write_text(t, encoding='utf-8')
            if re.search(r'\brules::', re.sub(r'//[^\n]*', '', t)):
                needs.add(crate)
    lines = Path('crates.txt').read_text(encoding='utf-8').split('\n')
    for i, l in enumerate(lines):
        name = l.split(':')[0]
        if name in needs and ' rules' not in l and name != 'rules':
            lines[i] = l.replace(':', ': rules', 1)
    Path('crates.txt').write_text('\n'.join(lines), encoding='utf-8')
    # edits: the lines that they replace
    for f in sorted(Path('crates').glob('*/must-fail/*.edit')):
        crate = f.parts[1]
        s = f.read_text(encoding='utf-8')
        if crate in PROGRAMS or crate == 'rules' or 'file: src' not in s:
            continue
        t = []
        for l in s.split('\n'):
            if re.match(r'(old|new): ', l) and '⌜' not in l:
                for a, b in LENGTHS:
                    l = re.sub(a, b, l)
                if crate == 'calendar':
                    l = re.sub(r'\bhours == 25\b', 'hours == LONG_DAY', l)
                if crate in ('message_reader', 'message_cursor'):
                    l = l.replace('refused(3)', 'refused(FORM)').replace('refused(4)', 'refused(HOUR)').replace('refused(5)', 'refused(RANGE)')
                if crate in ('notify_capacity', 'book_log'):
                    l = re.sub(r'\b0\.\.8\b', '0..DIRECTIONS', l)
            t.append(l)
        t = '\n'.join(t)
        if t != s:
            f.write_text(t, encoding='utf-8')


main()
