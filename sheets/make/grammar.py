#!/usr/bin/env python3
"""Writes the table of commands, as bytes for the definition and as text for the code.
A command more is a row more at the end of ROWS (a command's number is its row, from 1), and this script run again."""
import os
top = os.path.dirname(os.path.abspath(__file__)) + '/../..'
ROWS = '''records n
tick n
collar o
namespace u
kill b
last o
sell innnnH
buy innnnH
qty in
price in
both inn
replace isnn
cancel i
cancel-holder h
clear
prints p
walk
ends
compare
turns
child c
pass
ladder p
list
holder h
totals
ask
commit
'''.splitlines()

def spec():
    out = '''-- The table of commands: a row for each, its keyword and its signature. A command's number is its row, from 1.
use Rattle.std.specs.Prelude.{ℕ, List, [], ◌∷◌}

unfoldable pub grammar : List ℕ
grammar =
'''
    for k, row in enumerate(ROWS):
        out += f'    -- {k + 1}: "{row}"\n    ' + ''.join(f'{b} ∷ ' for b in (row + '\n').encode()).rstrip() + '\n'
    return out + '    []\n'

def code():
    text = '\\n'.join(ROWS) + '\\n'
    return f'''// The table of commands, a row for each: its keyword and its signature.
ghost use Rattle.std.specs.Prelude.{{◌≤◌, length}};
ghost use Rattle.text_lines.specs.Lines.{{lines_of}};
ghost use Rattle.sheet_commands.specs.Commands.{{Told, command_from}};
ghost use Rattle.sheet_commands.specs.Grammar.{{grammar}};

use crate::Read;
use crate::rows::by_rows;

// The command by the line's first word, which stands between two places.
#[tactic(auto, unfolding(crate::specs::Grammar::grammar))]
pub fn by_grammar(line: &[u8], start: usize, end: usize, values: &mut [u64]) -> Read
    requires {{ (start ≤ end) × (end ≤ length line.now) }}
    ensures {{ Told (command_from (lines_of grammar) 1 line.now start end) values.old values.new result }}
{{
    by_rows(
        b"{text}",
        line,
        start,
        end,
        values,
    )
}}
'''
open(f'{top}/crates/sheet_commands/specs/Grammar.antt', 'w').write(spec())
open(f'{top}/crates/sheet_commands/src/grammar.rt', 'w').write(code())
