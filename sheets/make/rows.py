#!/usr/bin/env python3
"""Writes the table of printed lines into crates/sheet_lines from rows.txt, which stands beside this script: a row a line, NAME|FORM, the first is row 0.

The first FIRST rows are a group, the quickest to print; the others come in groups of REST, as a group costs the check some seconds. Written are
  src/names.rt                         the numbers of the rows, by their names
  src/rows.rt, src/rows/groupG.rt      the group of a row; the text of a group, where its rows begin, and the function that puts one of them
  specs/Rows.antt                      the rows as numbers, each with its text in a comment
  proofs/rows/.., proofs/Examples.antt the proofs of these functions, and the first rows printed
  must-fail/                           row_misspelt, rows_swapped, first_row_always
Nothing else of the crate depends on the rows. Then, in crates/sheet_lines: rt fmt; rt check.
"""
import os,sys,shutil
HERE=os.path.dirname(os.path.abspath(__file__))
FIRST,REST=16,105
C='sheet_lines'
def numbers(t): return ' ∷ '.join([str(x) for x in t.encode()]+['[]'])
def shown_tab(t): return t.replace('\t','\\t')
def shown(t): return shown_tab(t.replace('"','\\"'))
def write(path,text):
    os.makedirs(os.path.dirname(path),exist_ok=True)
    open(path,'w',encoding='utf-8').write(text)
def main():
    named=[l.split('|',1) for l in open(HERE+'/rows.txt',encoding='utf-8').read().split('\n') if l]
    rows=[r for _,r in named]
    top=HERE+'/../../crates/'+C
    row_names(top,[n for n,_ in named])
    for r in rows:
        if any(ord(c)>126 or (ord(c)<32 and c!='\t') for c in r) or '\\' in r: sys.exit(f'a row with a byte that a byte string cannot show as it is: {r!r}')
    groups=[rows[:FIRST]]+[rows[i:i+REST] for i in range(FIRST,len(rows),REST)]
    firsts=[sum(map(len,groups[:g])) for g in range(len(groups))]
    shutil.rmtree(top+'/src/rows',ignore_errors=True); shutil.rmtree(top+'/proofs/rows',ignore_errors=True)
    for g,rs in enumerate(groups):
        text=''.join(r+'\n' for r in rs); starts=[0]
        for r in rs: starts.append(starts[-1]+len(r)+1)
        first,last=firsts[g],firsts[g]+len(rs)-1
        write(f'{top}/src/rows/group{g}.rt',f'''// Rows {first} to {last}: the text of their forms, a line for each, and where each begins.
ghost use Rattle.std.specs.Prelude.{{◌+◌, ◌≤◌, ◌<◌, ◌≡◌, [], length, get_or}};
ghost use Rattle.text_buffer.specs.Writing.{{Put}};
ghost use Rattle.text_forms.specs.Forms.{{form_of}};
ghost use Rattle.text_parts.specs.Parts.{{joined, starts as Parts·starts}};
ghost use Rattle.{C}.specs.Rows.{{rows{g}}};

use text_parts::put_part;

const TEXT: [u8; {len(text)}] = *b"{shown(text)}";

const STARTS: [usize; {len(starts)}] = [{', '.join(map(str,starts))}];

fn text() -> [u8; {len(text)}]
    ensures {{ result ≡ joined rows{g} }}
{{
    TEXT
}}

fn starts() -> [usize; {len(starts)}]
    ensures {{ result ≡ Parts·starts 0 rows{g} }}
{{
    STARTS
}}

// Puts what the k-th of these rows makes of values from a place on.
pub fn put_group(buf: &mut [u8], at: usize, k: usize, values: &[u64]) -> usize
    requires at_in_bounds {{ at ≤ length buf.old }}
    requires k_bound {{ k < {len(rs)} }}
    ensures put {{ Put buf.old at (form_of (get_or rows{g} k []) values.now) buf.new result }}
    ensures upper_bound {{ result ≤ at + 1048576 }}
{{
    let text = text();
    let starts = starts();
    put_part(buf, at, &text, &starts, k, values)
}}
''')
    spec='''-- The rows of the table of printed lines: forms, which get their line feed when they are printed.
use Rattle.std.specs.Prelude.{ℕ, List, [], ◌∷◌, ◌++◌}

'''
    for k,r in enumerate(rows): spec+=f'-- {k}: {shown_tab(r)}\nabbrev pub row{k} : List ℕ\nrow{k} = {numbers(r)}\n\n'
    for g,rs in enumerate(groups):
        spec+=f'unfoldable pub rows{g} : List (List ℕ)\nrows{g} = '+' ∷ '.join(f'row{firsts[g]+i}' for i in range(len(rs)))+' ∷ []\n\n'
    spec+='-- every row, by its number\nabbrev pub rows : List (List ℕ)\nrows = '+' ++ ('.join(f'rows{g}' for g in range(len(groups)))+' ++ []'+')'*(len(groups)-1)+'\n'
    write(top+'/specs/Rows.antt',spec)
    n=len(groups)
    code='''// A row of the table: its group, and its place there. The first groups are found first.
'''+''.join(f'mod group{g};\n' for g in range(n))+f'''
ghost use Rattle.std.specs.Prelude.{{◌+◌, ◌≤◌, [], length, get_or}};
ghost use Rattle.text_buffer.specs.Writing.{{Put}};
ghost use Rattle.text_forms.specs.Forms.{{form_of}};
ghost use Rattle.{C}.specs.Rows.{{rows as Rows·rows}};

// Puts what the k-th row makes of values from a place on; nothing where there is no such row.
pub fn put_row(buf: &mut [u8], at: usize, k: u64, values: &[u64]) -> usize
    requires {{ at ≤ length buf.old }}
    ensures put {{ Put buf.old at (form_of (get_or Rows·rows k []) values.now) buf.new result }}
    ensures upper_bound {{ result ≤ at + 1048576 }}
{{
'''
    for g,rs in enumerate(groups):
        k='k' if g==0 else f'k{g}'
        if g>0: code+=f"    let {k} = {'k' if g==1 else f'k{g-1}'} - {len(groups[g-1])};\n"
        code+=f'    if {k} < {len(rs)} {{\n        return group{g}::put_group(buf, at, {k} as usize, values);\n    }}\n'
    code+='    at\n}\n'
    write(top+'/src/rows.rt',code)
    for g,rs in enumerate(groups):
        P=f'Rattle.{C}.proofs.rows.group{g}.'
        for f,d,what in (('text','joined','the text is that of the rows'),('starts','starts','the places are those of the rows')):
            write(f'{top}/proofs/rows/group{g}/{f}/Answers.antt',f'''-- `{C}::rows::group{g}::{f}` meets its contract: {what}.
use mathlib.Core.Path.{{refl}}
use Rattle.text_parts.specs.Parts.{{{d}}}
use Rattle.{C}.specs.Rows.{{rows{g}}}
use {P}{f}.Goals as goal

pub returns : goal.returns
unfolding rows{g} {d}
returns c = refl
''')
        write(f'{top}/proofs/rows/group{g}/put_group/Answers.antt',f'''-- `{C}::rows::group{g}::put_group` meets its contract: a row stands in the text of the rows between its places.
use Rattle.{C}.specs.Rows.{{rows{g}}}
use Rattle.text_parts.proofs.Parts.{{rows_begin, rows_line}}
use {P}put_group.Goals as goal

pub put_part-requires-clause-begins : goal.put_part-requires-clause-begins
unfolding rows{g}
put_part-requires-clause-begins c =
    rw (c.text-text.ensures, c.starts-starts.ensures) (rows_begin rows{g} c.args.k c.requires.k_bound)

pub returns : goal.returns
unfolding rows{g}
returns c =
    record {{
      put = rw (c.text-text.ensures, c.starts-starts.ensures, rows_line rows{g} c.args.k c.requires.k_bound) at c.put_part.ensures.put;
      upper_bound = c.put_part.ensures.upper_bound;
    }}
''')
    proof=f'''-- `{C}::rows::put_row` meets its contract: the rows before a group are passed over.
use mathlib.Core.Path.{{refl}}
use mathlib.Core.List.{{[]}}
use Rattle.{C}.specs.Rows.{{{', '.join(f'rows{g}' for g in range(n))}}}
use Rattle.{C}.proofs.Table.{{row_here, row-behind, no_row}}
use native.Mathlib.Omega.{{arith}}
use Rattle.{C}.proofs.rows.put_row.Goals as goal
'''
    def answer(name,unfold,put,bound):
        nonlocal proof
        proof+=f'''
pub {name} : goal.{name}
unfolding {' '.join(f'rows{h}' for h in range(unfold))}
{name} c =
    record {{
      put = {put};
      upper_bound = {bound};
    }}
'''
    # The test of a group, and that the groups before it are passed over; the last of all stands before no row.
    def test(g): return ('k' if g==0 else f'k{g}')+f'-lt{len(groups[g])}'
    def past(g,rest='_'): return [f'row-behind rows{h} {rest if h==g-1 else "_"} _ {len(groups[h])} refl c.if-{test(h)}.false' for h in range(g)]
    for g in range(n):
        call='c.put_group'+('' if g==0 else f'-then-{test(g)}')
        here=past(g)+[f'row_here rows{g} _ _ c.if-{test(g)}.true']
        answer(f'returns-then-{test(g)}',g+1,f'rw ({", ".join(here)}) {call}.ensures.put',f'{call}.ensures.upper_bound')
    answer('returns',n,f'no_row _ _ _ _ (rw ({", ".join(past(n,"[]"))}))','omega arith')
    write(top+'/proofs/rows/put_row/Answers.antt',proof)

    examples(top,groups[0])
    def edit(name,comment,file,old,new): write(f'{top}/must-fail/{name}.edit',f'# {comment}\nfile: {file}\nold: {old}\nnew: {new}\n')
    r=groups[0][0]; i=next(i for i,c in enumerate(r) if c.isalpha())
    edit('row_misspelt','the first word of the first row misspelt','src/rows/group0.rt',f'= *b"{r}',f'= *b"{r[:i]}{"x" if r[i]!="x" else "y"}{r[i+1:]}')
    edit('rows_swapped','the first two rows swapped','specs/Rows.antt','row0 ∷ row1 ∷','row1 ∷ row0 ∷')
    edit('first_row_always','the first row in the place of any','src/rows.rt','group0::put_group(buf, at, k as usize, values)','group0::put_group(buf, at, 0, values)')


# The numbers of the rows. The sentences of refusals and faults stand behind one row each, at their numbers; a refusal whose
# sentence stands elsewhere, as it came later, has a name of its own.
def row_names(top,all_names):
    refused=all_names.index('REFUSED')
    behind=lambda i,n: n=='REFUSED_%d'%(i-refused)
    out=["// The rows of the table of printed lines by their names: a row's number is its place, counted from 0. Those that a run prints\n// most come first."]
    for i,n in enumerate(all_names):
        if behind(i,n) or (n.startswith('FAULT_') and n!='FAULT_1'): continue
        out.append('pub const %s: u64 = %d;'%(('FAULTS',i-1) if n=='FAULT_1' else (n,i)))
    count=lambda p: sum(n.startswith(p) for n in all_names)
    out.append('// How many sentences stand behind `REFUSED` and `FAULTS`.\npub const MOST_REFUSALS: u64 = %d;\n\npub const MOST_FAULTS: u64 = %d;'%(sum(behind(i,n) for i,n in enumerate(all_names)),count('FAULT_')))
    write(top+'/src/names.rt','\n\n'.join(out)+'\n')
# The first rows with values, as the definitions print them.
UUID=(8040642770064822289,12983034126751327487,'6f9619ff-8b86-d011-b42d-00c04fc964ff')
def printed(row):
    text,values,i,n='',[],0,7
    while i<len(row):
        if row[i]!='%': text+=row[i]; i+=1; continue
        c=row[i+1:i+2]; i+=2; n+=91
        got={'n':([n],str(n)),'w':([1,0],str(2**64)),'u':([UUID[0],UUID[1]],UUID[2]),'i':([2,0,n],str(n)),'s':([1],'sell'),'o':([1,n],str(n)),'l':([1,0,n],str(n)),'h':([0x616e6e6100000000,0,0,0],'anna')}.get(c,([],''))
        values+=got[0]; text+=got[1]
    return text,values
def examples(top,rows):
    names='line_of rows0 form_from piece_of takes identity_of uuid_of group_of ulid_of wide_of side_of price_of limit_of bytes_of until_zero holder_of decimal_of width digits'
    o=f'''-- The first rows printed, as theorems, which the checker computes.
use mathlib.Core.Path.{{◌≡◌, refl}}
use mathlib.Core.List.{{[], ◌∷◌}}
use Rattle.text_buffer.specs.Digits.{{digits, width, decimal_of}}
use Rattle.identity_text.specs.Identities.{{group_of, uuid_of, ulid_of, identity_of}}
use Rattle.text_pieces.specs.Pieces.{{side_of, price_of, limit_of, bytes_of, until_zero, holder_of}}
use Rattle.text_wide.specs.Wide.{{wide_of}}
use Rattle.text_letters.specs.Letters.{{takes, piece_of}}
use Rattle.text_forms.specs.Forms.{{form_from}}
use Rattle.{C}.specs.Rows.{{rows0}}
use Rattle.{C}.specs.Lines.{{line_of}}
'''
    for k,r in enumerate(rows[:4]):
        text,values=printed(r)
        o+=f'\n-- "{shown_tab(text)}"\nline{k} : line_of {k} ({" ∷ ".join(map(str,values+["[]"]))}) ≡ {" ∷ ".join([str(x) for x in (text+chr(10)).encode()]+["[]"])}\nunfolding {names}\nline{k} = refl\n'
    write(top+'/proofs/Examples.antt',o)

main()

