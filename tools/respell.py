#!/usr/bin/env python3
"""Respells this repository's own definitions, labels and lemmas: words in snake case, a dash only between two names.

    python3 tools/respell.py [--dry]

Run once, at the top of the repository, after port.py. Files of specs/ and proofs/, and the clauses of src/, are turned;
strings, names of functions, exported names, inputs and outputs keep their spelling. The map that it used is
written to /tmp/respelled.txt, and names that would fall together are printed; APART sets them apart."""
import glob, os, re, sys

DRY = '--dry' in sys.argv
NAME = r"[A-Za-z_+μτκ][A-Za-z0-9_'₀-₉+]*(?:-[A-Za-z0-9_'₀-₉*]+)*"
WORD = re.compile(NAME)
DEFINED = re.compile(r"^\s*(?:unfoldable |abbrev |pub |opaque )*(" + NAME + r")\s*:\s")


# Names that would fall together with another, each in a form of its own.
APART = {
    'on-tick': 'is_on_tick', 'of-side': 'is_of_side', 'same_id': 'is_same_id', 'same-list': 'list_length_same',
    'same-words': 'words_length_same', 'two-words': 'two_words_digits', 'store_length': 'store_length_lem',
    'are_words': 'are_words_lem', 'laid_out': 'laid_out_lem', 'next_word': 'next_word_lem', 'too_large': 'too_large_lem',
    'too_long': 'too_long_lem', 'elected-stop': 'elected_stop_lem', 'free-words': 'free_words_lem',
}
# What follows a step of a function's proof, whose name is not this repository's.
STEP = re.compile(r"\.(ensures|result|results|new|taken|true|false|given|is|was|branch|invariant|type_inv|told|left|before|args)\b")


def antt_files():
    return sorted(glob.glob('crates/*/specs/**/*.antt', recursive=True) + glob.glob('crates/*/proofs/**/*.antt', recursive=True))


def is_function_proof(path):
    # a file of that name right in proofs/ is one of lemmas
    return os.path.basename(path) in ('Proof.antt', 'Answers.antt', 'Invariants.antt') and os.path.basename(os.path.dirname(path)) != 'proofs'


def read(path):
    with open(path, encoding='utf-8', newline='') as f:
        return f.read()


def code_of(line):
    """The part of a line before its comment."""
    at = line.find('--')
    while at >= 0:
        if (at == 0 or line[at - 1] in ' \t(') and (at + 2 >= len(line) or line[at + 2] in ' -\n'):
            return line[:at]
        at = line.find('--', at + 1)
    return line


def snake(part):
    if part[:1].isupper():
        return part
    part = re.sub(r'([a-z0-9])([A-Z])', lambda m: m.group(1) + '_' + m.group(2), part)
    return part.lower() if not re.search(r'[μτκ]', part) else part


def names_of_files():
    specs, labels, lemmas = set(), set(), set()
    for path in antt_files():
        inside = False          # within the fields of a record or a data type
        for line in read(path).split('\n'):
            code = code_of(line)
            if re.match(r'\s*(pub )?(abbrev )?(pub )?(record|data)\b', code):
                inside = code.rstrip().endswith('where')
                continue
            if code.strip() == '':
                inside = inside and line.strip() != ''
                continue
            if inside and not code.startswith(' '):
                inside = False
            m = DEFINED.match(code)
            if not m:
                continue
            n = m.group(1)
            if inside:
                labels.add(n)
            elif '/specs/' in path:
                specs.add(n)
            elif not is_function_proof(path):
                lemmas.add(n)
    return specs, labels, lemmas


def respelled(specs, labels, lemmas):
    plain = {snake(n) for n in specs if '-' not in n}
    out = {}
    for n in sorted(specs | labels | lemmas):
        if n[:1].isupper() and '-' not in n:
            continue
        if not re.search(r'[A-Z]', n) and '-' not in n:
            continue
        parts = [snake(p) for p in n.split('-')]
        if n[:1].isupper() or n[0] == '+' or re.match(r'[μτκ]', n):
            continue
        new = parts[0]
        for before, part in zip(parts, parts[1:]):
            joins = part in plain or part[:1].isupper() or before[:1].isupper()
            new += ('-' if joins and n not in labels and n not in specs else '_') + part
        if new != n:
            out[n] = new
    return out


def main():
    specs, labels, lemmas = names_of_files()
    turned = respelled(specs, labels, lemmas)
    for n in list(turned):
        spec = turned[n]
        if n in lemmas and n not in specs and n not in labels and any(o != n and t == spec and o in specs for o, t in turned.items()):
            turned[n] = spec + '_lem'
    turned.update(APART)
    # What stands already, and what falls together.
    present = {}
    for path in antt_files():
        for line in read(path).split('\n'):
            for w in WORD.findall(code_of(line)):
                present.setdefault(w, set()).add(path)
    taken = {}
    for old, new in sorted(turned.items()):
        taken.setdefault(new, []).append(old)
    fallen = []
    for new, olds in sorted(taken.items()):
        here = ([new] if new in present and new not in turned else []) + olds
        if len(here) > 1:
            files = [present.get(n, set()) for n in here]
            shared = set.intersection(*files[:2]) if len(files) > 1 else set()
            fallen.append((new, here, sorted(shared)[:3]))
    for new, here, shared in fallen:
        print('together:', new, '<-', ', '.join(here), '| in one file:' if shared else '', ' '.join(shared))
    with open('/tmp/respelled.txt', 'w', encoding='utf-8') as f:
        for old, new in sorted(turned.items()):
            f.write(old + ' ' + new + '\n')
    print('respelled:', len(turned), 'names,', len(fallen), 'fell together')
    if DRY:
        return

    def turn(text, path=None):
        proof = path is not None and is_function_proof(path)

        def one(m):
            w = m.group(0)
            if w not in turned:
                return w
            before = text[m.start() - 1:m.start()] if m.start() else ''
            if w in APART and '_' in w and (before == '.' or text[m.end():m.end() + 1] == '.') and w != 'same_id':
                return w        # a function's module or step
            if before == '.' and proof and STEP.match(text, m.end()):
                return w
            if before == '.' and proof and w not in labels and w not in specs and w not in lemmas:
                return w
            if before == '.' and proof and w not in labels:
                # a field of what the check made keeps its name; an alias of a module of lemmas is not written so here
                return w
            return turned[w]
        return WORD.sub(one, text)

    for path in antt_files():
        text = read(path)
        made = {m.group(1) for m in map(DEFINED.match, text.split('\n')) if m} if is_function_proof(path) else set()
        kept = made & set(turned) - labels - specs
        lines = []
        for line in text.split('\n'):
            code = code_of(line)
            rest = line[len(code):]
            if kept:
                held = {k: turned.pop(k) for k in kept}
                code = turn(code, path)
                turned.update(held)
            else:
                code = turn(code, path)
            lines.append(code + rest)
        new = '\n'.join(lines)
        if new != text:
            with open(path, 'w', encoding='utf-8', newline='') as f:
                f.write(new)

    # Clauses of src/: camel-case words begin in lower case there and nowhere else.
    camel = {o: n for o, n in turned.items() if re.search(r'[A-Z]', o) and '-' not in o}
    for path in sorted(glob.glob('crates/*/src/**/*.rt', recursive=True)) + sorted(glob.glob('crates/*/must-fail/*.edit')):
        text = read(path)
        lines = []
        for line in text.split('\n'):
            at = line.find('//')
            code, rest = (line, '') if at < 0 or path.endswith('.edit') else (line[:at], line[at:])
            pieces = re.split(r'("(?:[^"\\]|\\.)*")', code)
            code = ''.join(p if i % 2 else WORD.sub(lambda m: camel.get(m.group(0), m.group(0)), p) for i, p in enumerate(pieces))
            lines.append(code + rest)
        new = '\n'.join(lines)
        if new != text:
            with open(path, 'w', encoding='utf-8', newline='') as f:
                f.write(new)

    # Comments and pages name a definition between backquotes.
    pages = sorted(glob.glob('*.md') + glob.glob('docs/*.md') + glob.glob('*/README.md')) + antt_files() + sorted(glob.glob('crates/*/src/**/*.rt', recursive=True))
    for path in pages:
        text = read(path)
        new = re.sub(r'`([^`\n]+)`', lambda m: '`' + WORD.sub(lambda w: turned.get(w.group(0), w.group(0)), m.group(1)) + '`', text)
        if new != text:
            with open(path, 'w', encoding='utf-8', newline='') as f:
                f.write(new)


main()
