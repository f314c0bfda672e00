#!/usr/bin/env python3
"""Lists the places at which the code could take a plainer form, a group for each kind of place.

    python3 tools/places/places.py [FOLDER]        # counts, for the checkout at FOLDER (here: this one)
    python3 tools/places/places.py -v [FOLDER]     # and each place

It reads crates/*/src/**/*.rt and crates/*/proofs/**/Answers.antt as text. A place is a line to look
at, not a fault.
"""
import collections
import pathlib
import re
import sys

INTS = re.compile(r'\b[ui](?:8|16|32|64)\b')


def functions(text):
    """(name, signature with clauses, body, line) of each function with a body."""
    for m in re.finditer(r'(?m)^[ \t]*(?:pub(?:\(crate\))? )?(?:final )?fn (\w+)', text):
        depth, i = 0, m.end()
        while i < len(text):  # the body is the first block at the start or the end of a line
            if text[i] == ';' and depth == 0:
                i = None
                break
            if text[i] == '{' and depth == 0 and not re.search(r'(?:requires|ensures)[ \w*]*$', text[m.end():i]):
                break
            depth += {'{': 1, '(': 1, '}': -1, ')': -1}.get(text[i], 0)
            i += 1
        if i is None or i >= len(text):
            continue
        j, depth = i, 0
        while j < len(text):
            depth += {'{': 1, '}': -1}.get(text[j], 0)
            j += 1
            if depth == 0:
                break
        yield m.group(1), text[m.start():i], text[i:j], text.count('\n', 0, m.start()) + 1


def parameters(signature):
    inner = re.search(r'fn \w+(?:<[^(]*>)?\((.*?)\)\s*(?:->|requires|ensures|$)', signature, re.S)
    return re.findall(r'(\w+): ([^,]+)', inner.group(1)) if inner else []


def places(root):
    found = collections.defaultdict(list)
    bodies = collections.defaultdict(list)
    facts = collections.defaultdict(set)
    pairs = collections.defaultdict(set)
    for path in sorted(root.glob('crates/*/src/**/*.rt')):
        text = path.read_text()
        name = str(path.relative_to(root / 'crates'))
        code = re.sub(r'//.*', '', text)
        crate = name.split('/')[0]

        def lines(kind, pattern, source=code):
            for m in re.finditer(pattern, source):
                found[kind].append(f"{name}:{source.count(chr(10), 0, m.start()) + 1}: {m.group(0).strip()[:90]}")

        lines('1 own enums', r'(?m)^\s*(?:pub(?:\(crate\))? )?enum \w+')
        lines('1 a flag beside a value', r'-> \(?[^{;\n]*\([^{;\n]*\bbool\b[^{;\n]*\)')
        lines('1 numbers for kinds', r'\b(?:section|kind|number): u(?:8|16)\b')
        lines('3 loops that are no for', r'(?m)^\s*(?:while\b.*|loop \{|let .*= loop \{)')
        lines('3 indices counted by hand', r'(?m)^\s*[a-z]\w* [+-]= 1;')
        lines('4 arms that hand on', r'\b(?:Err\((\w+)\) => (?:return )?Err\(\1\)|None => (?:None|Err\()|Ok\(.*\) => Ok\()|Some\(\w+\) => (?:Ok|Some)\(')
        lines('4 conversions and orders by hand', r'fn (?:named|of_row|row|compare|eq|cmp|clone)\b')
        lines('6 a slice and a count', r'\w+: &(?:mut )?\[\w+\],\s*\w+: usize')
        lines('7 a bool picks the step', r'\b\w+: bool\b')
        lines('7 tables of functions', r'\bfn\(|\bdyn\b')
        for fn, signature, body, line in functions(code):
            shape = re.sub(r'\s+', ' ', re.sub(r'\b\d\w*', '0', INTS.sub('T', body)))
            if len(shape) > 30:
                bodies[crate, shape].append(f'{name}:{line}: {fn}')
            for clause in re.findall(r'(?:requires|ensures)[ \w*]*\{(.*)\}', signature):
                facts[crate, re.sub(r'\s+', ' ', clause.strip())].add(f'{name}:{line}: {fn}')
            params = [f'{p}: {t.strip()}' for p, t in parameters(signature)]
            for i, a in enumerate(params):
                for b in params[i + 1:]:
                    pairs[crate, re.sub(r"'\w+ ", '', a + ', ' + b)].add(f'{name}:{line}: {fn}')
    for (crate, _), where in bodies.items():
        if len(where) > 1:
            found['2 bodies alike but for a type or a number'].append('; '.join(where))
    for (crate, fact), where in facts.items():
        if len(where) > 2:
            found['5 facts in three contracts'].append(f'{crate}: {{ {fact[:100]} }}: ' + ', '.join(w.split()[-1] for w in sorted(where)))
    for (crate, pair), where in pairs.items():
        if len(where) > 2:
            found['5 parameters together in three signatures'].append(f'{crate}: {pair}: ' + ', '.join(w.split()[-1] for w in sorted(where)))
    for path in sorted(root.glob('crates/*/proofs/**/Answers.antt')):
        for m in re.finditer(r'(?m)^pub (\S+) : goal\.', path.read_text()):
            found['8 answers'].append(f"{path.relative_to(root / 'crates')}: {m.group(1)}")
    return found


def main(argv):
    verbose = '-v' in argv
    rest = [a for a in argv if a != '-v']
    found = places(pathlib.Path(rest[0] if rest else '.'))
    for kind in sorted(found):
        print(f'{len(found[kind]):4}  {kind}')
        if verbose:
            for place in found[kind]:
                print('        ' + place)


main(sys.argv[1:])
