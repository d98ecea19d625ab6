#!/usr/bin/env python3
"""Lists places in crates/*/src that older forms of the language leave, one section for each point of
docs/DESIGN-PASS.md. `python3 tools/forms.py` prints each place and then a table; `--table` the table alone."""
import collections, glob, os, re, sys

ROOT = os.path.dirname(os.path.dirname(os.path.abspath(__file__)))
FLAG = re.compile(r'^\s+(?:pub(?:\(crate\))? )?(\w+): bool,')
ENUM = re.compile(r'^\s*(?:pub(?:\(crate\))? )?enum (\w+)')
CODE = re.compile(r'//.*(?:\b0 where|, or 0\b|\belse 0\b|\b0 for\b|\b1 for\b|one more than the most|or a NaN\b|'
                  r'none left:|1\.0 or -1\.0|minus the refusal|\b01\'s number|papers\' number)', re.I)
NUMBER = re.compile(r'fn (\w*number\w*|known|kind|answer)\(')
LOOP = re.compile(r'^\s*(?:while|loop)\b')
INDEX = re.compile(r'^\s*while\b.*(?:<|>)')
NAN = re.compile(r'\b(\w+) != \1\b|\b(\w+) - \2 != 0\.0')
BYHAND = re.compile(r'fn (copy\w*|wide|same_\w+|of_two|of_four|of_halves|pair|half|copysign|negative|is_character|is_digit|'
                    r'put|fill|put_decimal|number_of|put_of|sticky|is_finite|is_sign_positive)\(')
COUNTED = re.compile(r'(?:&(?:mut )?\[\w+\]|\[\w+; \w+\])\s*,?\s*(?:\w+: [^,()]*,\s*)??(?:n|count|many|k|m|places|room|bytes): usize')
SIZED = re.compile(r'\[[^\[\]]+; [A-Z0-9][A-Z0-9_]*\]')
SWITCH = re.compile(r'\bmatch (letter|mark|kind|plan|which|part|q|f|field|fixed|limits|k)\b')


def functions(text):
    """(name, line, signature with clauses, body) of each function; the body is what stands between its braces."""
    for m in re.finditer(r'^( *)(?:pub(?:\(crate\))? )?(?:extern "C" )?fn (\w+)', text, re.M):
        indent = m.group(1)
        end = re.search(r'^%s\}$' % indent, text[m.start():], re.M)
        whole = text[m.start():m.start() + end.end()] if end else text[m.start():]
        open_ = re.search(r'^%s\{$|\{$' % indent, whole, re.M)
        head, body = (whole[:open_.start()], whole[open_.end():]) if open_ else (whole, '')
        yield m.group(2), text[:m.start()].count('\n') + 1, head, body


def shape(body):
    """The body with every name but keywords, and every number, replaced."""
    words = {'let', 'mut', 'if', 'else', 'return', 'match', 'while', 'loop', 'for', 'in', 'as', 'true', 'false'}
    text = re.sub(r'//.*', '', body)
    return ' '.join(w if w in words or not re.match(r'[A-Za-z_0-9.]+$', w) else 'x'
                    for w in re.findall(r'[A-Za-z_][A-Za-z_0-9]*|[0-9][0-9A-Za-z_.]*|\S', text))


def conjuncts(head):
    for clause in re.findall(r'requires(?: \w+)? \{(.*?)\}\s*(?=requires|ensures|$)', head, re.S):
        for part in re.split(r'×', ' '.join(clause.split())):
            yield part.strip().strip('()').strip()


def main():
    places = collections.defaultdict(list)
    bodies, facts = collections.defaultdict(list), collections.defaultdict(set)
    for path in sorted(glob.glob(os.path.join(ROOT, 'crates/*/src/**/*.rt'), recursive=True)):
        name, text = os.path.relpath(path, os.path.join(ROOT, 'crates')).replace('/src/', '/'), open(path).read()
        lines = text.split('\n')
        for i, line in enumerate(lines, 1):
            for key, rule in (('1 enums', ENUM), ('1 flags in structs', FLAG), ('1 numbers for cases, by comment', CODE),
                              ('1 functions that give a number', NUMBER), ('3 loops', LOOP), ('3 of them with an index', INDEX),
                              ('4 NaN tests', NAN), ('4 functions that std has', BYHAND),
                              ('6 fixed buffers', SIZED), ('7 switches', SWITCH)):
                if rule.search(line):
                    places[key].append(f'{name}:{i}: {line.strip()}')
        for fn, at, head, body in functions(text):
            if COUNTED.search(' '.join(head.split('ensures')[0].split())):
                places['6 slices and arrays with a count beside'].append(f'{name}:{at}: {fn}')
            if body.count(';') + body.count('=>') >= 2 or len(body.split()) > 14:
                bodies[shape(body)].append(f'{name}:{at}: {fn}')
            for fact in conjuncts(head):
                facts[fact].add(f'{name}: {fn}')
    for same in bodies.values():
        if len(same) > 1:
            places['2 functions of one shape'] += ['; '.join(same)]
    for fact, where in sorted(facts.items()):
        if len(where) > 2:
            places['5 facts in three contracts or more'].append(f'{fact}: {len(where)}: ' + ', '.join(sorted(where)))
    if '--table' not in sys.argv:
        for key in sorted(places):
            print(f'## {key}\n')
            print('\n'.join(places[key]) + '\n')
    for key in sorted(places):
        print(f'{key}: {len(places[key])}')


main()
