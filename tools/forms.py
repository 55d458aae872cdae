#!/usr/bin/env python3
"""Counts the places of older forms in crates/*/src (docs/DESIGN-PASS.md): python3 tools/forms.py [FOLDER] [-v]

One line for each point: how many places; with -v each place. FOLDER is a checkout, the one that the script lies in if none is given.
It goes by text: what it finds is for a reader to judge.
"""
import collections
import glob
import os
import re
import sys


def functions(text):
    """Name, signature, clauses and body of each function."""
    for m in re.finditer(r'^([ ]*)(?:pub )?fn (\w+)', text, re.M):
        brace = m.end()
        depth = 0
        signature_end = None
        for i in range(m.end(), len(text)):
            c = text[i]
            if c == '(':
                depth += 1
            elif c == ')':
                depth -= 1
            elif depth == 0 and c in '{;\n' and (c == '{' or c == ';' or text[i + 1:i + 300].lstrip().startswith(('requires', 'ensures', '{'))):
                signature_end = i
                break
        end = re.search(r'^%s}$' % m.group(1), text[m.end():], re.M)
        if not end or signature_end is None:
            continue
        whole = text[m.start():m.end() + end.end()]
        start = re.search(r'^%s{$' % m.group(1), whole, re.M)
        if start:
            head, body = whole[:start.start()], whole[start.end():]
        else:
            at = whole.index('{', signature_end - m.start())
            head, body = whole[:at], whole[at + 1:]
        line = text.count('\n', 0, m.start(2)) + 1
        clauses = re.findall(r'^\s*(?:requires|ensures)(?: \w+)? \{ (.*) \}$', head, re.M)
        yield m.group(2), head, clauses, body, line


def places(folder):
    """Point -> list of places."""
    found = collections.OrderedDict()

    def add(point, place):
        found.setdefault(point, []).append(place)

    for point in (
        '1 own enums of the shape of Option or Result',
        '1 refusals and kinds by number',
        '2 twins',
        '3 loops that count by hand',
        '4 conversion and printing by hand',
        '5 facts in three or more contracts',
        '5 parameters that travel together',
        '6 buffers with a length beside',
        '7 switches by a flag',
        '8 answers in proofs/',
    ):
        found[point] = []
    for path in sorted(glob.glob(os.path.join(folder, 'crates/*/src/*.rt'))):
        short = path.split('/crates/')[1]
        text = open(path).read()
        lines = text.split('\n')
        for m in re.finditer(r'^(?:pub )?enum (\w+) \{\n(.*?)^\}', text, re.M | re.S):
            if re.search(r'^\s*(Refused|Nothing|Fault|Not|Large|Missing|Unread)\b', m.group(2), re.M):
                add('1 own enums of the shape of Option or Result', '%s %s' % (short, m.group(1)))
        for i, line in enumerate(lines, 1):
            code = line.split('//')[0]
            if re.search(r'\b(number|refusal|mark): (u8|[0-9]+)\b|refusal [=<]=? [0-9]+|number != 0|return (8|9|10|16);|^\s+[0-9 |=.]+ => (say|print_at)', code) and not re.search(r'ghost use', line):
                add('1 refusals and kinds by number', '%s:%d' % (short, i))
            elif re.search(r'\bkind(s\[.*\])? ?(==|!=|<=|<) [0-9]\b|[0-9] (<|<=) kind\b|\] (==|!=) 1\b', code):
                add('1 refusals and kinds by number', '%s:%d' % (short, i))
            if re.search(r'\b(filled|length|used): usize', code) and any(re.search(r': \[u(8|64); ', l) for l in lines[max(0, i - 4):i + 3]):
                add('6 buffers with a length beside', '%s:%d' % (short, i))
            if re.search(r'const (TO|FAILED|TEXT): usize', code):
                add('6 buffers with a length beside', '%s:%d' % (short, i))
        shapes = collections.defaultdict(list)
        for name, head, clauses, body, line in functions(text):
            for m in re.finditer(r'^([ ]*)while ([^\n]*)\{\n(.*?)^\1\}', body, re.M | re.S):
                if re.search(r'\b(\w+) (\+= 1;|= \1 - 1;)', m.group(3)):
                    add('3 loops that count by hand', '%s %s' % (short, name))
            if re.match(r'(flat|not|hand)_', name) and 'match' in body:
                add('4 conversion and printing by hand', '%s %s' % (short, name))
            elif re.match(r'print_|tell_|say$|number$|counted$|hex$|quote$', name):
                add('4 conversion and printing by hand', '%s %s' % (short, name))
            signature = re.sub(r'\s+', ' ', head)
            for group in ('codes: &[u8], values: &[u64]', 'out_codes: &mut [u8], out_values: &mut [u64]', 'first_codes: &mut [u8], first_values: &mut [u64]',
                          'first_codes: &[u8], first_values: &[u64]', 'codes: &[u8], values: &[u8]', 'out_codes: &mut [u8], out_values: &mut [u8]', 'rt: HostRuntime, page: &mut [u8]'):
                if group in signature:
                    add('5 parameters that travel together', '%s %s' % (short, name))
                    break
            if re.search(r'\b(strict|padded|hex): bool', signature):
                add('7 switches by a flag', '%s %s' % (short, name))
            shape = re.sub(r'//.*', '', body)
            shape = re.sub(r'\b(u8|u16|u32|u64|i32|usize|[0-9_]+)\b', '#', shape)
            shape = re.sub(r'\b\w*?(8|32|64|_bytes|_words|_numbers)\b', '@', shape)
            shape = re.sub(r'\s+', ' ', shape)
            if len(shape) > 30:
                shapes[shape].append('%s %s' % (short, name))
            for clause in clauses:
                for fact in re.findall(r'length \w+\.(?:now|old) ≡ 128|record_size \* b \+ record_size ≤ length \w+\.(?:now|old)|length codes\.now ≡ length values\.now|Apt table\.now codes\.now|'
                                       r'Good record_groups \w+|b < 2 \^ 20|Lies \(|Structured \(|\d+ ≡ length result|Fine \w+ \w+|Runs records\.now k', clause):
                    found.setdefault('facts', []).append((re.sub(r'\b(codes|values|records|table|groups|self)\.(now|old)', 'x', fact), short, name))
        for twins in shapes.values():
            if len(twins) > 1:
                add('2 twins', ' = '.join(twins))
    facts = collections.defaultdict(set)
    for fact, short, name in found.pop('facts', []):
        facts[fact].add((short, name))
    for fact, where in facts.items():
        if len(where) >= 3:
            for short, name in sorted(where):
                add('5 facts in three or more contracts', '%s %s: %s' % (short, name, fact))
    for path in sorted(glob.glob(os.path.join(folder, 'crates/*/proofs/**/Answers.antt'), recursive=True)):
        for name in re.findall(r'^pub (\S+) : goal\.', open(path).read(), re.M):
            add('8 answers in proofs/', '%s %s' % (path.split('/crates/')[1].rsplit('/', 1)[0], name))
    return found


def main():
    words = [w for w in sys.argv[1:] if w != '-v']
    folder = words[0] if words else os.path.join(os.path.dirname(os.path.abspath(__file__)), '..')
    for point, where in places(folder).items():
        print('%4d  %s' % (len(where), point))
        if '-v' in sys.argv:
            for place in where:
                print('        ' + place)


main()
