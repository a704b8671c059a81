#!/usr/bin/env python3
"""Lists the places in src/ that are written in an older form of Rattle: python3 tools/forms.py [COMMIT].

Without a commit it reads the working tree. It goes by text: what it lists is looked at, and either changed or kept with a reason.
"""
import collections
import re
import subprocess
import sys

COMMIT = sys.argv[1] if len(sys.argv) > 1 else None

FORMS = {
    '1 a failure handed on by hand': r'let (?:Some|Ok)\([^=]*=[^;{]*?else \{\s*(?:return (?:Err|Ok|None)\b|unreachable)',
    '1 a case handed on by hand': r'(?:Some|Ok)\([\w()]*\) => (?:Some|Ok)\(|Some\((\w+)\) => \1\b|Err\(\w+\) => (?:Err|unreachable)|None => (?:None\b|Err\b|unreachable|\w)',
    '1 an option by a test': r'\{\s*Some\([^;{}]*\)\s*\} else \{\s*None\s*\}|\{\s*return None;\s*\}\s*Some\(',
    '1 a number for none, a kind or a refusal': r'Refused\(u8\)|NoInterrupt\b,|number: u8\b|fn (?:lowest|running_priority|read_head)\([^)]*\) -> (?:u32|Result<u8)',
    '1 an enum in the shape of a list': r'enum Words\b',
    '3 a loop': r'\bwhile\b|\bfor \w+ in [^{]*\.\.|\bfor \(\w+, \w+\) in [^{]*enumerate\(\)',
    '4 a conversion': r'fn (?:new|of|from_\w+|word|number|level|mode_of|kind_of|flag_of|split_bit|mode_in)\([^,)]+\) -> ',
    '4 an equality': r'matches!\([^,|]+,\s*[\w:]+\)|\.level\(\)(?: as u32)? [!=]= ',
    '4 a widening or narrowing': r'\bas u(?:8|16|32|64|size)\b',
    '4 a text': r'fn \w*(?:text|digit|decimal)\w*\(',
    '6 an array in a struct': r'\w+: \[[^\]]*; \w+\],',
    '7 a switch on a step': r'match (?:change|call|command)\b|\bdyn\b|: fn\(',
}


def run(*words):
    return subprocess.run(words, capture_output=True, text=True, check=True).stdout


def sources():
    """Each file of src/, with comments and imports for clauses blanked, so that lines keep their numbers."""
    names = run('git', 'ls-files', 'crates/*/src/*.rt') if not COMMIT else run('git', 'ls-tree', '-r', '--name-only', COMMIT, 'crates')
    for name in names.split():
        if '/src/' not in name or not name.endswith('.rt'):
            continue
        text = run('git', 'show', f'{COMMIT}:{name}') if COMMIT else open(name).read()
        text = re.sub(r'^\s*ghost use.*$|//.*$', '', text, flags=re.M)
        yield name, text


def functions(text):
    """Each function: its name, its head with the clauses, and its body."""
    for m in re.finditer(r'\bfn (\w+)', text):
        i, depth, clause = m.end(), 0, False
        start = None
        while i < len(text):
            c = text[i]
            if c == ';' and depth == 0:
                break
            if c == '{':
                if depth == 0 and not re.search(r'(?:requires|ensures)\*?(?: \w+)? $', text[max(m.start(), i - 40):i]):
                    start = i
                    break
                depth += 1
            elif c == '}':
                depth -= 1
            i += 1
        if start is None:
            yield m.group(1), text[m.start():i], ''
            continue
        depth, i = 0, start
        while True:
            depth += {'{': 1, '}': -1}.get(text[i], 0)
            i += 1
            if depth == 0:
                break
        yield m.group(1), text[m.start():start], text[start:i]


def shape(body):
    """The body with its names and numbers taken out."""
    words = re.findall(r'[A-Za-z_]\w*|\d\w*|[^\s\w]', body)
    seen = {}
    keep = {'if', 'else', 'match', 'for', 'in', 'return', 'let', 'mut', 'self', 'Some', 'None', 'Ok', 'Err', 'as'}
    return ' '.join(w if w in keep or not re.match(r'\w', w) else seen.setdefault(w, f'n{len(seen)}') for w in words), len(words)


def main():
    places = collections.defaultdict(list)
    shapes = collections.defaultdict(list)
    facts = collections.defaultdict(set)
    pairs = collections.defaultdict(set)
    for name, text in sources():
        for form, pattern in FORMS.items():
            for m in re.finditer(pattern, text):
                line = text.count('\n', 0, m.start()) + 1
                places[form].append(f'{name}:{line}: {" ".join(m.group(0).split())}')
        for fn, head, body in functions(text):
            where = f'{name}: {fn}'
            s, size = shape(body)
            if size >= 14:
                shapes[s].append(where)
            for fact in re.findall(r'(?:requires|ensures)\*?(?: \w+)? \{ (.*?) \}\s*(?=requires|ensures|$|\n)', head, flags=re.S):
                facts[' '.join(fact.split())].add(where)
            signature = re.match(r'fn \w+(?:<.*?>)?\((.*?)\)', head, flags=re.S)
            params = [' '.join(p.split()) for p in re.split(r',\s*(?![^<(\[]*[>)\]])', signature.group(1))] if signature else []
            params = [p for p in params if ':' in p]
            for i, a in enumerate(params):
                for b in params[i + 1:]:
                    pairs[f'{a}, {b}'].add(where)
    for group in shapes.values():
        if len(group) > 1:
            places['2 functions of one shape'].append(' ~ '.join(group))
    for table, form in ((facts, '5 a fact in three contracts'), (pairs, '5 parameters together in three functions')):
        for what, where in table.items():
            if len(where) > 2:
                places[form].append(f'{what}: {len(where)}: {", ".join(sorted(where))}')
    for form in sorted(places):
        print(f'\n{form}: {len(places[form])}')
        for place in places[form]:
            print(f'    {place}')


main()
