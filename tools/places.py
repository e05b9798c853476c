#!/usr/bin/env python3
# Lists the places of src/ that docs/DESIGN-PASS.md counts, point by point: forms of an older Rattle, for which today's has better ones.
# Usage: tools/places.py [COMMIT] [--list]: of the work tree, or of a commit; --list prints each place, not only how many there are.
# It reads text, so it finds what looks alike; which of the places stay, and why, is said beside each and on the page.
import collections
import re
import subprocess
import sys


def sources(commit):
    if commit:
        names = subprocess.run(['git', 'ls-tree', '-r', '--name-only', commit, 'crates'], capture_output=True, text=True, check=True).stdout.split()
        read = lambda name: subprocess.run(['git', 'show', f'{commit}:{name}'], capture_output=True, text=True, check=True).stdout
    else:
        names = subprocess.run(['git', 'ls-files', 'crates'], capture_output=True, text=True, check=True).stdout.split()
        read = lambda name: open(name).read()
    return {n: read(n) for n in names if re.match(r'crates/\w+/(src/.*\.rt|proofs/.*\.antt)$', n)}


def code(text):
    """The text with comments blanked, line for line."""
    return re.sub(r'//[^\n]*', '', text)


def functions(text):
    """(name, line, parameters, clauses, body) of each function."""
    found = []
    for m in re.finditer(r'^( *)(?:pub(?:\(crate\))? )?(?:extern "C" )?fn (\w+)', text, re.M):
        end = re.compile(r'^' + m.group(1) + r'\}', re.M).search(text, m.end())
        if not end:
            continue
        whole = text[m.start():end.end()]
        brace = re.search(r'(^' + m.group(1) + r'\{|\) *(?:-> [^\n{]*)?\{$)', whole, re.M)
        cut = brace.end() if brace else len(whole)
        head = whole[:cut]
        depth, start, stop = 0, head.find('('), len(head)
        for k in range(start, len(head)):
            depth += (head[k] == '(') - (head[k] == ')')
            if depth == 0:
                stop = k
                break
        found.append((m.group(2), text[:m.start()].count('\n') + 1, ' '.join(head[start + 1:stop].split()), head[stop:], whole[cut:]))
    return found


def at(name, text, pos):
    return f'{name}:{text[:pos].count(chr(10)) + 1}'


def lines(files, pattern):
    return [f'{n}:{i}: {l.strip()}' for n, t in files.items() for i, l in enumerate(code(t).split('\n'), 1) if re.search(pattern, l)]


def structs(files, kind):
    for n, t in files.items():
        c = code(t)
        for m in re.finditer(r'^(?:pub )?' + kind + r' (\w+)[^{;]*\{(.*?)^\}', c, re.M | re.S):
            yield n, at(n, c, m.start()), m.group(1), m.group(2)


def own_enums(files):
    out = []
    for _, place, name, body in structs(files, 'enum'):
        flat = re.sub(r'\{[^}]*\}', '{}', body)
        variants = re.findall(r'^ +(\w+)', flat, re.M)
        if 'None' in variants or (len(variants) == 2 and '{' in body):
            out.append(f'{place}: enum {name} {variants}')
    return out


def flags(files):
    out = []
    for _, place, name, body in structs(files, 'struct'):
        fields = dict(re.findall(r'(\w+): ([^,\n]+)', body))
        if fields.get('there') == 'bool' or fields.get('store') == 'bool' or ('answer' in fields and 'cells' in fields):
            out.append(f'{place}: struct {name}: a flag or an answer with values beside it')
    return out


def sentinels(files):
    return [f'{n}:{i}: {l.strip()}' for n, t in files.items() for i, l in enumerate(t.split('\n'), 1)
            if re.match(r' *//', l) and re.search(r'\b(0|LIST) where|\(4: none\)', l)]


def twins(files):
    """Groups of two and more functions whose bodies are alike up to names and numbers, and of five tokens at least."""
    shape = collections.defaultdict(list)
    for n, t in files.items():
        for name, line, _, _, body in functions(code(t)):
            tokens = re.findall(r'\w+|[^\w\s]', body)
            keep = {'if', 'else', 'while', 'for', 'in', 'match', 'return', 'let', 'mut', 'as'}
            form = ' '.join(x if x in keep or not re.match(r'\w', x) else '_' for x in tokens)
            if len(tokens) > 7:
                shape[form].append(f'{n}:{line}: {name}')
    return [p + (f'  (like {g[0].split(": ")[1]})' if p != g[0] else f'  ({len(g)} alike)') for g in shape.values() if len(g) > 1 for p in g]


FAMILIES = r'(number_at|bool_at|cell_at|saw_\w+|put_(bare|value|snapshot)|(llx|scx)_counted|within|turn_in|play|on|on_with|done|snapshot|no_and_drop)'


def families(files):
    """Functions that differ in a type, a field or a constant, or do the same in two places: by name."""
    return [f'{n}:{line}: {name}' for n, t in files.items() for name, line, _, _, _ in functions(code(t)) if re.fullmatch(FAMILIES, name)]


def alike_arms(files):
    """Matches with three or more arms that have the same right side."""
    out = []
    for n, t in files.items():
        c = code(t)
        for m in re.finditer(r'^( *)(?:[^\n]*= )?match ([^\n]+) \{\n(.*?)^\1\}', c, re.M | re.S):
            arms = collections.Counter(re.findall(r'=> ([^{\n]+),$', m.group(3), re.M))
            if arms and max(arms.values()) >= 3:
                out.append(f'{at(n, c, m.start())}: match {m.group(2)}: {max(arms.values())} arms alike')
    return out


def repeated_requires(files):
    seen = collections.defaultdict(list)
    for n, t in files.items():
        for name, line, _, head, _ in functions(code(t)):
            for r in re.findall(r'requires(?: \w+)? \{ (.*?) \}$', head, re.M):
                seen[re.sub(r'\b(s|x|events)\.now', '_.now', r)].append(f'{n}:{line}: {name}: {r}')
    return [p for g in seen.values() if len(g) >= 3 for p in g]


def travelling(files):
    """Pairs of parameters that stand together, by name and type, in four functions or more of one crate."""
    seen = collections.defaultdict(set)
    for n, t in files.items():
        crate = n.split('/')[1]
        for name, _, params, _, _ in functions(code(t)):
            ps = [p.strip() for p in re.findall(r'\w+: [^,]+', params)]
            for a, b in zip(ps, ps[1:]):
                seen[crate, a, b].add(name)
    return [f'{k[0]}: ({k[1]}, {k[2]}) in {len(v)} functions' for k, v in sorted(seen.items()) if len(v) >= 4]


def counted_arrays(files):
    out = [f'{n}:{i}: {l.strip()}' for n, t in files.items() for i, l in enumerate(code(t).split('\n'), 1)
           if re.search(r'\b(n|k|drop): u8, (list|infos|cells|there|links)?:?', l) and re.search(r'list: List|infos: List|cells: Cells|there: \[', l)]
    for _, place, name, body in structs(files, 'struct'):
        arrays = re.findall(r'(\w+): (?:List|\[\w+; Machine::LIST\])', body)
        if arrays and re.search(r'\b(n|drop): u8', body):
            out.append(f'{place}: struct {name}: a count beside {", ".join(arrays)}')
    return out


def steps(files):
    return [f'{at(n, code(t), m.start())}: {m.group(0).strip()}' for n, t in files.items()
            for m in re.finditer(r'match (place|a|kind|ask|after|operation)\b', code(t))]


def main():
    listed = '--list' in sys.argv
    commit = next((a for a in sys.argv[1:] if not a.startswith('-')), None)
    every = sources(commit)
    src = {n: t for n, t in every.items() if '/src/' in n}
    proofs = {n: t for n, t in every.items() if '/proofs/' in n}
    points = [
        ('1a own enums of the shape of Option or Result', own_enums(src)),
        ('1b a flag, or an answer, with values beside it', flags(src)),
        ('1c a number that stands for none', sentinels(src)),
        ('1d numbers for kinds', lines(src, r'\bkind == \d')),
        ('2a functions alike up to names and numbers', twins(src)),
        ('2c functions of one family, by name', families(src)),
        ('2d loops that only test each of some', lines(src, r'^\s+return false;')),
        ('2b matches with three or more arms alike', alike_arms(src)),
        ('3 loops that count by hand (while)', lines(src, r'^\s*while ')),
        ('4a equality, order and zeros by hand', lines(src, r'fn same_cell|Cell \{ value: 0, stamp: 0 \}|value: 0,$')),
        ('4b conversions by hand', lines(src, r'% 256|256 \* \(|=> \d+,$|if \w+ \{ 1 \} else \{ 0 \}|wrapping_add_u16')),
        ('4c printing by hand', lines(src, r'^fn (write_\w+|end_line)\(rt')),
        ('5a a fact in the clauses of three or more functions', repeated_requires(src)),
        ('5b parameters that travel together', travelling(src)),
        ('6 counts beside arrays', counted_arrays(src)),
        ('7 switches on a step or a kind', steps(src)),
        ('8a proof files of functions', [n for n in proofs if re.search(r'/(Answers|Invariants)\.antt$', n)]),
        ('8b answers by simp of a case alone', lines(proofs, r'= simp \(?c\.in-')),
    ]
    for title, places in points:
        print(f'{title}: {len(places)}')
        if listed:
            for p in places:
                print('    ' + p)
    print('lines of src: %d, of proofs: %d' % (sum(t.count('\n') for t in src.values()), sum(t.count('\n') for t in proofs.values())))


main()
