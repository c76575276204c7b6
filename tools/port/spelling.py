#!/usr/bin/env python3
"""Brings the repository's own definitions, lemmas, fields and constructors of antt to snake case.

Run once, at the top, after the kit's port.py. A name is turned where an .antt file declares it and it begins with a small letter:
`appendGap` to `append_gap`. A dash that joins two names stays (`withGaps-runs` to `with_gaps-runs`); one within a field's or a definition's
name goes (`overflow-received` to `overflow_received`). Names of Rust source, strings, comments' words that are no declared name, inputs and
outputs stay. Names that would fall together have a row in APART.
"""
import collections
import glob
import re
import sys

# (file, name): its new name, where snake case alone would meet another name
APART = {
    'crates/loss/specs/Reached.antt': {'front_of': 'ranges_at_front'},
    'crates/loss/specs/Tidy.antt': {'has_room': 'room_fits'},
}
NAME = r"[A-Za-zα-ωΑ-Ω0-9_'◌∙]+(?:-[A-Za-zα-ωΑ-Ω0-9_'◌*]+)*"
DECLARED = re.compile(r'^(\s*)((?:abbrev |unfoldable |pub |ruleset )*)(' + NAME + r')(?: \{[^}]*\})*\s+:(?:\s|$)')


def declared_in(text):
    kind = ''
    for line in text.splitlines():
        head = re.match(r'^(?:pub )?(record|data)\b', line)
        if head:
            kind = head[1]
            continue
        if line and not line.startswith(' ') and not line.startswith('--'):
            kind = ''
        m = DECLARED.match(line)
        if not m:
            continue
        if m[1] and kind in ('record', 'data'):
            yield m[3], kind
        elif len(m[1]) <= 4:
            yield m[3], 'definition' if re.search('abbrev|unfoldable', m[2]) else 'lemma'


def snake(part):
    return re.sub(r'(?<=[a-z0-9])[A-Z]+', lambda m: '_' + m[0].lower(), part)


def turned(name, kind):
    parts = name.split('-')
    parts = [snake(p) if re.match('[a-z]', p) else p for p in parts]
    plain = all(re.fullmatch('[a-z][a-z0-9_]*', p) for p in parts)
    joined = kind in ('record', 'definition') and plain and not name.startswith(('invariant-', 'decreases-'))
    return ('_' if joined else '-').join(parts)


def sites():
    for pattern in ('crates/**/*.antt', 'crates/**/*.rt', 'crates/*/must-fail/*.edit', 'tools/slips/**/*.edit'):
        yield from sorted(glob.glob(pattern, recursive=True))


def main():
    kinds = collections.defaultdict(set)
    for path in sorted(glob.glob('crates/**/*.antt', recursive=True)):
        for name, kind in declared_in(open(path).read()):
            kinds[name].add(kind)
    table = {}
    for name, ks in kinds.items():
        # a name that is a lemma somewhere keeps its dash everywhere
        kind = 'lemma' if 'lemma' in ks else min(ks)
        new = turned(name, kind)
        if new != name:
            table[name] = new
    back = collections.defaultdict(set)
    for name in kinds:
        back[table.get(name, name)].add(name)
    for new, olds in sorted(back.items()):
        if len(olds) > 1:
            print('fall together:', new, sorted(olds), file=sys.stderr)
    # declared names of Rust source are no names of ours
    source = set()
    for path in glob.glob('crates/**/*.rt', recursive=True):
        text = open(path).read()
        source |= set(re.findall(r'\b(?:fn|const|static|mod|struct|enum)\s+([A-Za-z_0-9]+)', text))
        source |= set(re.findall(r'\b([a-z_0-9]+)\s*:\s', text))
    for name, new in sorted(table.items()):
        if new in source:
            print('meets a name of the source:', name, new, file=sys.stderr)
    word = re.compile("(?<![A-Za-z0-9_'-])" + NAME)
    count = 0
    for path in sites():
        text = open(path).read()
        apart = APART.get(path, {})

        def put(m):
            w = m[0]
            if w in apart:
                return apart[w]
            if w in table:
                return table[w]
            return w

        if path.endswith(('.rt', '.edit')):
            # clauses and ghost imports alone; an edit's text where a declared name stands in it
            new = '\n'.join(word.sub(put, l) if path.endswith('.edit') or re.search(r'ghost|ensures|requires|≡|specs', l) or ghost_lines(text, i) else l for i, l in enumerate(text.split('\n')))
        else:
            new = word.sub(put, text)
        if new != text:
            open(path, 'w').write(new)
            count += 1
    with open('tools/port/names.tsv', 'w') as out:
        for name, new in sorted(table.items()):
            out.write(f'{name}\t{new}\n')
        for path, rows in APART.items():
            for name, new in rows.items():
                out.write(f'{name}\t{new}\t{path}\n')
    print(f'spelling: {len(table)} names, {count} files')


def ghost_lines(text, i):
    """Whether line i is inside a clause's braces."""
    lines = text.split('\n')
    depth = 0
    inside = False
    for j, l in enumerate(lines[: i + 1]):
        if not inside and re.match(r'\s*(requires|ensures|ghost)\b', l):
            inside, depth = True, 0
        if inside:
            depth += l.count('{') - l.count('}')
            if j == i:
                return True
            if depth <= 0:
                inside = False
    return False


main()
