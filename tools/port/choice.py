#!/usr/bin/env python3
"""Turns the repository's own `if_then_else_` to the library's, which rt ci wants.

Run once, at the top, after spelling.py. The library's binds tighter and does not nest by itself, so an `if` behind an `else` gets brackets:
`if a then x else if b then y else z` is `if a then x else (if b then y else z)`. Its import moves from Base to the Prelude, and Base's own
definition goes.
"""
import glob
import re

WORD = r"[A-Za-z0-9_'.«»◌-]"


def indent(line):
    return len(line) - len(line.lstrip(' '))


def end_of(text, start):
    """Where the choice that begins at start ends."""
    line_start = text.rfind('\n', 0, start) + 1
    first = text[line_start:text.find('\n', line_start) if '\n' in text[line_start:] else len(text)]
    leads = text[line_start:start].strip() == ''
    base = indent(first)
    depth = 0
    waiting = 0
    i = start
    while i < len(text):
        c = text[i]
        if text.startswith('--', i) and (i == 0 or text[i - 1] in ' \n'):
            i = text.find('\n', i)
            if i < 0:
                return len(text)
            continue
        if c in '([{':
            depth += 1
        elif c in ')]}':
            if depth == 0:
                return i
            depth -= 1
        elif depth == 0 and c in ',;':
            return i
        elif depth == 0 and c == '|' and text[i - 1] == ' ' and text[i + 1:i + 2] in ' \n':
            return i
        elif depth == 0 and c == '\n':
            rest = text[i + 1:]
            following = rest[:rest.find('\n')] if '\n' in rest else rest
            if following.strip() == '':
                return i
            if following.lstrip().startswith('else'):
                i += 1
                continue
            if indent(following) < base or (not leads and indent(following) <= base):
                return i
        elif depth == 0 and re.match(r'(if|else)\b', text[i:]) and not re.match(WORD, text[i - 1]):
            if text[i] == 'i':
                waiting += 1
            elif waiting == 0:
                return i
            else:
                waiting -= 1
        elif depth == 0 and re.match(r'in\b', text[i:]) and not re.match(WORD, text[i - 1]):
            return i
        i += 1
    return len(text)


def bracketed(text):
    at = 0
    while True:
        m = re.compile(r"(?<![A-Za-z0-9_'-])else(\s+)(if)(?=\s)").search(text, at)
        if not m:
            return text
        start = m.start(2)
        end = end_of(text, start)
        body = text[start:end]
        keep = len(body.rstrip())
        text = text[:start] + '(' + body[:keep] + ')' + text[start + keep:]
        at = start + 1


def imports(text, keyword):
    m = re.search(r'^(' + keyword + r'use Rattle\.types\.specs\.Base\.)\{([^}]*)\}(;?)\n', text, re.M)
    if not m or 'if◌then◌else◌' not in m[2]:
        return text
    items = [x.strip() for x in m[2].split(',') if x.strip() != 'if◌then◌else◌']
    line = f'{m[1]}{{{", ".join(items)}}}{m[3]}\n' if items else ''
    text = text[:m.start()] + line + text[m.end():]
    p = re.search(r'^(' + keyword + r'use Rattle\.std\.specs\.Prelude\.)\{([^}]*)\}', text, re.M)
    if p:
        return text[:p.start()] + f'{p[1]}{{{p[2]}, if◌then◌else◌}}' + text[p.end():]
    first = re.search(r'^' + keyword + r'use ', text, re.M)
    at = first.start() if first else m.start()
    return text[:at] + f'{keyword}use Rattle.std.specs.Prelude.{{if◌then◌else◌}}{m[3]}\n' + text[at:]


def main():
    count = 0
    for path in sorted(glob.glob('crates/*/specs/**/*.antt', recursive=True) + glob.glob('crates/*/proofs/**/*.antt', recursive=True)):
        text = open(path).read()
        new = imports(bracketed(text), '')
        if path == 'crates/types/specs/Base.antt' and 'infixr 1 if' in new:
            new = re.sub(r'infixr 1 if◌then◌else◌\nabbrev pub if◌then◌else◌ [^\n]*\nif true then a else b = a\nif false then a else b = b\n\n', '', new)
            new = re.sub(r'^(use Rattle\.std\.specs\.Prelude\.\{[^}]*)\}', r'\1, if◌then◌else◌}', new, count=1, flags=re.M)
        if new != text:
            open(path, 'w').write(new)
            count += 1
    for path in sorted(glob.glob('crates/*/src/*.rt')):
        text = open(path).read()
        new = imports(text, 'ghost ')
        if new != text:
            open(path, 'w').write(new)
            count += 1
    print(f'choice: {count} files')


main()
