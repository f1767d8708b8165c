#!/usr/bin/env python3
"""Each public signature with its clauses, each type and each definition that changed since a commit, old and new side by side.

    tools/sides.py COMMIT

prints them in Markdown, crate by crate, as they stand at the end of docs/DESIGN-PASS.md."""
import os
import re
import subprocess
import sys

os.chdir(os.path.join(os.path.dirname(os.path.abspath(__file__)), '..'))
commit = sys.argv[1]


def git(*args):
    return subprocess.run(['git', *args], capture_output=True, text=True, check=True).stdout


def files(at):
    names = git('ls-tree', '-r', '--name-only', at, 'crates').split('\n')
    return [n for n in names if re.match(r'crates/\w+/(src/.*\.rt|specs/.*\.antt)$', n) and '/specs/Inner' not in n]


def theorems(at):
    """The statements of the theorems that docs/CLAIMS.md names, by crate, file and name."""
    found = {}
    text = git('show', f'{at}:docs/CLAIMS.md')
    for crate, file, names in re.findall(r'`(\w+)/proofs/(\w+): ([^`]+)`', text):
        try:
            source = git('show', f'{at}:crates/{crate}/proofs/{file}.antt').split('\n')
        except subprocess.CalledProcessError:
            continue
        for name in re.split(r',\s*', re.sub(r'\s+', ' ', names)):
            for i, line in enumerate(source):
                m = re.match(r'(\s*)(?:(?:abbrev|unfoldable) )?pub ' + re.escape(name) + r' ?:', line)
                if m:
                    kept = [line]
                    for after in source[i + 1:]:
                        if re.match(m.group(1) + r'(unfolding |' + re.escape(name) + r'\b)', after) or not after.strip():
                            break
                        kept.append(after)
                    found[(crate, 'proofs', f'theorem {name} ({file})')] = clean([re.sub(r'(^|\s)--( .*)?$', '', l) for l in kept])
                    break
    return found


def code_items(text):
    """The public functions, with their clauses, and the types of a source file."""
    items, holder, lines, i = {}, '', text.split('\n'), 0
    while i < len(lines):
        line = lines[i]
        m = re.match(r'(?:impl(?:<[^>]*>)? (?:\w+(?:<[^>]*>)? for )?|pub trait )(\w+)', line)
        if m:
            holder = m.group(1) + '::'
        elif line == '}':
            holder = ''
        m = re.match(r'(\s*)(?:pub )?(?:extern "C" )?fn (\w+)', line)
        if m and ('pub ' in line or holder in TRAITS):
            start = i
            while not (lines[i].rstrip() == m.group(1) + '{' or lines[i].rstrip().endswith(' {') and not re.match(r'\s*(requires|ensures)', lines[i]) or lines[i].rstrip().endswith(';')):
                i += 1
            kept = lines[start:i + 1]
            kept[-1] = re.sub(r'\s*\{$', '', kept[-1])
            items['fn ' + (holder if m.group(1) else '') + m.group(2)] = clean(kept)
        m = re.match(r'pub (struct|enum) (\w+)', line)
        if m:
            start = i
            while not (lines[i].startswith('}') or lines[i].rstrip().endswith(';')):
                i += 1
            items[m.group(1) + ' ' + m.group(2)] = clean(lines[start:i + 1])
        i += 1
    return items


TRAITS = {'Aggregate::'}


def clean(lines):
    lines = [re.sub(r'\s*//.*$', '', l).rstrip() for l in lines]
    lines = [l for l in lines if l.strip()]
    indent = min((len(l) - len(l.lstrip()) for l in lines), default=0)
    return '\n'.join(l[indent:] for l in lines)


def definitions(text):
    """The definitions of a file of specs/."""
    items, block = {}, []

    def close():
        if not block:
            return
        m = re.match(r'\s*(?:(?:abbrev|unfoldable|pub|record|data) )+([^\s(){}:]+)', block[0])
        if m:
            items['def ' + m.group(1)] = clean([re.sub(r'(^|\s)--( .*)?$', '', l) for l in block])
        block.clear()

    for line in text.split('\n'):
        if re.match(r'\s*(use|pub use|pub mod|mod|module) ', line) or re.match(r'\s*--', line):
            continue
        if not line.strip():
            close()
            continue
        if re.match(r'\s*(?:abbrev|unfoldable|pub) ', line) and not line.startswith('  pub ') or re.match(r'(record|data) ', line):
            close()
        block.append(line)
    close()
    return items


def all_items(at):
    found = {}
    for name in files(at):
        crate, part = name.split('/')[1:3]
        text = git('show', f'{at}:{name}')
        for key, value in (code_items(text) if part == 'src' else definitions(text)).items():
            found[(crate, part, key)] = value
    found.update(theorems(at))
    return found


def same(a, b):
    return re.sub(r'\s+', ' ', a) == re.sub(r'\s+', ' ', b)


old, new = all_items(commit), all_items('HEAD')
crates = sorted({k[0] for k in old} | {k[0] for k in new})
for crate in crates:
    out = []
    for part in ('src', 'specs', 'proofs'):
        keys = [k for k in old if k[0] == crate and k[1] == part] + [k for k in new if k[0] == crate and k[1] == part and k not in old]
        for k in keys:
            a, b = old.get(k), new.get(k)
            if a is None and part != 'src':
                continue
            if a is not None and b is not None and same(a, b):
                continue
            lang = 'rust' if part == 'src' else 'text'
            out.append(f'`{k[2]}`' + ('' if a and b else ' (gone)' if a else ' (new)'))
            for label, text in (('old', a), ('new', b)):
                if text:
                    out.append(f'\n{label}:\n\n' + '\n'.join('    ' + l for l in text.split('\n')))
            out.append('')
    if out:
        print(f'### {crate}\n')
        print('\n'.join(out))
