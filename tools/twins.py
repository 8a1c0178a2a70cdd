#!/usr/bin/env python3
"""Lists functions of crates/*/src whose bodies are alike once types, sizes, constants and names are set aside: the places where one generic function may do.

    tools/twins.py          one line a group, then how many groups and functions there are
"""
import re, glob, collections, sys
KEEP = {'let','mut','while','for','in','if','else','match','return','loop','break','continue','as','fn','pub','self','true','false'}
def functions(text):
    lines = [re.sub(r'\s*//.*', '', l) for l in text.split('\n')]
    i = 0
    while i < len(lines):
        m = re.match(r'(\s*)(?:pub(?:\([a-z]+\))? )?(?:const )?(?:unsafe )?(?:extern "C" )?fn (\w+)', lines[i])
        if not m:
            i += 1; continue
        ind = m.group(1); j = i
        while j < len(lines) and lines[j] != ind + '}' and not (lines[j].rstrip().endswith('}') and j == i): j += 1
        yield m.group(2), lines[i:j + 1]
        i = j + 1
def shape(body):
    k = next((n for n, l in enumerate(body) if l.strip() == '{' or (l.rstrip().endswith('{') and not l.strip().startswith(('requires', 'ensures')))), 0)
    words = re.findall(r"[A-Za-z_]\w*|\d[\w.]*|\S", ' '.join(body[k:]))
    names = {}; out = []
    for w in words:
        if re.match(r'\d', w): out.append('0')
        elif re.match(r'[A-Za-z_]', w) and w not in KEEP: out.append('n%d' % names.setdefault(w, len(names)))
        else: out.append(w)
    return ' '.join(out)
groups = collections.defaultdict(list)
for f in sorted(glob.glob('crates/*/src/**/*.rt', recursive=True)):
    for name, body in functions(open(f).read()):
        s = shape(body)
        if len(s.split()) >= 12: groups[s].append('%s:%s' % (f[7:], name))
twins = [g for g in groups.values() if len(g) > 1]
for g in sorted(twins): print(' = '.join(g))
print(len(twins), 'groups,', sum(map(len, twins)), 'functions')
