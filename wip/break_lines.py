#!/usr/bin/env python3
"""break_lines FOLDER ..: breaks lines that are too long, imports into several, comments anew, others at the outermost
sign: over 160 characters in proofs/, over 120 elsewhere. `rt fmt` and a look at the outcome after it."""
import re, sys, pathlib
def wrap_use(line, width):
    m = re.match(r'^((?:ghost )?use [^{]*\.\{)(.*)(\};?)$', line)
    if not m: return [line]
    head, items, tail = m.group(1), m.group(2).split(', '), m.group(3)
    def fill(w):
        out, cur = [], []
        for it in items:
            if cur and len(head + ', '.join(cur + [it]) + tail) > w:
                out.append(head + ', '.join(cur) + tail); cur = []
            cur.append(it)
        return out + [head + ', '.join(cur) + tail]
    k = len(fill(width))
    return next((f for f in (fill(w) for w in range(len(head) + 20, width + 1)) if len(f) == k), [line])
def wrap_code(line, width):
    ind = len(line) - len(line.lstrip())
    depth = 0; best = None
    cands = []
    for i, ch in enumerate(line):
        if ch in '({[⌜': depth += 1
        elif ch in ')}]⌝': depth -= 1
        elif ch == ' ' and ind < i <= width:
            rest = line[i+1:]
            m = re.match(r'(→|×|∷|∙|≡|\|\||&&|\+\+) ', rest)
            if rest.startswith('= '): continue
            rank = 0 if m and m.group(1) in ('→', '×', '∷', '∙') else 1 if m else 2
            prev = line[:i].rstrip()
            if prev.endswith(('→','×','∷','∙','=','.','≡',':','+','<','≤')) : continue
            if rest.startswith(('.','+ ','* ','- ','< ','≤ ',': ','⌝','{ told')): continue
            cands.append((depth, rank, -i))
    if not cands: return [line]
    d, r, i = min(c for c in cands if -c[2] > ind + 30) if any(-c[2] > ind + 30 for c in cands) else min(cands)
    i = -i
    a, b = line[:i].rstrip(), line[i+1:].lstrip()
    cont = ind if re.match(r'\s*(→|×|∷|∙|\()', line) else ind + 4
    b = ' ' * cont + b
    return [a] + (wrap_code(b, width) if len(b) > width else [b])
def do(p):
    width = 160 if '/proofs/' in str(p) else 120
    lines = p.read_text().split('\n'); out = []; i = 0; n = 0
    while i < len(lines):
        l = lines[i]
        if len(l) <= width: out.append(l); i += 1; continue
        n += 1
        m = re.match(r'^(\s*(?:--|//) )(?!----)', l)
        if m:
            pre = m.group(1); text = [l[len(pre):]]; j = i + 1
            while j < len(lines) and lines[j].startswith(pre) and not lines[j].startswith(pre + '----'):
                text.append(lines[j][len(pre):]); j += 1
            words = ' '.join(text).split(' '); cur = pre.rstrip()
            for w in words:
                if len(cur) + 1 + len(w) > min(width, 120): out.append(cur); cur = pre.rstrip() + ' ' + w
                else: cur += ' ' + w
            out.append(cur); i = j; continue
        if re.match(r'^(ghost )?use ', l): out += wrap_use(l, width)
        else: out += wrap_code(l, width)
        i += 1
    if n: p.write_text('\n'.join(out))
    return n
for c in sys.argv[1:]:
    for p in sorted(pathlib.Path(c).rglob('*')):
        if p.suffix in ('.antt', '.rt') and do(p): print(p)
