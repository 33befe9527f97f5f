#!/usr/bin/env python3
"""Lists the places in crates/*/src where an older form stands, by the points of docs/DESIGN-PASS.md, and counts them.

  python3 tools/places.py [POINT ..]      at the top of the repository

A list is what to look at, and no verdict: the page says of each place whether it was changed, or why it stays."""
import collections, glob, re, sys

FILES = sorted(glob.glob('crates/*/src/**/*.rt', recursive=True))
TEXT = {f: open(f).read() for f in FILES}
# Code alone: comments and the contents of clauses are left out where a point is about code.
CODE = {f: re.sub(r'//.*', '', t) for f, t in TEXT.items()}


def line(text, at):
    return text.count('\n', 0, at) + 1


def found(pattern, flags=re.M, texts=CODE):
    for f, t in texts.items():
        for m in re.finditer(pattern, t, flags):
            yield f, line(t, m.start()), ' '.join(m.group(0).split())


def functions():
    """Each function: file, line, name, signature with clauses, body."""
    for f, t in CODE.items():
        for m in re.finditer(r'^( *)(?:pub(?:\([a-z]+\))? )?(?:extern "C" )?(?:const )?fn (\w+)', t, re.M):
            end = t.find('\n' + m.group(1) + '}\n', m.start())
            semi = t.find(';\n', m.start())
            brace = t.find('\n' + m.group(1) + '{\n', m.start())
            one = t.find(' {\n', m.start())
            start = min(x for x in (brace, one, len(t)) if x >= 0)
            if 0 <= semi < start: continue
            yield f, line(t, m.start()), m.group(2), t[m.start():start], t[start:end if end >= 0 else len(t)]


def point1():
    yield from (('enum',) + x for x in found(r'^(?:pub(?:\(crate\))? )?enum \w+[^{]*\{'))
    yield from (('field that says failed',) + x for x in found(r'^ +(?:pub(?:\([a-z]+\))? )?\w+: Option<(?:Fault|Refusal|Trouble|\w*Error|E)>'))
    yield from (('error handed on',) + x for x in found(r'Err\((\w+)\) => (?:return )?(?:Err\(|[A-Z]\w+::Refused\(|refused\(|troubled\()[^,\n]*'))
    yield from (('absent handed on',) + x for x in found(r'Some\((\w+)\) => \1,\s*None => [^,\n]*|None => None|None => return None|None => Ok\(\(\)\)'))
    yield from (('refused in a let else',) + x for x in found(r'else \{\s*return Err\([^;]*;', re.M | re.S))
    yield from (('bool or nested result',) + x for x in found(r'-> (?:Result<bool[^{\n]*|Result<Result[^{\n]*)|fn \w+\([^)]*&mut[^)]*\)\s*-> bool'))
    yield from (('number of a refusal',) + x for x in found(r'\.number\(\) [=!<>]+ \d+'))


def point2():
    names = collections.defaultdict(list)
    for f, n, name, sig, body in functions():
        if '#[test]' not in sig: names[name].append((f, n, ' '.join(body.split())))
    trait = {'fmt', 'carriers', 'jobs', 'ceiling', 'row_len', 'entry', 'main', 'next', 'from', 'try_from', 'new'}
    for name, where in sorted(names.items()):
        if len(where) > 1 and name not in trait:
            for f, n, b in where: yield 'same name', f, n, name
    bodies = collections.defaultdict(list)
    for f, n, name, sig, body in functions():
        shape = re.sub(r'\b[A-Za-z_]\w*\b|\d+', 'x', ' '.join(body.split()))
        if len(shape) > 40: bodies[shape].append((f, n, name))
    for shape, where in bodies.items():
        if len(where) > 1:
            for f, n, name in where: yield 'same shape', f, n, name
    consts = collections.defaultdict(list)
    for f, n, t in found(r'^ *(?:pub(?:\(crate\))? )?const (\w+): \w+ = [^;]+;'):
        consts[t.split('=', 1)[1].strip()].append((f, n, t))
    for value, where in consts.items():
        if len(where) > 1:
            for f, n, t in where: yield 'same constant', f, n, t
    yield from (('array constant',) + x for x in found(r'^ *(?:pub(?:\(crate\))? )?const \w+: \[[^=]*'))
    types = collections.defaultdict(list)
    for f, t in CODE.items():
        for m in re.finditer(r'^(?:pub(?:\(crate\))? )?struct (\w+)[^{;]*\{\n(.*?)^\}', t, re.M | re.S):
            fields = tuple(re.findall(r'^ +(?:pub(?:\([a-z]+\))? )?(\w+):', m.group(2), re.M))
            types[tuple(re.sub(r'.*Option.*', '?', x) for x in re.findall(r'^ +(?:pub(?:\([a-z]+\))? )?\w+: (.*),', m.group(2), re.M))].append((f, line(t, m.start()), m.group(1)))
    for kinds, where in types.items():
        if len(where) > 1 and len(kinds) > 1:
            for f, n, name in where: yield 'same fields', f, n, name


def point3():
    for f, n, t in found(r'^ *while [^{]*'): yield 'while', f, n, t
    for f, t in CODE.items():
        for m in re.finditer(r'^( *)for (\w+) in [^{\n]*\.\.[^{\n]*\{\n(.*?)^\1\}', t, re.M | re.S):
            v = m.group(2)
            kind = 'range that repeats' if v.startswith('_') else 'index' if re.search(r'\[[^\]]*\b%s\b' % v, m.group(3)) else 'range of numbers'
            yield kind, f, line(t, m.start()), m.group(0).split('{')[0].strip()
        for m in re.finditer(r'^( *)for \((\w+), \w+\) in [^{\n]*enumerate\(\)[^{\n]*\{\n(.*?)^\1\}', t, re.M | re.S):
            if re.search(r'\[%s\b' % m.group(2), m.group(3)): yield 'index beside enumerate', f, line(t, m.start()), m.group(0).split('{')[0].strip()
    for f, n, t in found(r'^ +\w+ \+= 1;|^ +(\w+) = \1\.saturating_add\(1\);'): yield 'counter', f, n, t
    for f, n, t in found(r'^ +(\w+) \+= (?!1;)[^;]*;|^ +(\w+) = \2\.max\([^;]*;'): yield 'running sum or maximum', f, n, t


def point4():
    yield from (('comparison or copy',) + x for x in found(r'^impl.* (?:PartialEq|Eq|PartialOrd|Ord|Clone|Copy|Default|Hash) for [^{]*'))
    yield from (('conversion',) + x for x in found(r'\bfn (?:from_\w+|to_\w+|number|into_\w+)\([^)]*\)[^{;\n]*'))
    yield from (('cast',) + x for x in found(r'[\w.()]+ as (?:u8|u16|u32|u64|u128|usize|i64)\b'))
    yield from (('error converted',) + x for x in found(r'Err\(\w+\) => (?:return )?Err\((?:Fault::bare\(\w+\)|\w+\.\w+|AllocError)\)'))
    yield from (('wrapper to print',) + x for x in found(r'^(?:pub(?:\(crate\))? )?struct \w+\((?:pub(?:\(crate\))? )?[A-Z]\w+\);'))
    yield from (('printed by hand',) + x for x in found(r"b'0' \+|- b'0'"))


def point5():
    clauses = collections.defaultdict(list)
    pairs = collections.defaultdict(list)
    for f, n, name, sig, body in functions():
        for m in re.finditer(r'(requires|ensures)\*? ?(\w+)? ?\{ (.*) \}', sig):
            clauses[f.split('/')[1], m.group(3)].append((f, n, name))
        head = re.sub(r'\s+', ' ', sig.split('\n    requires')[0].split('\n    ensures')[0])
        ps = [p for p in re.findall(r'(\w+): (?!&?mut self)', head) if p not in ('S', 'T', 'D', 'F', 'self')]
        for i in range(len(ps)):
            for j in range(i + 1, len(ps)): pairs[f.split('/')[1], ps[i], ps[j]].append((f, n, name))
    for (crate, c), where in sorted(clauses.items()):
        if len(where) >= 3:
            for f, n, name in where: yield 'clause: ' + c, f, n, name
    for (crate, a, b), where in sorted(pairs.items()):
        if len(where) >= 4:
            for f, n, name in where: yield 'parameters %s, %s' % (a, b), f, n, name


def point6():
    yield from (('fixed table',) + x for x in found(r'^ +(?:pub(?:\([a-z]+\))? )?(?:let mut )?\w+(?:: | = )\[[^\]]*;[^\]]*\][,;]'))
    yield from (('length beside',) + x for x in found(r'^ +(?:pub(?:\([a-z]+\))? )?(?:len|count|used|at): usize,'))
    yield from (('slices side by side',) + x for x in found(r'\b(?:calls|moves): &\[[^)]*?(?:answers|outcomes): &(?:mut )?\[', re.M | re.S))


def point7():
    yield from (('one function a step',) + x for x in found(r'fn tell_\w+'))
    yield from (('step to run',) + x for x in found(r'^(?:pub(?:\(crate\))? )?enum (?:Act|Layer|Move)\b'))
    yield from (('function pointer or dyn',) + x for x in found(r'\bdyn \w+|: fn\('))
    yield from (('match that picks a function',) + x for x in found(r'Layer::\w+\(\w+\)\)? => \w+\('))


def point8():
    for f in sorted(glob.glob('crates/*/proofs/**/Answers.antt', recursive=True)):
        t = open(f).read()
        for m in re.finditer(r'^(?:unfoldable |abbrev )?pub (\S+) : goal\.', t, re.M): yield 'answer', f, line(t, m.start()), m.group(1)
    for f in sorted(glob.glob('crates/*/proofs/*.antt')):
        t = open(f).read()
        for m in re.finditer(r'^(?:unfoldable |abbrev )?(?:pub )?([\w-]+) : ', t, re.M): yield 'lemma', f, line(t, m.start()), m.group(1)


for p in sys.argv[1:] or '12345678':
    kinds = collections.Counter()
    for kind, f, n, t in globals()['point' + p]():
        kinds[kind] += 1
        if p != '8': print('%s  %s: %s:%d: %s' % (p, kind, f[len('crates/'):], n, t[:110]))
    for kind, count in kinds.items():
        if not kind.startswith(('clause', 'parameters')): print('point %s, %s: %d' % (p, kind, count))
    print('point %s: %d' % (p, sum(kinds.values())))
