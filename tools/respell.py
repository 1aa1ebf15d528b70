#!/usr/bin/env python3
"""Brings the repository's definitions and lemmas to this kit's spelling where port.py left them: words in snake case.

Run once at the top of the repository, right after port.py; `--try` only lists the names that would fall together. Goal names
(in proofs/F/Answers.antt and Invariants.antt), strings, comments, functions of src/ and must-fail edits keep theirs; a lemma that
such a file states for itself is respelled in that file alone.
A definition may have the name of the function that it says the result of: a clause then still means the definition."""
import glob, re, sys
WORD = r"[A-Za-z0-9_'′≤≡◌*+∷-]"
files = [f for d in ('specs', 'proofs') for f in glob.glob('crates/*/%s/**/*.antt' % d, recursive=True)]
lemmas = [f for f in files if re.fullmatch(r'crates/[^/]+/(specs(/.*)?|proofs)/[^/]+\.antt', f)]
head = re.compile(r'^(?:(?:abbrev|unfoldable|pub|record|data|ruleset)\s+)*(' + WORD + r'+)\s*(?:\{|\(|:)')
inner = re.compile(r'^\s+(?:pub )?(' + WORD + r'+) :')
old, stands = set(), set()
for f in lemmas:
    for line in open(f, encoding='utf8'):
        m = None if line.startswith(('--', 'use', 'mod', 'pub mod')) else head.match(line) or inner.match(line)
        if m and ('-' in m.group(1) or re.match('[a-z].*[a-z0-9][A-Z]', m.group(1))): old.add(m.group(1))
        if m: stands.add(m.group(1))
goal = re.compile(r'^(returns|loop|invariant|decreases|overflow|unreachable|bounds|divides|casts?)-|-requires(-\d+)?$|^(the)-')
old = {n for n in old if not goal.search(n)}
new = {n: re.sub('([a-z0-9])([A-Z])', lambda m: m.group(1) + '_' + m.group(2).lower(), re.sub('^getD', 'get_or', n)).replace('-', '_') for n in old}
# two definitions that would fall together, or a lemma that would take the name of a function
special = {'claim-fault': 'fault_of_claim', 'show-fault': 'fault_of_show', 'free-fault': 'fault_of_free', 'forbid-fault': 'fault_of_forbid',
           'favour-fault': 'fault_of_favour', 'has-two': 'two_are_kept', 'is-sealed': 'sealed_from_checked', 'read-record': 'record_is_read',
           'proposals-agree': 'finished_proposals_agree', 'stable-or-blocking': 'stable_or_blocked', 'two-way-decides': 'two_way_is_decided',
           'unlinked-alike': 'unlinked_are_alike', 'all-able': 'all_are_able', 'none-emptied': 'none_is_emptied'}
new.update({k: v for k, v in special.items() if k in old})
known = set()   # names in proofs and specs that are no older spelling: variables, fields, what the library has
for f in files: known |= set(re.findall(WORD + '+', re.sub('--.*', '', open(f, encoding='utf8').read())))
taken = {}
for n in sorted(old): taken.setdefault(new[n], []).append(n)
double = [v for v in taken.values() if len(v) > 1]
clash = sorted(n for n in old if new[n] in stands - old)
near = sorted(n for n in old if new[n] in known and n not in clash)
if '--try' in sys.argv or double or clash:
    print(len(old), 'names; the name stands already:', clash, '; fall together:', double, '; also a variable or a field somewhere:', near)
    sys.exit(bool(double or clash))
token = re.compile('(?<!' + WORD + ')(' + '|'.join(sorted(map(re.escape, old), key=len, reverse=True)) + ')(?!' + WORD + ')')
changed = 0
for f in files + glob.glob('crates/*/src/**/*.rt', recursive=True) if old else []:
    t = open(f, encoding='utf8').read()
    steps = f.endswith(('/Answers.antt', '/Invariants.antt'))   # there `c.favour-fault` is the step of a call and no definition
    u = ''.join(part if part.startswith(('"', '//', '--')) else token.sub(lambda m: m.group(1) if steps and (m.group(1) in special or m.group(1).endswith('-is')) and part[:m.start()].endswith('.') else new[m.group(1)], part) for part in re.split(r'("(?:[^"\\\n]|\\.)*"|//[^\n]*|--[^\n]*)', t))
    if u != t: open(f, 'w', encoding='utf8').write(u); changed += 1
print(len(old), 'names,', changed, 'files')

# lemmas that a function's own proof file states for itself: what is defined there and answers no goal
own = re.compile(r"^(?:(?:abbrev|unfoldable|pub)\s+)*([A-Za-z][A-Za-z0-9_'-]*)\s*:(?!\s*goal\.)(?!\s*\S*(?:Goals|Given)\.)", re.M)
for f in files:
    if not f.endswith(('/Answers.antt', '/Invariants.antt')): continue
    t = open(f, encoding='utf8').read()
    names = {n for n in own.findall(t) if '-' in n}
    twice = sorted(n for n in names if n.replace('-', '_') in set(re.findall(WORD + '+', t)))
    if twice: sys.exit('%s: the name stands already: %s' % (f, twice))
    for n in names: t = re.sub(r'(?<!' + WORD + r')(?<!\.)' + re.escape(n) + '(?!' + WORD + ')', n.replace('-', '_'), t)
    if names: open(f, 'w', encoding='utf8').write(t); print(f, sorted(names))
