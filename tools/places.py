#!/usr/bin/env python3
"""Lines of src/ (and, at the last point, of proofs/) at which an older form may stand, point by point.

    tools/places.py [COMMIT] [-l]     counts; with -l each line too

It reads the files of a commit, or those that lie here. What it prints are candidates: docs/DESIGN-PASS.md says which of
them are places, and what became of each.
"""
import collections
import re
import subprocess
import sys

listed = '-l' in sys.argv
words = [a for a in sys.argv[1:] if a != '-l']
commit = words[0] if words else None


def run(*args):
    return subprocess.run(args, check=True, capture_output=True, text=True).stdout


def files(pattern):
    if commit:
        names = run('git', 'ls-tree', '-r', '--name-only', commit, 'crates').split('\n')
    else:
        names = run('git', 'ls-files', '-co', '--exclude-standard', 'crates').split('\n')
    for name in names:
        if re.search(pattern, name):
            yield name, (run('git', 'show', f'{commit}:{name}') if commit else open(name).read())


src = list(files(r'/src/[^/]*\.rt$'))
proofs = list(files(r'/proofs/.*\.antt$'))


def lines(pattern, among=src):
    for name, text in among:
        for number, line in enumerate(text.split('\n'), 1):
            if not line.lstrip().startswith('//') and re.search(pattern, line):
                yield f'{name}:{number}: {line.strip()}'


def show(title, found):
    found = list(found)
    print(f'{len(found):5}  {title}')
    if listed:
        for line in found:
            print('         ', line)


def clauses():
    count = collections.Counter()
    where = collections.defaultdict(list)
    for name, text in src:
        for clause in re.findall(r'requires (?:[a-z_]+ )?\{ (.*) \}', text):
            for part in re.split(r' × ', clause.strip('()')):
                part = part.strip('() ')
                part = re.sub(r'\.(now|old)\b', '', part)
                count[part] += 1
                where[part].append(name)
    for part, n in count.most_common():
        if n >= 3:
            yield f'{n} x {part}'


def travelling():
    count = collections.Counter()
    for name, text in src:
        for args in re.findall(r'fn [a-z_0-9]+(?:<[^>]*>)?\(([^)]*)\)', text):
            names = [re.sub(r'^(mut )?', '', a.strip()).split(':')[0].strip() for a in args.split(',') if ':' in a]
            for i in range(len(names)):
                for j in range(i + 1, len(names)):
                    count[(name.split('/')[1], names[i], names[j])] += 1
    for (crate, a, b), n in sorted(count.items(), key=lambda x: -x[1]):
        if n >= 3:
            yield f'{crate}: {n} functions take ({a}, {b})'


def same_names():
    where = collections.defaultdict(set)
    for name, text in src:
        for kind, item in re.findall(r'^ *(?:pub )?(fn|struct|enum) ([A-Za-z_0-9]+)', text, re.M):
            if item not in ('fmt', 'from', 'main', 'new', 'run'):
                where[(kind, item)].add(name)
    for (kind, item), names in sorted(where.items()):
        if len(names) > 1:
            yield f'{kind} {item}: ' + ' '.join(sorted(names))


print('1. kinds, flags and numbers')
show('enums', lines(r'^ *(pub )?enum '))
show('fields that are a bool', lines(r'^ +(pub )?[a-z_]+: bool,$'))
show('numbers that say nothing, as the result of a function or as a constant', lines(r'-> u8$|: u8 = 0;'))
show('a result that is matched only to be handed on', lines(r'Err\((\w+)\) => (return )?Err\(\1\)|return Err\(fault\)|None => None,|Some\(k\) => Some\(k\)'))
print('2. twins')
show('items of one name in two files', same_names())
print('3. loops')
show('`for` over a range', lines(r'for [^ ]+ in [^{]*\.\.'))
show('`while`', lines(r'\bwhile '))
print('4. equality, conversion and printing')
show('functions that make a String', lines(r'-> .*Result<String'))
show('functions that say a constant text', lines(r"-> &'static (str|\[u8\])"))
show('functions that make a value of another', lines(r'fn (of|from_[a-z]+|refusal|read|words|literal|nth|place_of)\('))
print('5. facts and parameters')
show('facts that three or more contracts require', clauses())
show('pairs of parameters of three or more functions of a crate', travelling())
print('6. buffers and indices')
show('fields that are a length or a count', lines(r'^ +(pub )?(count|length|depth|len): usize,$'))
show('fields that are an array', lines(r'^ +(pub )?[a-z_]+: \[.*; [0-9A-Z_]+\],$'))
print('7. steps')
show('parameters that are called', lines(r'Fn(Mut|Once)?\(|\bdyn '))
print('8. proofs')
print(f'{sum(1 for _, t in proofs for l in t.split(chr(10)) if l.strip()):5}  lines of proofs')
show('answers that say only `search rules`', lines(r'^[a-z][^ ]* (g )?c = search rules$', proofs))
