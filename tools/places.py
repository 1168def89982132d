"""Lists the places that docs/DESIGN-PASS.md counts: python3 tools/places.py [-v] [COMMIT]. Without a commit, those of the working tree.

Each line is a count and what was counted; -v lists the places too. What a pattern cannot tell, as whether an enum has the shape of a
Result, is told by reading what it lists.
"""
import re
import subprocess
import sys
from collections import defaultdict

TESTS = re.compile(r'_tests$')


def git(*words):
    return subprocess.run(['git', *words], capture_output=True, text=True, check=True).stdout


def sources(commit, suffix, folder):
    """The files crates/NAME/FOLDER/*SUFFIX, by their names, with their texts."""
    if commit:
        names = git('ls-tree', '-r', '--name-only', commit, 'crates').split()
    else:
        names = git('ls-files', '-co', '--exclude-standard', 'crates').split()
    found = {}
    for name in names:
        parts = name.split('/')
        if not name.endswith(suffix) or folder not in parts or TESTS.search(parts[1]):
            continue
        try:
            found[name] = git('show', f'{commit}:{name}') if commit else open(name).read()
        except FileNotFoundError:
            continue
    return found


def code_of(text):
    """The text without its tests, comments and strings; the lines stay."""
    text = re.sub(r'#\[cfg\(test\)\].*', '', text, flags=re.S)
    text = re.sub(r'"(\\.|[^"\\])*"', lambda m: '""' + '\n' * m.group().count('\n'), text, flags=re.S)
    return re.sub(r'//[^\n]*', '', text)


FUNCTION = re.compile(r'\bfn (\w+)(<[^(]*>)?\(')


def functions(name, text):
    """Each function: its place, its name, its parameters and result, its clauses."""
    code = code_of(text)
    for m in FUNCTION.finditer(code):
        depth, at = 1, m.end()
        while depth and at < len(code):
            depth += {'(': 1, ')': -1}.get(code[at], 0)
            at += 1
        rest = code[at:]
        body = re.search(r'^\s*\{|^\{|\n\s*\{\s*\n|\{\}$', rest, flags=re.M)
        head = rest[:body.start()] if body else rest[:400]
        result = re.match(r'\s*->\s*([^\n{]*)', head)
        line = code[:m.start()].count('\n') + 1
        yield (f'{name}:{line}', m.group(1), code[m.end():at - 1], (result.group(1).strip() if result else ''), head)


def lines(files, pattern):
    for name, text in files.items():
        for n, line in enumerate(code_of(text).split('\n'), 1):
            if re.search(pattern, line):
                yield f'{name}:{n}: {line.strip()}'


def spans(files, pattern):
    for name, text in files.items():
        code = code_of(text)
        for m in re.finditer(pattern, code):
            yield f'{name}:{code[:m.start()].count(chr(10)) + 1}: {" ".join(m.group().split())}'


def main():
    words = sys.argv[1:]
    verbose = '-v' in words
    commit = next((w for w in words if w != '-v'), None)
    files = sources(commit, '.rt', 'src')

    def tell(what, places):
        places = list(places)
        print(f'{len(places):5}  {what}')
        if verbose:
            for place in places:
                print(f'         {place}')

    every = [f for name, text in files.items() for f in functions(name, text)]
    print('1: enums, flags, numbers for kinds')
    tell('enums', lines(files, r'^\s*(pub(\(crate\))? )?enum '))
    tell('functions with a &mut that say by a bool whether they did it', (f'{p}: {n}' for p, n, ps, r, _ in every if '&mut' in ps and r == 'bool'))
    tell('numbers for kinds: tags, codes, 0 or the last number for none', lines(files, r'\btag\b|\bcode: u32|asked.*(u32|== 0)|\[rules; |!= 0 &&'))
    print('2: twins')
    where = defaultdict(set)
    for p, n, _, _, _ in every:
        where[n].add(p.split(':')[0])
    tell('names of functions in more than one file', (f'{n}: {" ".join(sorted(w))}' for n, w in sorted(where.items()) if len(w) > 1))
    print('3: loops')
    tell('while', lines(files, r'\bwhile\b(?! let)'))
    tell('for over numbers', lines(files, r'\bfor \S+ in .*\.\.'))
    print('4: by hand')
    tell('places compared by their numbers', lines(files, r'\.0 [!=]= '))
    tell('let .. else that returns none', spans(files, r'let [^;{]*=[^;{]* else \{\s*return None;\s*\}'))
    tell('a match that hands None or an error on', spans(files, r'None => None,|Err\((\w+)\) => Err\(\1\)|None => return None|if let Err\((\w+)\) = [^{]*\{\s*return Err\(\2\);'))
    tell('let .. else that returns false, or an is_some by a match', spans(files, r'let [^;{]*=[^;{]* else \{\s*return false;\s*\}|let Some\(_\)|let None'))
    print('5: facts in three contracts, parameters that travel')
    facts = defaultdict(set)
    for p, n, _, _, head in every:
        for clause in re.findall(r'requires[^{]*\{(.*?)\}\s*(?=requires|ensures|$)', head, flags=re.S):
            for word in set(re.findall(r'\b[A-Z]\w+', clause)):
                facts[word].add(p)
    tell('facts in the requires of three functions', (f'{w}: {len(ps)}' for w, ps in sorted(facts.items()) if len(ps) > 2))
    groups = defaultdict(set)
    for p, n, ps, _, _ in every:
        named = sorted(set(re.findall(r'\b(\w+): ', ps)))
        for i, a in enumerate(named):
            for b in named[i + 1:]:
                groups[a, b].add(p)
    tell('pairs of parameters in five signatures', (f'{a}, {b}: {len(ps)}' for (a, b), ps in sorted(groups.items()) if len(ps) > 4))
    print('6: buffers, triples, arrays')
    tell('arrays as fields', lines(files, r'^\s*(pub(\(crate\))? )?\w+: \[[^\]]*; '))
    tell('a length or a place beside a buffer', lines(files, r'^\s*(pub(\(crate\))? )?(len|top|start|end|depth): usize,$'))
    tell('functions over words from one place to another', (f'{p}: {n}' for p, n, ps, _, _ in every if re.search(r'\bfrom: usize', ps) and re.search(r'\bto: usize', ps) or re.search(r'\bstart: usize', ps) and re.search(r'\bend: usize', ps)))
    print('7: switches')
    tell('parameters that choose a step', (f'{p}: {n}' for p, n, ps, _, _ in every if re.search(r'\b(order: Order|letters: Letters|program: Program|ranked: bool|mark: (&str|Kind))', ps)))
    print('8: proofs')
    answers = sources(commit, 'Answers.antt', 'proofs')
    tell('answers', (f'{name}: {m}' for name, text in answers.items() for m in re.findall(r'^pub (\S+) :', text, flags=re.M)))
    lemmas = {n: t for n, t in sources(commit, '.antt', 'proofs').items() if not n.endswith(('Answers.antt', 'Invariants.antt', 'Lib.antt'))}
    tell('lemmas', (f'{name}: {m}' for name, text in lemmas.items() for m in re.findall(r'^(?:pub )?([^\s:]+) : ', text, flags=re.M)))


main()
