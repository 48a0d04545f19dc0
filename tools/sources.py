"""Reads crates.txt with its layers, and the functions of .rt files, for the scripts beside it. It knows no more of the language than they need."""
import functools
import glob
import os
import re

TOP = os.path.dirname(os.path.dirname(os.path.realpath(__file__)))
HIDDEN = re.compile(r'//[^\n]*|b?r"[^"]*"|b?"(?:\\.|[^"\\])*"|b?\'(?:\\[^u]|\\u\{[^}]*\}|[^\\\'\n])\'', re.S)
OWNER = re.compile(r'^(?:impl\b|(?:pub(?:\([a-z]+\))? )?trait\b)[^\n]*', re.M)
FUNCTION = re.compile(r'^ *(?:(pub)(?:\(([a-z]+)\))? )?(?:const |unsafe )*fn (\w+)', re.M)
CLAUSE = re.compile(r'\s*(requires|ensures)\*?[ \n]*(\w*) *\{')


def crates():
    """The crates of crates.txt in its order, each with those that it uses."""
    found = {}
    with open(TOP + '/crates.txt', encoding='utf-8') as file:
        for line in file:
            name, colon, below = line.split('#')[0].partition(':')
            if colon:
                found[name.strip()] = below.split()
    return found


LAYER = re.compile(r'# ([A-Z][A-Za-z ]*): (.*)')


SPELLED = {'HTTP': 'HTTP', 'OPENRTB': 'OpenRTB'}
CARRIED = re.compile(r'(.*?) Carried by ([\w:]+) of (\w+), (\w+)\.')


class Layer:
    """A layer of crates.txt: its name, what it is, the call, its crate and the clause that carry it (or None), its crates, and a sentence on
    each that has one."""

    def __init__(self, name, words):
        carried = CARRIED.fullmatch(words)
        self.carried = carried.groups()[1:] if carried else None
        self.name, self.words, self.crates, self.says = name, carried.group(1) if carried else words, [], {}

    def page(self):
        """The name of a page about it."""
        return self.name.lower().replace(' ', '-') + '.md'


def layers():
    """The layers of crates.txt from the top down: a line `# LAYER: words. Carried by CALL of CRATE, CLAUSE.` in capitals begins one, and a
    comment above a crate's line is about it."""
    found, before = [], ''
    with open(TOP + '/crates.txt', encoding='utf-8') as file:
        for line in file:
            line = line.strip()
            head = LAYER.fullmatch(line)
            if head and head.group(1).isupper():
                name = ' '.join(SPELLED.get(word, word.lower()) for word in head.group(1).split())
                found.append(Layer(name[0].upper() + name[1:], head.group(2)))
            elif found and re.match(r'\w+ *:', line):
                name = line.partition(':')[0].strip()
                found[-1].crates.append(name)
                if before:
                    found[-1].says[name] = before
            before = line[2:] if line.startswith('# ') and not (head and head.group(1).isupper()) else ''
    return found


@functools.lru_cache(maxsize=None)
def of_tests():
    return frozenset(name for layer in layers() if layer.name == 'Tests' for name in layer.crates)


def is_of_tests(crate):
    """Whether it is a crate of tests, which no other crate uses."""
    return crate in of_tests()


def read(path):
    with open(path, encoding='utf-8') as file:
        return file.read()


def code_files(crate):
    return sorted(glob.glob('%s/crates/%s/src/**/*.rt' % (TOP, crate), recursive=True))


def blanked(text):
    """The text with its comments, strings and characters blank, each place as it was."""
    return HIDDEN.sub(lambda m: re.sub(r'[^\n]', ' ', m.group()), text)


def after_brace(bare, at):
    """The place after the brace that closes the one at this place."""
    depth = 0
    for place in range(at, len(bare)):
        depth += {'{': 1, '}': -1}.get(bare[place], 0)
        if depth == 0:
            return place + 1
    return len(bare)


class Function:
    """A function: its names, its lines from the word fn on, and its clauses as (kind, label, text, line)."""

    def __init__(self, path, text, bare, match, owner):
        self.path, self.owner, self.name = path, owner, match.group(3)
        self.public = match.group(1) is not None and match.group(2) is None
        self.line = text.count('\n', 0, match.start()) + 1
        self.clauses = []
        at = re.compile(r'\b(?:requires|ensures)\b|\{|;').search(re.sub(r';(?=[^;{}]*\])', ' ', bare), match.end()).start()
        while True:
            clause = CLAUSE.match(bare, at)
            if clause is None:
                break
            end = after_brace(bare, clause.end() - 1)
            begin = clause.start() + len(clause.group()) - len(clause.group().lstrip())
            self.clauses.append((clause.group(1), clause.group(2), text[clause.end():end - 1].strip(), text.count('\n', 0, begin) + 1))
            at = end
        rest = re.compile(r'\s*').match(bare, at).end()
        self.begin, self.body = match.start(), rest
        self.end = after_brace(bare, rest) if bare[rest:rest + 1] == '{' else rest
        self.last_line = text.count('\n', 0, self.end) + 1
        self.body_line = text.count('\n', 0, rest) + 1

    def labels(self):
        return {label for _, label, _, _ in self.clauses}


def owner_of(line):
    """The type or trait of an impl's or trait's first line, and what it implements."""
    line = re.sub(r'^(impl|(pub(\([a-z]+\))? )?trait)', '', re.sub(r'\{.*', '', line)).strip()
    if line.startswith('<'):
        depth, at = 0, 0
        for at, sign in enumerate(line):
            depth += {'<': 1, '>': -1}.get(sign, 0)
            if depth == 0:
                break
        line = line[at + 1:].strip()
    words = re.sub(r'<.*?>(?= |$)', '', line.split(' where ')[0])
    words = [re.sub(r'<.*', '', w.strip()) for w in words.split(' for ')]
    return words[-1].split(':')[0].strip().split('::')[-1].split(' ')[0]


def functions(path, text=None):
    """The functions of a file, in their order, or of this text of it."""
    text = read(path) if text is None else text
    bare = blanked(text)
    owners = [(m.start(), after_brace(bare, bare.find('{', m.start())), owner_of(m.group())) for m in OWNER.finditer(bare)]
    found = []
    for match in FUNCTION.finditer(bare):
        owner = next((name for begin, end, name in owners if begin < match.start() < end), None)
        found.append(Function(path, text, bare, match, owner))
    return found
