#!/usr/bin/env python3
"""Renames and merges crates, files, types, functions, definitions and words of this repository in one pass.

usage: tools/rename.py [--root DIR] [--dry] PLAN    PLAN is a file, or - for standard input; --dry writes nothing
       tools/rename.py [--root DIR] --check         ends with 1 where a path of the code names a crate or a file that is not there

A line of the plan is one of these; '#' begins a comment. Lines are done in order, each over all files as the lines before it left them.
Nothing is written before the last line is done.

    crate OLD NEW                 the folder, its line and its words in crates.txt, all paths, words in comments and docs
    merge OLD INTO                the files of crate OLD move into crate INTO
    module CRATE OLD NEW          src/OLD.rt and proofs/OLD/ of a crate, with all paths (a/b for src/a/b.rt)
    join CRATE OLD INTO           the text of src/OLD.rt goes to the end of src/INTO.rt, its proofs to proofs/INTO/
    spec CRATE OLD NEW            specs/OLD.antt, with all paths
    lemmas CRATE OLD NEW          proofs/OLD.antt, with all paths
    type CRATE OLD NEW            a struct, enum, trait, alias or record of a crate
    def CRATE OLD NEW             a definition of a crate's specs/ or proofs/
    fn CRATE MODULE OLD NEW       a free function of src/MODULE.rt (MODULE lib for src/lib.rt)
    method CRATE TYPE OLD NEW     a function in the impls of a type
    word GLOB OLD NEW             a bare identifier (field, variant, variable, clause) in the files that match GLOB, as
                                  crates/nav_live/** ; with ** alone in all files of crates/

A word is OLD between characters that are no letter, digit or underscore: `in_ok-walk.ensures` of a proof has the words in_ok, walk and
ensures. Strings in quotes stay as they are, but in docs.

A type or a definition is renamed in all files of crates/ with the word, where no other crate has one of that name and the file does not
import the name from the toolchain's libraries. Where another crate has one, it is renamed in the crate's own files that do not import the
name from elsewhere, and in files that import it from the crate. A function is renamed in its module's file, in files that import it or name
its path, and in the proofs of those modules; a method also where `.OLD(` or `Type::OLD` stands.

What is told: CLASH, a folder, a file or a name of the crate is taken, or lemmas and a source file differ in case only, and nothing is
written; TWICE, another crate has a public type of the new name; TAKEN, a changed file has the new word already; SEE, a word that looks like
no call; LEFT, a file with the word whose crate is not seen. Afterwards: `rt fmt`, `tools/rename.py --check`, `tools/names.py`, `rt check` of the
crates that changed, and `tools/claim.py`.
"""
import collections
import fnmatch
import os
import re
import sys

TOP = os.path.dirname(os.path.dirname(os.path.abspath(__file__)))
SKIP = ('/out/', '/.git/', 'docs/CLAIM.md', 'docs/pages/', 'docs/pictures/')
TEXTS = ('.rt', '.antt', '.edit', '.md', '.txt', '.py', '.sh', '.h', '.rs', '.c', '.toml', '.html', '.bazel', '.yml')
notes, clashes = [], []


def note(kind, text):
    notes.append((kind, text))


def clash(text):
    clashes.append(text)


def word(name):
    return re.compile(r'(?<![A-Za-z0-9_])' + re.escape(name) + r'(?![A-Za-z0-9_])')


def load(root):
    tree = {}
    for folder, dirs, files in os.walk(root):
        dirs[:] = [d for d in dirs if d not in ('out', '.git', '__pycache__', 'target')]
        for f in files:
            path = os.path.relpath(os.path.join(folder, f), root)
            if any(s in '/' + path for s in SKIP) or (not f.endswith(TEXTS) and f not in ('Makefile', 'stdin', 'stdout', 'args', 'status')):
                continue
            try:
                tree[path] = open(os.path.join(root, path), encoding='utf-8').read()
            except UnicodeDecodeError:
                pass
    return tree


def is_code(path):
    return path.startswith('crates/') and path.endswith(('.rt', '.antt', '.edit'))


def is_prose(path):
    return path.endswith('.md') or path == 'crates.txt'


def crate_of(path):
    return path.split('/')[1] if path.startswith('crates/') else None


def outside_strings(path, text, change):
    """Changes what stands outside of string literals in code; all of it elsewhere."""
    if not path.endswith('.rt'):
        return change(text)
    out = []
    for line in text.split('\n'):
        if '"' not in line or line.lstrip().startswith('//'):
            out.append(change(line))
            continue
        parts = re.split(r'((?<![\'\\])b?"(?:[^"\\]|\\.)*")', line)
        out.append(''.join(p if re.match(r'b?"', p) and 'extern' not in line else change(p) for p in parts))
    return '\n'.join(out)


class Tree:
    def __init__(self, root):
        self.root = root
        self.files = load(root)
        self.before = dict(self.files)
        self.moved = {}  # new path -> old path
        self.crates = self.read_crates()
        self.stems = {os.path.basename(p)[:-3] for p in self.files if p.endswith('.rt')}
        self.declared = None  # made when it is first asked for; a rename of a crate or an item ends it

    def read_crates(self):
        names = []
        for line in self.files['crates.txt'].split('\n'):
            line = line.split('#')[0]
            if ':' in line:
                names.append(line.split(':')[0].split()[0])
        return names

    def of(self, crate, *kinds):
        for p in list(self.files):
            if crate_of(p) == crate and (not kinds or p.endswith(kinds)):
                yield p

    def move(self, old, new):
        if new in self.files:
            clash(f'{new} is there already (from {old})')
            return
        self.files[new] = self.files.pop(old)
        self.moved[new] = self.moved.pop(old, old)

    def move_folder(self, old, new):
        for p in list(self.files):
            if p.startswith(old + '/'):
                self.move(p, new + p[len(old):])

    def sub(self, paths, pattern, new, strings=False):
        n = 0
        words = re.findall(r'[A-Za-z0-9_]{2,}', re.sub(r'\\[a-zA-Z]|\[[^\]]*\]|\(\?[<!=:]+[^)]*\)', ' ', pattern.pattern))
        hint = max(words, key=len) if words and '|' not in pattern.pattern else ''
        for p in list(paths):
            t = self.files[p]
            if hint and hint not in t:
                continue
            if strings:
                u = pattern.sub(new, t)
            else:
                u = outside_strings(p, t, lambda s: pattern.sub(new, s))
            if u != t:
                n += len(pattern.findall(t))
                self.files[p] = u
        return n

    # -- crates --------------------------------------------------------------------------------------------------
    def crate(self, old, new):
        if new in self.crates:
            return clash(f'crate {new} is there already')
        if old not in self.crates:
            return clash(f'no crate {old}')
        for p in self.files:
            if re.match(r'crates/\w+/src/' + new + r'\.rt$', p):
                note('SEE', f'{p}: a module with the name of the crate {new}: ambiguous where its crate stands on it')
        self.move_folder(f'crates/{old}', f'crates/{new}')
        self.name_crate(old, new)
        self.crates[self.crates.index(old)] = new

    def name_crate(self, old, new):
        n = self.sub([p for p in self.files if is_code(p)], re.compile(r'\bRattle\.' + old + r'(?=\.)'), 'Rattle.' + new)
        n += self.sub([p for p in self.files if p.endswith(('.rt', '.edit'))], re.compile(r'(?<![A-Za-z0-9_:.])' + old + r'(?=::)'), new)
        n += self.sub(self.files, re.compile(r'\bcrates/' + old + r'(?![A-Za-z0-9_])'), 'crates/' + new, True)
        n += self.sub([p for p in self.files if not p.startswith('crates/') or is_code(p)], re.compile('`' + old + r'(?=`|::)'), '`' + new, True)
        if '_' in old:
            bare = word(old)
            n += self.sub([p for p in self.files if not p.startswith('crates/')], bare, new, True)
            for p in [p for p in self.files if is_code(p)]:
                mark = '--' if p.endswith('.antt') else '//'
                lines = self.files[p].split('\n')
                for i, l in enumerate(lines):
                    if l.lstrip().startswith(mark) and bare.search(l):
                        lines[i] = bare.sub(new, l)
                self.files[p] = '\n'.join(lines)
                left = [l.strip() for l in lines if bare.search(l)]
                for l in left:
                    note('LEFT', f'{p}: {l[:100]}')
        else:
            n += self.sub(['crates.txt'], word(old), new)
        self.declared = None
        print(f'crate {old} -> {new}: {n} places')

    def merge(self, old, into):
        if old not in self.crates or into not in self.crates:
            return clash(f'merge {old} {into}: no such crate')
        o, i = f'crates/{old}', f'crates/{into}'
        for lib in ('specs/Lib.antt', 'proofs/Lib.antt'):
            a, b = self.files.pop(f'{o}/{lib}', ''), self.files.get(f'{i}/{lib}', '')
            if a:
                self.files[f'{i}/{lib}'] = '\n'.join(list(dict.fromkeys(b.strip('\n').split('\n') + a.strip('\n').split('\n')))).strip('\n') + '\n'
        a, b = self.files.pop(f'{o}/src/lib.rt'), self.files[f'{i}/src/lib.rt']
        self.files[f'{i}/src/lib.rt'] = join_libs(b, a, old)
        self.move_folder(o, i)
        # the rows of crates.txt
        rows, own = [], {}
        for line in self.files['crates.txt'].split('\n'):
            m = re.match(r'(\w+)([^:#]*):(.*)$', line)
            if m:
                own[m[1]] = m[3].split()
        both = [d for d in own[into] + [x for x in own[old] if x not in own[into]] if d not in (old, into)]
        for line in self.files['crates.txt'].split('\n'):
            m = re.match(r'(\w+)([^:#]*):(.*)$', line)
            if not m:
                rows.append(line)
            elif m[1] == old:
                continue
            else:
                ds = both if m[1] == into else list(dict.fromkeys(into if d == old else d for d in m[3].split()))
                rows.append(f'{m[1]}{m[2]}:' + ''.join(' ' + d for d in ds))
                if m[1] != into and into in ds and m[1] in both:
                    clash(f'merge {old} {into}: {m[1]} stands on {into} and is stood on')
        self.files['crates.txt'] = '\n'.join(rows)
        self.crates.remove(old)
        self.name_crate(old, into)
        lib = f'crates/{into}/specs/Lib.antt'
        if lib in self.files:  # what was passed on from the other crate stands in this one now
            self.files[lib] = re.sub(r'(?m)^pub use Rattle\.' + into + r'\.specs\.\w+\n', '', self.files[lib])
        rt = [p for p in self.of(into, '.rt', '.edit')]
        self.sub(rt, re.compile(r'(?<![A-Za-z0-9_:.])' + into + r'(?=::)'), 'crate')
        for p in rt:
            if re.search(r'^use crate::\{', self.files[p], re.M):
                note('SEE', f'{p}: `use crate::{{..}}` reads the root\'s `pub use` lines')
        print(f'merge {old} into {into}')

    # -- files ---------------------------------------------------------------------------------------------------
    def module(self, crate, old, new):
        base = f'crates/{crate}'
        if f'{base}/src/{old}.rt' not in self.files:
            return clash(f'no {base}/src/{old}.rt')
        self.move(f'{base}/src/{old}.rt', f'{base}/src/{new}.rt')
        self.move_folder(f'{base}/src/{old}', f'{base}/src/{new}')
        self.move_folder(f'{base}/proofs/{old}', f'{base}/proofs/{new}')
        a, b = old.split('/')[-1], new.split('/')[-1]
        up = f'{base}/src/lib.rt' if '/' not in old else f'{base}/src/{os.path.dirname(old)}.rt'
        if up not in self.files:
            up = f'{base}/src/main.rt'
        self.sub([up], re.compile(r'(?m)^((?:pub(?:\(crate\))? )?mod )' + a + r'(?=;)'), r'\1' + b)
        self.sub([up], re.compile(r'(?m)^((?:pub(?:\(crate\))? )?use (?:self::|crate::)?)' + a + r'(?=::)'), r'\1' + b)
        self.paths(crate, old, new)

    def paths(self, crate, old, new):
        o, n = old.replace('/', '.'), new.replace('/', '.')
        code = [p for p in self.files if is_code(p)]
        for kind in ('proofs', r'specs\.declared', r'specs\.contracts'):
            self.sub(code, re.compile(r'\bRattle\.' + crate + r'\.' + kind + r'\.' + re.escape(o) + r'(?=[.\s{;])'),
                     f'Rattle.{crate}.' + kind.replace('\\', '') + '.' + n)
        o, n = old.replace('/', '::'), new.replace('/', '::')
        own = [p for p in self.of(crate, '.rt', '.edit')]
        self.sub(own, re.compile(r'(?<![A-Za-z0-9_:])(crate|super|self)::' + o + r'(?=::|;)'), r'\1::' + n)
        self.sub(code, re.compile(r'(?<![A-Za-z0-9_:])' + crate + '::' + o + r'(?=::)'), f'{crate}::{n}')
        self.sub([p for p in self.of(crate, '.edit')], re.compile(r'(?m)^(file: src/)' + re.escape(old) + r'(?=\.rt)'), r'\1' + new)
        self.sub([p for p in self.of(crate, '.edit')], re.compile(r'(?m)^(file: proofs/)' + re.escape(old) + r'(?=/)'), r'\1' + new)
        for p in own:
            if re.search(r'use (crate|super)::\{[^}]*\b' + old.split('/')[-1] + r'\b', self.files[p]):
                note('SEE', f'{p}: a list of imports names {old}')

    def join(self, crate, old, into):
        base = f'crates/{crate}'
        a, b = f'{base}/src/{old}.rt', f'{base}/src/{into}.rt'
        if a not in self.files or b not in self.files:
            return clash(f'join {crate} {old} {into}: no such file')
        head, rest = split_head(self.files.pop(a))
        head2, rest2 = split_head(self.files[b])
        # what the two imported from each other is at hand now
        own = set(re.findall(r'(?m)^\s*(?:pub(?:\([a-z]+\))? )?(?:const )?(?:fn|struct|enum|const|trait|type) (\w+)', rest + '\n' + rest2))
        both = join_uses(uses_of(head2) + uses_of(head), old, into, own)
        docs = [l for l in head2 if l.startswith('//!')] + ['//!'] + [l for l in head if l.startswith('//!')]
        self.files[b] = '\n'.join(docs) + '\n\n' + '\n'.join(both) + '\n\n' + rest2.strip('\n') + '\n\n' + rest.strip('\n') + '\n'
        for p in [p for p in self.files if p.startswith(f'{base}/proofs/{old}/')]:
            self.move(p, f'{base}/proofs/{into}/' + p[len(f'{base}/proofs/{old}/'):])
        self.sub([f'{base}/src/lib.rt'], re.compile(r'(?m)^(?:pub(?:\(crate\))? )?mod ' + old + r';\n'), '', True)
        self.sub([f'{base}/src/lib.rt'], re.compile(r'(?m)^((?:pub(?:\(crate\))? )?use )' + old + r'(?=::)'), r'\1' + into)
        self.paths(crate, old, into)
        names = re.findall(r'^(?:pub(?:\(crate\))? )?(?:fn|struct|enum|const|trait|type) (\w+)', rest + '\n' + rest2, re.M)
        for n in sorted({n for n in names if names.count(n) > 1}):
            clash(f'join {crate} {old} {into}: {n} stands in both')

    def antt(self, crate, folder, old, new):
        self.move(f'crates/{crate}/{folder}/{old}.antt', f'crates/{crate}/{folder}/{new}.antt')
        self.sub([f'crates/{crate}/{folder}/Lib.antt'], re.compile(r'(?m)^((?:pub )?mod )' + old + r'$'), r'\1' + new)
        code = [p for p in self.files if is_code(p)]
        self.sub(code, re.compile(r'\bRattle\.' + crate + r'\.' + folder + r'\.' + old + r'(?![A-Za-z0-9_])'), f'Rattle.{crate}.{folder}.{new}')
        self.sub([p for p in self.files if is_prose(p) or p.endswith('.py')], re.compile(r'\b' + old + r'(?=\.antt)'), new, True)

    # -- names ---------------------------------------------------------------------------------------------------
    def has_item(self, crate, name):
        """The crate's code or definitions declare a type or a definition of the name."""
        if self.declared is None:
            decl = re.compile(r'(?m)^\s*(?:pub(?:\(crate\))? )?(?:unsafe )?(?:struct|enum|trait|type|union) (\w+)')
            defs = re.compile(r'(?m)^(?:(?:unfoldable|abbrev|opaque|record|data|class|pub) )*(\w+) (?:\([^)]*\) )*:')
            self.declared = collections.defaultdict(set)
            for p, t in self.files.items():
                if p.endswith('.rt') and p.startswith('crates/'):
                    self.declared[crate_of(p)].update(decl.findall(t))
                elif p.endswith('.antt') and p.startswith('crates/'):
                    self.declared[crate_of(p)].update(defs.findall(t))
        return name in self.declared[crate]

    def imports(self, text, crate, name):
        """The name is imported from the crate, or its path stands in the text."""
        w = word(name)
        for m in re.finditer(r'\buse ([^;\n]*(?:\{[^}]*\})?)', text):
            u = m[1]
            if re.match(r'(Rattle\.)?' + crate + r'(::|\.)', u) and w.search(u):
                return True
        return bool(re.search(r'(?<![A-Za-z0-9_])' + crate + r'::(?:\w+::)*' + name + r'(?![A-Za-z0-9_])', text) or
                    re.search(r'\bRattle\.' + crate + r'\.[A-Za-z0-9_.]*\b' + name + r'(?![A-Za-z0-9_])', text))

    def foreign(self, text, name):
        """The name is imported from the toolchain's own libraries."""
        w = word(name)
        for m in re.finditer(r'\buse ([A-Za-z_][\w.:]*?)(?:\.|::)\{([^}]*)\}', text):
            path = re.split(r'\.|::', m[1])
            own = path[1] if path[0] == 'Rattle' and len(path) > 1 else path[0]
            if w.search(m[2]) and own not in self.crates and own not in ('crate', 'super', 'self') and own not in self.stems:
                return True
        return False

    def item(self, kind, crate, old, new):
        w = word(old)
        others = [c for c in self.crates if c != crate and self.has_item(c, old)]
        if not self.has_item(crate, old):
            note('SEE', f'{kind} {crate} {old}: no declaration was found')
        if kind == 'type':
            for c in self.crates:
                if self.has_item(c, new):
                    (clash if c == crate else lambda t: note('TWICE', t))(f'{c} has {new} already')
        code = [p for p in self.files if is_code(p) and old in self.files[p] and w.search(self.files[p]) and not self.foreign(self.files[p], old)]
        if not others:
            paths = code
        else:
            paths = []
            for p in code:
                t = self.files[p]
                if self.imports(t, crate, old):
                    paths.append(p)
                elif crate_of(p) == crate and not any(self.imports(t, c, old) for c in others):
                    paths.append(p)
                elif crate_of(p) not in others and not re.search(r'(?m)^\s*(?:pub |ghost )*use [^;\n]*' + w.pattern, t) and not re.search(r'use [^;]*\{[^}]*' + w.pattern + r'[^}]*\}', t):
                    note('LEFT', f'{p}: {old} is named there, of which crate is not seen (also in {", ".join(others)})')
        for p in paths:
            if word(new).search(self.files[p]):
                note('TAKEN', f'{p}: {new} stands there already')
        inner = re.compile(r'(?<!\.proofs\.)(?<!\.specs\.)(?<!mod )' + w.pattern)
        n = 0
        for p in paths:
            if p.endswith('.antt'):  # a path of the toolchain's libraries has parts of its own
                lines = self.files[p].split('\n')
                for i, l in enumerate(lines):
                    m = re.match(r'(?:pub )?use (\w+)(?:\.(\w+))?', l)
                    if not m or (m[1] == 'Rattle' and m[2] in self.crates):
                        lines[i], k = inner.subn(new, l)
                        n += k
                self.files[p] = '\n'.join(lines)
            else:
                n += self.sub([p], inner, new)
        prose = [p for p in self.files if not p.startswith('crates/')]
        if not others:
            n += self.sub(prose, re.compile('`' + old + r'(?![A-Za-z0-9_])'), '`' + new, True)
            n += self.sub([p for p in prose if p.endswith('.py')], w, new, True)
        for p in list(self.files):  # the folders of proofs of a type's functions
            parts = p.split('/')
            if len(parts) > 4 and parts[1] == crate and parts[2] == 'proofs' and old in parts[3:-1]:
                parts[3:-1] = [new if x == old else x for x in parts[3:-1]]
                self.move(p, '/'.join(parts))
        self.declared[crate].discard(old)
        self.declared[crate].add(new)
        print(f'{kind} {crate} {old} -> {new}: {n} places in {len(paths)} files' + (f' (also in {", ".join(others)}: by imports)' if others else ''))

    def function(self, crate, module, old, new, owner=None):
        w = word(old)
        base = f'crates/{crate}'
        seen = set()
        for p in [p for p in self.files if p.endswith('.rt')]:
            t = self.files[p]
            if not w.search(t):
                continue
            own = crate_of(p) == crate
            if owner:
                if re.search(r'\.' + old + r'\s*(::<[^>]*>)?\(', t) or re.search(r'\b(' + owner + r'|Self)::' + old + r'\b', t) or (own and re.search(r'impl[^{]*\b' + owner + r'\b', t)):
                    seen.add(p)
            elif p == f'{base}/src/{module}.rt' or (own and re.search(r'\b' + module.split('/')[-1] + r'::(\{[^}]*)?\b' + old + r'\b', t)) \
                    or self.imports(t, crate, old) or p == f'{base}/src/lib.rt':
                seen.add(p)
        folders = set()
        for p in seen:
            c, m = crate_of(p), re.sub(r'^crates/\w+/src/|\.rt$', '', p)
            folders.add(f'crates/{c}/proofs/{m}/' if m not in ('lib', 'main') else f'crates/{c}/proofs/')
        proofs = [p for p in self.files if p.endswith('.antt') and w.search(self.files[p]) and any(p.startswith(f) for f in folders)]
        edits = [p for p in self.files if p.endswith('.edit') and crate_of(p) in {crate_of(s) for s in seen} and w.search(self.files[p])]
        for p in list(seen) + proofs + edits:
            if word(new).search(self.files[p]):
                note('TAKEN', f'{p}: {new} stands there already')
            for l in self.files[p].split('\n'):
                if w.search(l) and not l.lstrip().startswith(('//', '--')) and not re.search(
                        r'\b' + old + r'\s*(::<[^>]*>)?\(|\buse |[.-]' + old + r'\b|\b' + old + r'[-.]', l):
                    note('SEE', f'{p}: {l.strip()[:110]}')
        n = self.sub(list(seen) + proofs + edits, w, new)
        for p in list(self.files):
            parts = p.split('/')
            if len(parts) > 4 and parts[1] == crate and parts[2] == 'proofs' and old in parts[3:-1]:
                inside = parts[3:-1]
                at = inside.index(old)
                if (owner and at > 0 and inside[at - 1] == owner) or (not owner and '/'.join(inside[:at]) == (module if module != 'lib' else '')):
                    inside[at] = new
                    self.move(p, '/'.join(parts[:3] + inside + parts[-1:]))
        n += self.sub([p for p in self.files if is_prose(p)], re.compile('`' + old + '`'), f'`{new}`', True) if '_' in old else 0
        print(f'fn {crate}::{owner or module}::{old} -> {new}: {n} places')

    def bare(self, glob, old, new):
        glob = 'crates/**' if glob == '**' else glob
        paths = [p for p in self.files if fnmatch.fnmatch(p, glob) and (is_code(p) or not p.startswith('crates/')) and word(old).search(self.files[p])]
        for p in paths:
            if word(new).search(self.files[p]):
                note('TAKEN', f'{p}: {new} stands there already')
        print(f'word {glob} {old} -> {new}: {self.sub(paths, word(old), new)} places in {len(paths)} files')

    # -- the end -------------------------------------------------------------------------------------------------
    def write(self):
        gone = [p for p in self.before if p not in self.files]
        for p in gone:
            os.remove(os.path.join(self.root, p))
        n = 0
        for p, t in self.files.items():
            if self.before.get(p) != t:
                full = os.path.join(self.root, p)
                os.makedirs(os.path.dirname(full) or '.', exist_ok=True)
                old = os.path.join(self.root, self.moved.get(p, p))
                mode = os.stat(old).st_mode if os.path.exists(old) else None
                open(full, 'w', encoding='utf-8').write(t)
                if mode:
                    os.chmod(full, mode)
                n += 1
        for p in gone:  # empty folders
            d = os.path.dirname(os.path.join(self.root, p))
            while d.startswith(self.root) and d != self.root and os.path.isdir(d) and not [x for x in os.listdir(d) if x != 'out']:
                if os.path.isdir(os.path.join(d, 'out')):
                    note('SEE', f'{d}: only out/ is left; delete it')
                    break
                os.rmdir(d)
                d = os.path.dirname(d)
        print(f'{n} files written, {len(gone)} gone')

    def cases(self):
        """proofs/Places.antt beside src/places.rt is refused: the prover's own module of the file has that name but for case."""
        for p in sorted(self.files):
            m = re.match(r'crates/(\w+)/(proofs|specs)/(\w+)\.antt$', p)
            if m and m[2] == 'proofs' and m[3] != 'Lib':
                for q in self.files:
                    n = re.match(rf'crates/{m[1]}/src/(\w+)\.rt$', q)
                    if n and n[1].lower() == m[3].lower():
                        clash(f'{p} and {q} differ in case only: rename the lemmas')


def split_head(text):
    """The lines of a source file up to its last import, and the rest."""
    lines, i, last = text.split('\n'), 0, 0
    while i < len(lines):
        l = lines[i]
        if l.startswith('//!') or l.startswith('#![') or not l.strip():
            last = i + 1
        elif re.match(r'(ghost )?use |pub use |mod |pub mod ', l):
            while ';' not in lines[i]:
                i += 1
            last = i + 1
        else:
            break
        i += 1
    return lines[:last], '\n'.join(lines[last:])


def uses_of(head):
    text, out = '\n'.join(l for l in head if not l.startswith('//!')), []
    for m in re.finditer(r'(?m)^(?:ghost )?use [^;]*;', text):
        out.append(re.sub(r'\s+', ' ', m[0]))
    return out


def join_uses(uses, old, into, own=()):
    """One import a path, with the names of all; what the two files import from each other is left out."""
    by, order = {}, []
    for u in uses:
        m = re.match(r'(ghost use|use) (.*?)(?:(\.|::)\{(.*)\})?;$', u)
        kind, path, sep, names = m[1], m[2], m[3], m[4]
        if path in (f'crate::{old}', f'crate::{into}') or re.match(rf'crate::({old}|{into})::\w+$', path):
            continue
        if names is None and kind == 'use' and '::' in path and ' as ' not in path:
            path, _, last = path.rpartition('::')
            sep, names = '::', last
        key = (kind, path, sep)
        if key not in by:
            by[key] = []
            order.append(key)
        for n in (names or '').split(','):
            if kind == 'use' and path == 'crate' and n.strip() in own:
                continue
            if n.strip() and n.strip() not in by[key]:
                by[key].append(n.strip())
    out = []
    for kind, path, sep in sorted(order, key=lambda k: (k[0] != 'ghost use', 0)):
        names = by[(kind, path, sep)]
        if not names and path == 'crate':
            continue
        if not names:
            out.append(f'{kind} {path};')
        elif len(names) == 1 and kind == 'use':
            out.append(f'{kind} {path}{sep}{names[0]};')
        else:
            out.append(f'{kind} {path}{sep}{{' + ', '.join(names) + '};')
        if kind == 'ghost use' and not any(o.startswith('use ') for o in out):
            pass
    i = next((i for i, o in enumerate(out) if o.startswith('use ')), None)
    if i:
        out.insert(i, '')
    return out


def join_libs(into, old, name):
    """The root file of a crate with the modules and the public names of another."""
    def parts(t):
        ls = t.split('\n')
        doc = [l for l in ls if l.startswith('//!')]
        attrs = [l for l in ls if l.startswith('#![')]
        text = '\n'.join(l for l in ls if not l.startswith(('//!', '#![')))
        mods = re.findall(r'(?m)^(?:#\[[^\]]*\]\n)?(?:pub(?:\(crate\))? )?mod \w+;', text)
        uses = re.findall(r'(?m)^pub use [^;]*;', text)
        for x in mods + uses:
            text = text.replace(x, '')
        return doc, attrs, mods, uses, text.strip()
    d1, a1, m1, u1, r1 = parts(into)
    d2, a2, m2, u2, r2 = parts(old)
    twice = set(m1) & set(m2)
    if twice:
        clash(f'merge {name}: modules of both: {", ".join(sorted(twice))}')
    if r2:
        note('SEE', f'merge {name}: its root file has more than modules and public names: {r2[:80]!r}')
    out = d1 + ['//!'] + d2 + list(dict.fromkeys(a1 + a2)) + [''] + sorted(m1 + m2) + [''] + sorted(u1 + u2)
    out = [u for u in out]
    return '\n'.join(out) + '\n' + (f'\n{r1}\n' if r1 else '') + (f'\n{r2}\n' if r2 else '')


def check(tree):
    """Paths that name no crate or no file of this repository."""
    bad = 0
    for p, t in sorted(tree.files.items()):
        if not is_code(p):
            continue
        for m in re.finditer(r'\bRattle\.(\w+)\.(specs|proofs)\.(\w+)', t):
            c, f, n = m[1], m[2], m[3]
            if c not in tree.crates or n in ('declared', 'contracts'):
                continue
            if f'crates/{c}/{f}/{n}.antt' not in tree.files and not any(q.startswith(f'crates/{c}/{f}/{n}/') for q in tree.files) \
                    and f'crates/{c}/src/{n}.rt' not in tree.files and not re.search(r'pub use Rattle\.[\w.]*\b' + n + r'\b', tree.files.get(f'crates/{c}/{f}/Lib.antt', '')):
                if not any(f'/{f}/' in q and q.startswith(f'crates/{c}/') and q.endswith(f'/{n}/Answers.antt') for q in tree.files):
                    if not (f == 'proofs' and re.search(r'\.(Goals|Given)\b', t[m.start():m.start() + 200])):
                        print(f'{p}: {m[0]} names no file')
                        bad += 1
    for p, t in sorted(tree.files.items()):  # the files of a folder, and the lines that name them
        if p.endswith(('/proofs/Lib.antt', '/specs/Lib.antt')):
            folder = p[:-len('Lib.antt')]
            named = set(re.findall(r'(?m)^(?:pub )?mod (\w+)', t))
            there = {q[len(folder):-len('.antt')] for q in tree.files if q.startswith(folder) and q.endswith('.antt') and '/' not in q[len(folder):]} - {'Lib'}
            for n in sorted(there - named):
                print(f'{p}: no line names {n}.antt')
                bad += 1
            for n in sorted(m for m in named - there if not any(q.startswith(f'{folder}{m}/') for q in tree.files)):
                print(f'{p}: {n} names no file')
                bad += 1
    print(f'{bad} paths without a file')
    return 1 if bad else 0


def main(args):
    root, dry, plan, only_check = TOP, False, None, False
    while args:
        a = args.pop(0)
        if a == '--root':
            root = args.pop(0)
        elif a == '--dry':
            dry = True
        elif a == '--check':
            only_check = True
        elif a in ('-h', '--help'):
            print(__doc__)
            return 0
        else:
            plan = a
    tree = Tree(os.path.abspath(root))
    if only_check:
        return check(tree)
    if plan is None:
        print(__doc__)
        return 2
    text = sys.stdin.read() if plan == '-' else open(plan, encoding='utf-8').read()
    for no, line in enumerate(text.split('\n'), 1):
        ws = line.split('#')[0].split()
        if not ws:
            continue
        kind, rest = ws[0], ws[1:]
        try:
            if kind == 'crate':
                tree.crate(*rest)
            elif kind == 'merge':
                tree.merge(*rest)
            elif kind == 'module':
                tree.module(*rest)
            elif kind == 'join':
                tree.join(*rest)
            elif kind == 'spec':
                tree.antt(rest[0], 'specs', *rest[1:])
            elif kind == 'lemmas':
                tree.antt(rest[0], 'proofs', *rest[1:])
            elif kind in ('type', 'def'):
                tree.item(kind, *rest)
            elif kind == 'fn':
                tree.function(*rest)
            elif kind == 'method':
                tree.function(rest[0], '', rest[2], rest[3], owner=rest[1])
            elif kind == 'word':
                tree.bare(*rest)
            else:
                clash(f'line {no}: {kind} is no kind')
        except (TypeError, KeyError) as e:
            clash(f'line {no}: {line.strip()}: {e!r}')
    tree.cases()
    for k in ('TWICE', 'TAKEN', 'SEE', 'LEFT'):
        for t in dict.fromkeys(t for kk, t in notes if kk == k):
            print(k, t)
    for c in clashes:
        print('CLASH', c)
    if clashes:
        print('nothing is written')
        return 1
    if dry:
        print('dry: nothing is written')
        return 0
    tree.write()
    return 0


if __name__ == '__main__':
    sys.exit(main(sys.argv[1:]))
