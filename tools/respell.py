#!/usr/bin/env python3
"""respell.py [FOLDER]: brings this repository's own definitions and lemmas to today's spelling, words in snake case.

Run once, after port.py, at the top. In .antt files a '-' inside a name becomes '_', outside comments and strings; in
.rt files the same outside comments and strings; in comments and pages only inside backquotes, and only where the whole
is a name of the .antt files. Functions of src/, exported names, strings, inputs and outputs stay as they are. It names
the files in which two names fall together."""
import os, re, sys

INSIDE = re.compile(r"(?<=[\w'½¼¾²])-(?=[\w½¼¾])")
NAME = re.compile(r"[\w'½¼¾²]+(?:-[\w'½¼¾²]+)+")


USE = re.compile(r"^\s*(?:pub )?(?:ghost )?use ([^\s;{]+?)(?:\.\{([^}]*)\}| as ([\w'-]+)|;?$)", re.M)


def kept(text, crates):
    """What a file takes from a library of the kit, by name or by a module's name of its own: those keep their spelling."""
    names, modules = set(), set()
    for m in USE.finditer(text):
        path, listed, short = m.groups()
        root = path.split('.')
        if root[0] == 'Rattle' and len(root) > 1 and root[1] in crates:
            continue
        modules |= {short or root[-1]} if listed is None else set(re.findall(r"[\w'-]+", listed))
        for name in NAME.findall(re.sub(r"[^,]* as ", "", listed or '')) + NAME.findall(listed or ''):
            names.add(name)
    return names, modules


def respelled(piece, names, modules):
    def turn(m):
        if m.group(0) in names or m.group(0)[0].isdigit():
            return m.group(0)
        before = re.search(r"([\w'-]+)\.$", piece[:m.start()])
        if before and before.group(1) in modules:
            return m.group(0)
        return INSIDE.sub('_', m.group(0))
    piece = re.sub(r"(use )([^\s;{]+)", lambda m: m.group(1) + m.group(2).replace('-', '\0'), piece)
    return NAME.sub(turn, piece).replace('\0', '-')


def parts(text, mark):
    """(is_code, piece): code, and what is a comment to the line's end or a string."""
    other = re.compile(r'(%s[^\n]*)|("(?:\\.|[^"\\\n])*")' % mark)
    at = 0
    for m in other.finditer(text):
        yield True, text[at:m.start()]
        yield False, m.group(0)
        at = m.end()
    yield True, text[at:]


def files(top, ends):
    for folder, folders, names in os.walk(top):
        folders[:] = [f for f in folders if f not in ('.git', 'out', 'target')]
        for name in sorted(names):
            if name.endswith(ends):
                yield os.path.join(folder, name)


def main(top):
    code = list(files(os.path.join(top, 'crates'), ('.antt', '.rt')))
    crates = set(os.listdir(os.path.join(top, 'crates')))
    mark = {'.antt': r'--(?= |\n|$|-)', '.rt': r'//'}
    texts, names = {}, set()
    for path in code:
        texts[path] = open(path).read()
        kind = os.path.splitext(path)[1]
        own = set()
        for is_code, piece in parts(texts[path], mark[kind]):
            if is_code:
                own |= set(NAME.findall(piece)) if kind == '.antt' else set()
        names |= own
        words = set(re.findall(r"[\w'½¼¾²]+", texts[path]))
        for name in sorted(own):
            if INSIDE.sub('_', name) in words and not path.endswith('/Proof.antt'):
                print('falls together in', path + ':', name)

    def quoted(text):
        def turn(m):
            return NAME.sub(lambda n: INSIDE.sub('_', n.group(0)) if n.group(0) in names else n.group(0), m.group(0))
        return re.sub(r'`[^`\n]+`', turn, text)

    for path in code:
        kind = os.path.splitext(path)[1]
        names_kept, modules = kept(texts[path], crates)
        new = ''.join(respelled(p, names_kept, modules) if c else quoted(p) for c, p in parts(texts[path], mark[kind]))
        if new != texts[path]:
            open(path, 'w').write(new)
    for path in files(top, '.md'):
        old = open(path).read()
        new = quoted(old)
        if new != old:
            open(path, 'w').write(new)


main(sys.argv[1] if len(sys.argv) > 1 else '.')
