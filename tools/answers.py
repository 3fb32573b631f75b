#!/usr/bin/env python3
"""answers.py NAMES OLD CRATE [FUNCTION..]: turns the walking proofs of functions, Proof.antt, into Invariants.antt and Answers.antt.

NAMES is the names.json that `rt check --generated DIR --old-names` writes in the crate's folder; OLD the folder of the
old proofs (proofs/ as port.py and respell.py left it); CRATE the crate's folder. A FUNCTION is a path below proofs/;
without any, all whose folder in CRATE has no proof. Written once for the port; the check says what it could not turn."""
import json, os, re, sys

NAME = re.compile(r"[\w'½¼¾²₀-₉-]+")


def plain(name):
    return name.replace('-', '_')


def declarations(text):
    """Top-level pieces: each a list of lines that begins at a line with no indent; comments before go with the next."""
    pieces, lead = [], []
    for line in text.rstrip('\n').split('\n'):
        if line.startswith('--'):
            lead.append(line)
        elif line == '':
            lead.append(line)
        elif line[0] != ' ' and not line.startswith('unfolding') and line[0] not in ')}':
            if lead == [] and pieces and pieces[-1] and goes_on(pieces[-1], line):
                pieces[-1].append(line)
            else:
                pieces.append(lead + [line])
            lead = []
        else:
            if lead:
                pieces[-1] += lead
                lead = []
            pieces[-1].append(line)
    return pieces


def goes_on(piece, line):
    head = [l for l in piece if l and not l.startswith('--')][0]
    m = re.match(r"(?:(?:abbrev|pub|opaque|unfoldable)\s+)*(\S+)\s", head)
    return bool(m) and m.group(1) != 'use' and re.match(re.escape(m.group(1)) + r"(\s|$)", line) is not None


def main(names_path, old, crate, only):
    names = json.load(open(names_path))
    stem = 'Rattle-' + os.path.basename(os.path.abspath(crate)) + '-proofs.'
    for key, of in sorted(names.items()):
        if not key.startswith(stem) or not isinstance(of, dict):
            continue
        path = key[len(stem):-len('.Lts')].replace('.', '/')
        if only and path not in only:
            continue
        if not only and any(os.path.exists(os.path.join(crate, 'proofs', path, f)) for f in ('Proof.antt', 'Answers.antt', 'Invariants.antt')):
            continue
        src = os.path.join(old, path, 'Proof.antt')
        if not os.path.exists(src):
            continue
        turn(path, of, open(src).read(), crate, os.path.basename(os.path.abspath(crate)))


class Places:
    def __init__(self, of):
        self.parent, self.step, self.byname = {}, {}, {}
        for old, parent, step, fn, _ in of['places']:
            self.parent[old], self.step[old] = parent, step
        self.steps = list(zip([p[0] for p in of['places']], of['places_by_name']))
        self.needs = {plain(o): (o, n) for o, n in of['needs']}
        self.at = {o: at[0] for (o, n), at in zip(of['needs'], of['asked_at'])}

    def up(self, place, n):
        for _ in range(n):
            if place is None:
                return None
            place = self.parent[place]
        return place


def parameters(crate, path):
    """The names of a function's parameters: the old form called those of some types t1, t2, .."""
    file, fn = path.rsplit('/', 1) if '/' in path else ('lib', path)
    for at in (file + '.rt', file.split('/')[0] + '.rt', 'lib.rt', 'main.rt'):
        try:
            text = open(os.path.join(crate, 'src', at)).read()
        except FileNotFoundError:
            continue
        m = re.search(r"\bfn %s(?:<[^(]*>)?\(([^)]*)\)" % re.escape(fn), text)
        if m:
            return re.findall(r"(\w+)\s*:[^:]", m.group(1))
    return []


def turn(path, of, text, crate, name):
    places = Places(of)
    places.params = parameters(crate, path)
    dotted = path.replace('/', '.')
    uses, pieces, header = [], [], []
    for p in declarations(text):
        code = [l for l in p if l and not l.startswith('--')]
        if code and code[0].startswith('use '):
            if not header and not uses:
                header = [l for l in p if l.startswith('--')]
            uses.append(' '.join(x.strip() for x in code))
        else:
            pieces.append(p)
    uses = [u for u in uses if not re.search(r"\.%s\.(Statement|Tie)\b" % re.escape(path.split('/')[-1]), u)]
    tie = re.search(r"\.Tie as (\S+)", text)
    tie = tie.group(1) if tie else 'tie'
    invariants, answers, lemmas, left = [], [], [], []
    for p in pieces:
        body = '\n'.join(p)
        code = [l for l in p if l and not l.startswith('--')]
        if not code:
            continue
        if re.search(r":\s*(\{M : Type 1\} → )?statement M", body) or '%s.close' % tie in body:
            continue
        m = re.match(r"((?:abbrev |pub )*)(\S+) :\s*%s\.(invariant|decreases)[_-](\S+)" % re.escape(tie), code[0])
        if m:
            invariants.append(invariant(p, code, m, of))
            continue
        flat = ' '.join(x.strip() for x in code)
        m = re.match(r"((?:abbrev |pub )*)(\S+) :\s*%s\.Need[_-]([^\s]+)" % re.escape(tie), flat)
        if m:
            answers.append((p, m.group(2), m.group(3)))
        else:
            lemmas.append(lemma(p, tie, places))
    out = []
    for p, local, need in answers:
        key = plain(need)
        if key not in places.needs and 'overflow_' in key:
            key = key.replace('overflow_', '', 1)
        for pre in ('nonzero_', 'Need_'):
            if key not in places.needs and key.startswith(pre):
                key = key[len(pre):]
        if key not in places.needs:
            left.append(need)
            continue
        o, n = places.needs[key]
        out.append(answer(p, local, n, places, places.at[o]))
    folder = os.path.join(crate, 'proofs', path)
    os.makedirs(folder, exist_ok=True)
    head = header or []
    if invariants:
        with open(os.path.join(folder, 'Invariants.antt'), 'w') as f:
            f.write('\n'.join(head + uses + ['use Rattle.%s.proofs.%s.Given as goal' % (name, dotted), '']) + '\n' + '\n\n'.join(invariants) + '\n')
    out = [o for o in out if o]
    if out or lemmas:
        body = '\n\n'.join(['\n'.join(l).strip('\n') for l in lemmas] + out)
        with open(os.path.join(folder, 'Answers.antt'), 'w') as f:
            f.write('\n'.join(head + uses + ['use Rattle.%s.proofs.%s.Goals as goal' % (name, dotted), '']) + '\n' + body + '\n')
    if left:
        print(path + ': no goal now for', ', '.join(left))


def lemma(p, tie, places):
    """A lemma of the file's own; where it takes a context, that is the goals' now."""
    body = '\n'.join(p)
    env = {}
    table = {plain(o): (o, n) for o, n in places.steps}
    for m in re.finditer(r"(?:([\w'₀-₉-]+) : )?%s\.([\w'-]+)" % re.escape(tie), body):
        if plain(m.group(2)) in table and m.group(1):
            env[m.group(1)] = table[plain(m.group(2))][0]
    body = re.sub(r"(?<![\w.])%s\.([\w'-]+)" % re.escape(tie), lambda m: 'goal.' + table[plain(m.group(1))][1] if plain(m.group(1)) in table else m.group(0), body)
    return (contexts(body, env, places) if env else body).split('\n')


def invariant(p, code, m, of):
    kind, loop = m.group(3), m.group(4)
    for k, (pair, live) in enumerate(of['loops']):
        if plain(pair[0]) == plain(loop) or plain(pair[0]) == 'loop_' + plain(loop):
            new = pair[1]
            break
    else:
        return '-- no loop now for ' + loop
    comments = [l for l in p if l.startswith('--')]
    rest = code[1:]
    while rest and not re.match(re.escape(m.group(2)) + r'\s', rest[0]):
        rest = rest[1:]
    text = '\n'.join(rest)
    eq = text.index('=')
    binders = text[:eq].split()[1:]
    changed = of['changed'][k]
    live_all = list(live)
    # the old form takes each variable, by its first value where the loop changes it, and then those that it changes
    targets = [('l.initial.' if c else 'l.') + v for v, c in zip(live_all, changed)]
    targets += ['l.' + v for v, c in zip(live_all, changed) if c]
    if len(binders) != len(targets):
        targets = ['?%d' % i for i in range(len(binders))]
    table = {b: t for b, t in zip(binders, targets) if b != '_'}
    body = text[eq + 1:]
    field = lambda x: re.search(r"[{;]\s*$", body[:x.start()]) and re.match(r"\s*=", body[x.end():])
    body = NAME.sub(lambda x: x.group(0) if body[x.start() - 1:x.start()] == '.' or field(x) else table.get(x.group(0), x.group(0)), body)
    return '\n'.join(comments + ['abbrev pub %s-%s : goal.%s-%s' % (kind, new, kind, new), '%s-%s l =%s' % (kind, new, body)])


def answer(p, local, new, places, place):
    comments = [l for l in p if l.startswith('--')]
    code = [l for l in p if l and not l.startswith('--')]
    unfold = [l for l in code if l.startswith('unfolding')]
    k = 0
    while not re.match(re.escape(local) + r'(\s[^=]*)?=', code[k]) and not re.match(re.escape(local) + r'(\s|$)', code[k]) or k == 0:
        k += 1
        if k >= len(code):
            return None
    text = '\n'.join(code[k:])
    eq = text.index('=')
    binders = text[:eq].split()[1:]
    body = text[eq + 1:]
    if re.fullmatch(r"\s*(search rules|omega arith)\s*", body):
        return None
    c = binders[0] if binders else 'c'
    body = contexts(body, {c: place}, places)
    lines = comments + ['pub %s : goal.%s' % (new, new)] + unfold + ['%s %s =%s' % (new, c, body)]
    return '\n'.join(lines)


CHAIN = re.compile(r"(?<![\w.'])([\w'₀-₉-]+)((?:\.[\w'₀-₉-]+)*)")


def contexts(body, env, places):
    """Turns paths into contexts: x.before.before.step.field -> c.step'.field."""
    # names bound by let to a context; one bound anew is another name
    fresh = 0
    while True:
        for m in re.finditer(r"let ([\w'₀-₉-]+) = ([\w'₀-₉-]+)((?:\.before)*) in[ \n]*(?=[^ \n])", body):
            if m.group(2) in env:
                env, name, rest = dict(env), m.group(1), body[m.end():]
                place = places.up(env[m.group(2)], m.group(3).count('.before'))
                if name in env:
                    fresh += 1
                    rest = re.sub(r"(?<![\w.'])%s(?![\w'₀-₉-])" % re.escape(name), '%s_%d_' % (name, fresh), rest)
                    name = '%s_%d_' % (name, fresh)
                env[name] = place
                body = body[:m.start()] + rest
                break
        else:
            break

    def sub(m):
        var, rest = m.group(1), m.group(2)
        if var not in env or not rest:
            return m.group(0)
        words = rest[1:].split('.')
        place, k = env[var], 0
        while k < len(words) and words[k] == 'before':
            place = places.up(place, 1)
            k += 1
        if place is None:
            return m.group(0)
        if k == len(words):
            return m.group(0)
        step = words[k]
        olds = places.step.get(place)
        if olds and plain(olds[0]) == plain(step):
            new = olds[1]
        else:
            new = step
            # a step further up, reached as a field of its own
            q = place
            while q is not None:
                s = places.step.get(q)
                if s and plain(s[0]) == plain(step):
                    new = s[1]
                    break
                q = places.parent[q]
        tail = words[k + 1:]
        if new == 'args' and tail and re.fullmatch(r"t\d+", tail[0]) and 0 < int(tail[0][1:]) <= len(places.params):
            tail[0] = places.params[int(tail[0][1:]) - 1]
        if tail and re.fullmatch(r"keys\d+", tail[0]) and new.startswith('in-'):
            tail[0] = 'is'
        return '.'.join(['c', new] + tail)

    body = CHAIN.sub(sub, body)
    body = re.sub(r"(?<=\bargs\.)t(\d+)\b", lambda m: places.params[int(m.group(1)) - 1] if 0 < int(m.group(1)) <= len(places.params) else m.group(0), body)
    # the test of `if !x` now says what x is
    return re.sub(r"not-(true|false)\s+_\s+(c\.if-not-[\w'₀-₉+-]+\.\1)", r"\2", body)


main(sys.argv[1], sys.argv[2], sys.argv[3], sys.argv[4:])
