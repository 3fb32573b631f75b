"""Reads the declarations of an .antt file: signatures, records with their fields, data types with their
constructors, also inside `module _ (..) where` and broken over several lines, each with its text as one line.
Equations, `use`, `infixl` and `unfolding` are none."""
import collections

Declaration = collections.namedtuple("Declaration", "line marks kind name owner text")
MARKS = ("pub", "abbrev", "unfoldable", "axiom")
SILENT = ("use", "infix", "infixl", "infixr", "unfolding")


def declarations(path):
    lines = []
    for number, line in enumerate(path.read_text(encoding="utf8").splitlines(), 1):
        text = line.strip()
        if text and not text.startswith("--"):
            lines.append((number, len(line) - len(line.lstrip()), text))
    return list(of_block(lines))


def chunks(lines):
    """The declarations of a block: a first line, and the lines that are further right or close a bracket."""
    rows = []
    for line in lines:
        if rows and (line[1] > rows[0][0][1] or line[2][0] in "}])"):
            rows[-1].append(line)
        else:
            rows.append([line])
    return rows


def body(chunk):
    """What stands under the `where` of a module, record or data type."""
    for i, line in enumerate(chunk):
        if line[2].split()[-1] == "where":
            return chunk[i + 1:]
    return []


def names_of_signature(text):
    """The names before the colon, where a colon comes first; none for an equation."""
    depth, names, word = 0, [], ""
    for char in text + " ":
        depth += (char in "({[⦃") - (char in ")}]⦄")
        if depth > 0 or char in ")}]⦄":
            continue
        if not char.isspace():
            word += char
            continue
        if word == ":":
            return [name for name in names if name not in MARKS]
        if word == "=":
            return []
        if word:
            names.append(word)
        word = ""
    return []


def of_block(lines, owner=None, kind="signature"):
    for chunk in chunks(lines):
        number, text = chunk[0][0], " ".join(line[2] for line in chunk)
        words = text.split()
        marks = [word for word in words[:4] if word in MARKS]
        head = words[len(marks):]
        if head[:1] == ["module"]:
            yield from of_block(body(chunk))
        elif head and head[0] in ("record", "data"):
            yield Declaration(number, marks, head[0], head[1], None, text)
            yield from of_block(body(chunk), head[1], "field" if head[0] == "record" else "constructor")
        elif head and head[0] not in SILENT:
            for name in names_of_signature(text):
                yield Declaration(number, marks, kind, name, owner, text)
