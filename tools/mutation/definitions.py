"""Single-place mutants of the definitions in specs/: a bound one off, a rule dropped, two names exchanged, a row moved."""
import re

from .code import Item, Mutant, Token

TOKEN = re.compile(r"(?P<skip>\s+|--[^\n]*)|(?P<open>[({\[])|(?P<close>[)}\]])|(?P<semicolon>;)|(?P<word>\.?[^\s(){}\[\];.]+|\.)")
TURNED = {"≤": "<", "<": "≤", "leb": "ltb", "ltb": "leb", "true": "false", "false": "true", "+": "-"}
HEAD = re.compile(r"^(?:(?:abbrev|unfoldable) )?(?:pub )?(record |data )?([^\s:(={-][^\s:]*)\s", re.M)


def tokens_of(text, start, end):
    return [Token(m.lastgroup, m.group(), m.start()) for m in TOKEN.finditer(text, start, end) if m.lastgroup != "skip"]


def items_of(text):
    """The declarations of a file, each up to the blank line behind it; public are the words, above what the code computes."""
    items = []
    words = text.find("---- what the code computes")
    for block in re.finditer(r"(?:^(?!use |--)\S.*\n(?:^(?:[ ]+.*|\S.*)\n)*)", text, re.M):
        head = HEAD.match(block.group())
        if head and not block.group().startswith(("use ", "module ")):
            public = words < 0 or block.start() < words
            items.append(Item(head.group(2), public, block.start(), tokens_of(text, block.start(), block.end())))
    return items


def constructors(text):
    """The constructors of a file's data types, by name, with those of the same type that have no argument."""
    found = {}
    for body in re.findall(r"^(?:pub )?data [^\n]*where\n((?:  .*\n)+)", text, re.M):
        names = [n for line in re.findall(r"^  ([\w' -]+?) : [^→\n]*$", body, re.M) for n in line.split()]
        for name in names:
            found[name] = [n for n in names if n != name]
    return found


def fields(text):
    """The fields of a file's records, by name, with those of the same record and type."""
    found = {}
    for body in re.findall(r"^(?:pub )?record [^\n]*where\n((?:  .*\n)+)", text, re.M):
        by_type = re.findall(r"^  pub (\w+) : (.*)$", body, re.M)
        for name, kind in by_type:
            found.setdefault(name, set()).update(n for n, k in by_type if k == kind and n != name)
    return found


def bound_names(line):
    """The variables of an equation's left side."""
    left, equals, _ = line.partition(" = ")
    if not equals:
        return []
    return re.findall(r"(?<![\w.])([a-z]\w*'?)(?![\w'])", left)[1:]


def atom_end(tokens, i):
    """The place behind the argument that begins at i, with its projections."""
    depth = 0
    while i < len(tokens):
        depth += (tokens[i].kind == "open") - (tokens[i].kind == "close")
        i += 1
        projected = i < len(tokens) and tokens[i].text.startswith(".") and tokens[i].start == tokens[i - 1].end
        if depth == 0 and not projected:
            break
    return i


def conditions(rule):
    """The places of a rule's or a field's conditions: what stands between its arrows and binds no name."""
    start = rule.index(" : ") + 3
    depth, places = 0, []
    for m in re.finditer(r"[({\[]|[)}\]]|\s→\s|$", rule[start:]):
        sign, place = m.group().strip(), start + m.start()
        if depth == 0 and sign in ("→", ""):
            behind = places[-1][2] if places else start
            places.append((behind, place, start + m.end()))
        depth += (sign in ("(", "{", "[")) - (sign in (")", "}", "]"))
    found = []
    for a, b, _ in places:
        part = rule[a:b]
        if part.strip() and not re.match(r"\s*[({][^()]* : ", part):
            found.append((b - len(part.lstrip()), a + len(part.rstrip())))
    return found


def own_names(text, crate, file, rule):
    """What a file calls a rule of a crate's specs/FILE.antt: its name, another, or one behind the module's."""
    module = rf"Rattle\.{crate}\.specs\.{file}"
    names = []
    for brought in re.findall(rf"^use {module}\.\{{([^}}]*)\}}", text, re.M):
        for name, _, other in (part.strip().partition(" as ") for part in brought.split(",")):
            if name == rule:
                names.append(other or name)
    return names + [f"{other}.{rule}" for other in re.findall(rf"^use {module} as (\S+)$", text, re.M)]


def with_blank(text, names):
    """A text in which a rule of these names has a first argument, left blank: any in a pattern, and for the prover to find in a proof."""
    used = list(re.finditer(r"^use [^{\n]*(?:\{[^}]*\})?", text, re.M))
    start = used[-1].end() if used else 0
    word = "|".join(map(re.escape, names))

    def blank(m):
        before, after = text[: start + m.start()].rstrip(), text[start + m.end() :]
        last = re.search(r"\S*$", before).group()
        # a field of that name, or another type's rule
        if after.startswith(" :") or (before.endswith(("{", ";")) and after.startswith(" =")):
            return m.group()
        # an argument of a function, or of another rule's pattern
        inner = re.search(r"[\w')\]}]$", last) and last not in ("in", "where")
        return f"({m.group()} _)" if inner else f"{m.group()} _"

    return text[:start] + re.sub(rf"(?<![^\s({{\[,;])(?:{word})(?![^\s)}}\],;])", blank, text[start:])


def mutants_of(item, known, text):
    """Every mutant of a declaration; known are the constructors and the fields of all crates."""
    found = []
    names, parts = known

    def add(kind, *edits):
        found.append(Mutant(item, kind, list(edits)))

    ts = item.tokens
    end = ts[-1].end
    for i, t in enumerate(ts):
        before = ts[i - 1].text if i else ""
        line = text[text.rfind("\n", 0, t.start) + 1 : text.find("\n", t.start)]
        if re.fullmatch(r"\d+", t.text) and before not in ("Type", "{"):
            n = int(t.text)
            for new in [n + 1] + ([n - 1] if n else []):
                add("bound", (t.start, t.end, str(new)))
        elif t.text in TURNED:
            add("comparison" if t.text != "+" else "sign", (t.start, t.end, TURNED[t.text]))
        elif t.text == "pick":
            first = atom_end(ts, i + 1)
            second = atom_end(ts, first)
            third = atom_end(ts, second)
            if third <= len(ts) and first < len(ts) and second < len(ts) and ts[first].kind != "close" and ts[second].kind != "close":
                a, b, c, d = ts[first].start, ts[second - 1].end, ts[second].start, ts[third - 1].end
                add("exchanged", (a, b, text[c:d]), (c, d, text[a:b]))
        elif t.text.startswith(".") and t.text[1:] in parts:
            for other in sorted(parts[t.text[1:]]):
                add("field", (t.start, t.end, "." + other))
        elif t.text in names:
            for other in names[t.text]:
                add("constructor", (t.start, t.end, other))
        elif " = " in line and t.start > text.rfind("\n", 0, t.start) + line.index(" = ") and t.text in bound_names(line):
            for other in sorted(set(bound_names(line)) - {t.text}):
                add("variable", (t.start, t.end, other))
    body = text[item.start : end]
    # a type of values, as `data Side : Type 0`, has no rules
    relation = re.match(r"(?:pub )?data (?!\S+ : Type)", body)
    # a rule or a field dropped: a line of two blanks, a name and ':', with the deeper lines behind it
    for m in re.finditer(r"^  (?:pub )?([\w'-]+) : .*\n?(?:^   +.*\n?)*", body, re.M):
        add("rule", (item.start + m.start(), item.start + m.end(), ""))
        if relation:
            first = item.start + m.end(1) + len(" : ")
            add("never", (first, first, "⊥ → "))
        whole = conditions(m.group())
        # the last part of a constructor is its result
        for a, b in whole[:-1] if " data " in f" {body.splitlines()[0]}" else whole:
            # a type of values, as `List Token`, is no condition
            if re.search(r"[≡≤<→]|(?<!\w)[a-z]", m.group()[a:b]):
                add("condition", (item.start + m.start() + a, item.start + m.start() + b, "Unit {0}"))
    # two neighbouring rows of a table
    rows = [(m.start(1), m.end(1)) for m in re.finditer(r"^    (?:∷ )?(?!\[\])(\S.*?)(?:  --.*)?$", body, re.M)] if "\n    ∷ " in body else []
    for (a, b), (c, d) in zip(rows, rows[1:]):
        add("row", (item.start + a, item.start + b, body[c:d]), (item.start + c, item.start + d, body[a:b]))
    return found
