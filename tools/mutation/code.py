"""Single-place mutants of Rattle code that keep its shape."""
import re
from pathlib import Path

TOKEN = re.compile(
    r"""(?P<skip>\s+|//[^\n]*)
      | (?P<bytes>b"(?:[^"\\]|\\.)*")
      | (?P<byte>b'(?:[^'\\]|\\.)')
      | (?P<label>'[a-z_]+\b(?!'))
      | (?P<number>\d[\d_]*)
      | (?P<name>[A-Za-z_]\w*)
      | (?P<sign><<|>>|<=|>=|==|!=|&&|\|\||\+=|-=|\*=|->|=>|::|\.\.|.)""",
    re.X | re.S,
)
KEYWORDS = set("as break const continue else enum false fn if in let loop match mut pub return self struct true use while".split())
COMPARISONS = {"<": "<=", "<=": "<", ">": ">=", ">=": ">", "==": "!=", "!=": "=="}
SIGNS = {"+": "-", "-": "+", "+=": "-=", "-=": "+=", "*": "+", "&&": "||", "||": "&&"}


class Token:
    def __init__(self, kind, text, start):
        self.kind, self.text, self.start, self.end = kind, text, start, start + len(text)


class Item:
    """A function's body or a constant's value; contract is the place of its promise, if it has one."""

    def __init__(self, name, public, start, tokens, parameters=(), contract=None, lent=()):
        self.name, self.public, self.start, self.tokens = name, public, start, tokens
        self.parameters, self.contract, self.lent = parameters, contract, lent


class Mutant:
    """Replacements in one file; each is (start, end, new text)."""

    def __init__(self, item, kind, edits):
        self.item, self.kind, self.edits = item, kind, edits

    def apply(self, text):
        for start, end, new in sorted(self.edits, reverse=True):
            text = text[:start] + new + text[end:]
        return text


def tokens_of(text, start, end):
    found = []
    for m in TOKEN.finditer(text, start, end):
        if m.lastgroup != "skip":
            found.append(Token(m.lastgroup, m.group(), m.start()))
    return found


FUNCTION = re.compile(
    r'^(?P<indent>    )?(?P<public>pub )?(?:extern "C" )?fn (?P<name>\w+)(?:<(?:[^<>]|->|<[^<>]*>)*>)?\((?P<parameters>.*?)\)'
    r"[^{;]*?(?:\{\n|\n(?: +(?:requires|ensures|ghost) [^\n]*\n)+ *\{\n)",
    re.M | re.S,
)


def owner(text, at):
    """The type whose impl a method at a place stands in."""
    return re.findall(r"^impl\b[^\n]*?(\w+)(?:<[^\n]*>)? \{$", text[:at], re.M)[-1]


def items_of(text):
    """The items of a formatted file: a body stands between a line '{' or one that ends in '{', and a line '}', both indented in an impl."""
    items = []
    for m in FUNCTION.finditer(text):
        indent, declared = m["indent"] or "", m["parameters"]
        end = text.index(f"\n{indent}}}", m.end() - 1)
        name = f"{owner(text, m.start())}::{m['name']}" if indent else m["name"]
        parameters = re.findall(r"(\w+): ", declared)
        lent = re.findall(r"(\w+): &(?:'\w+ )?mut ", declared)
        contract = (m.end("parameters"), m.end())
        items.append(Item(name, bool(m["public"]), m.start(), tokens_of(text, m.end(), end), parameters, contract, lent))
    for m in re.finditer(r"^    \w+ = (\d+),$", text, re.M):
        name = re.findall(r"^(?:pub )?enum (\w+) \{$", text[: m.start()], re.M)[-1]
        items.append(Item(name, False, m.start(), tokens_of(text, m.start(1), m.end(1))))
    for m in re.finditer(r"^(pub )?const (\w+): [^=]*=(.*?);$", text, re.M | re.S):
        items.append(Item(m.group(2), False, m.start(), tokens_of(text, m.start(3), m.end(3))))
    return sorted(items, key=lambda item: item.start)


class Declared:
    """The enums and structs of every crate, by name; other names that a file gives them."""

    def __init__(self, root, text):
        self.variants, self.fields = {}, {}
        for path in Path(root).glob("crates/*/src/*.rt"):
            source = re.sub(r"//[^\n]*", "", path.read_text())
            for name, body in re.findall(r"enum (\w+) \{(.*?)\n\}", source, re.S):
                shapes = re.findall(r"^    (\w+)\s*(\([^)]*\)|\{[^}]*\})?", body, re.M)
                self.variants.setdefault(name, []).append([(v, self.shape(s)) for v, s in shapes])
            for body in re.findall(r"struct \w+ \{(.*?)\n\}", source, re.S):
                fields = re.findall(r"(\w+): ([^,\n]+)", body)
                for name, kind in fields:
                    self.fields.setdefault(name, set()).update(f for f, k in fields if k == kind and f != name)
        for name, other in re.findall(r"use [\w:]*?(\w+) as (\w+);", text):
            if name in self.variants:
                self.variants[other] = self.variants[name]

    @staticmethod
    def shape(payload):
        return re.sub(r"\s+", "", payload)

    def others(self, enum, variant):
        found = []
        for declared in self.variants.get(enum, []):
            shape = dict(declared).get(variant)
            found += [v for v, s in declared if v != variant and s == shape]
        return found


def locals_of(item):
    """Names that the item binds: parameters, let and pattern binders."""
    names = list(item.parameters)
    for before, token, after in zip([None] + item.tokens, item.tokens, item.tokens[1:] + [None]):
        if token.kind == "name" and token.text not in KEYWORDS and token.text[0].islower():
            if before and before.text in ("let", "mut"):
                names.append(token.text)
            if before and before.text in ("(", ",") and after and after.text in (")", ","):
                names.append(token.text)
    return sorted(set(names))


def arguments(tokens, i):
    """The arguments of the call whose '(' is at i, as (start, end) places."""
    depth, found, start = 0, [], i + 1
    for j in range(i, len(tokens)):
        text = tokens[j].text
        if text in "([{":
            depth += 1
        if text in ")]}":
            depth -= 1
        if (text == "," and depth == 1) or depth == 0:
            if start < j:
                found.append((tokens[start].start, tokens[j - 1].end))
            start = j + 1
        if depth == 0:
            return found
    return found


def closing(tokens, i):
    """The ']' of the '[' at i."""
    depth = 0
    for j in range(i, len(tokens)):
        depth += (tokens[j].text == "[") - (tokens[j].text == "]")
        if depth == 0:
            return j
    return len(tokens) - 1


def given(tokens, i):
    """What the label at i is given."""
    depth, found = 0, []
    for token in tokens[i + 2 :]:
        if depth == 0 and token.text in (",", "}"):
            break
        depth += (token.text in "([{") - (token.text in ")]}")
        found.append(token.text)
    return found


def next_label(tokens, i):
    """The label behind the one at i, in the same braces."""
    j = i + 2 + len(given(tokens, i)) + 1
    if j + 1 < len(tokens) and tokens[j - 1].text == "," and tokens[j].kind == "name" and tokens[j + 1].text == ":":
        return j
    return None


def number_mutants(text):
    n = int(text.replace("_", ""))
    return [str(n + 1)] + ([str(n - 1)] if n else [])


def promises_of(item, text):
    """Changes to the promise: what is said of a lent value before is said of it afterwards, or the reverse, or of another parameter."""
    found = []
    if not item.contract:
        return found
    for m in re.finditer(r"\b(\w+)\.(old|new|now)\b", text[item.contract[0] : item.contract[1]]):
        start = item.contract[0]
        if m.group(1) in item.lent:
            found.append(Mutant(item, "promise", [(start + m.start(2), start + m.end(2), "old" if m.group(2) == "new" else "new")]))
        if m.group(1) not in item.parameters:
            continue
        for other in item.parameters:
            if other != m.group(1):
                found.append(Mutant(item, "promise", [(start + m.start(1), start + m.end(1), other)]))
    return found


def mutants_of(item, declared, text):
    """Every mutant of an item, in the order of its places."""
    found = []

    def add(kind, *edits):
        found.append(Mutant(item, kind, list(edits)))

    names = locals_of(item)
    ts = item.tokens
    for i, t in enumerate(ts):
        before = ts[i - 1].text if i else ""
        after = ts[i + 1].text if i + 1 < len(ts) else ""
        value_before = bool(i) and (ts[i - 1].kind in ("name", "number") and before not in KEYWORDS or before in (")", "]"))
        if t.text in COMPARISONS:
            add("comparison", (t.start, t.end, COMPARISONS[t.text]))
        elif t.text in SIGNS and (value_before or t.text in ("+=", "-=")):
            add("sign", (t.start, t.end, SIGNS[t.text]))
        elif t.kind == "number" and before != ".":
            for new in number_mutants(t.text):
                add("constant", (t.start, t.end, new))
        elif t.kind in ("byte", "bytes"):
            for place in range(t.start + 2, t.end - 1):
                if text[place] != "\\":
                    add("literal", (place, place + 1, chr(ord(text[place]) ^ 1)))
        elif t.text in ("true", "false"):
            add("constant", (t.start, t.end, "false" if t.text == "true" else "true"))
        elif t.text == "!" and not value_before:
            add("negation", (t.start, t.end, ""))
        elif t.text == "[" and value_before:
            j = closing(ts, i)
            behind = ts[j + 1].text if j + 1 < len(ts) else ""
            add("store" if behind == "=" else "place", (ts[j].start, ts[j].start, " + 1"))
        elif t.text == "(" and i and ts[i - 1].kind == "name":
            parts = arguments(ts, i)
            for (a, b), (c, d) in zip(parts, parts[1:]):
                if text[a:b] != text[c:d]:
                    add("exchanged", (a, b, text[c:d]), (c, d, text[a:b]))
        elif t.kind == "name" and before == "." and after != "(":
            for other in sorted(declared.fields.get(t.text, ())):
                add("field", (t.start, t.end, other))
        elif t.kind == "name" and before == "::":
            for other in declared.others(ts[i - 2].text, t.text):
                add("variant", (t.start, t.end, other))
        elif t.kind == "name" and after == ":" and before in ("{", ","):
            later = next_label(ts, i)
            if later and ts[later].text in declared.fields.get(t.text, ()) and given(ts, i) != given(ts, later):
                add("field", (t.start, t.end, ts[later].text), (ts[later].start, ts[later].end, t.text))
        elif t.text in names and before not in ("let", "mut", ".", "::") and after not in ("(", "::", ":", "["):
            if before in ("(", ",") and after in (",", ")", "as"):
                for number in ("0", "1", "2"):
                    add("argument", (t.start, t.end, number))
            for other in names:
                if other != t.text and not other.startswith("_"):
                    # a field given by its name alone keeps its name
                    labelled = before in ("{", ",") and after in (",", "}") and t.text in declared.fields
                    add("local", (t.start, t.end, f"{t.text}: {other}" if labelled else other))
    return found
