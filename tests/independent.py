#!/usr/bin/env python3
"""Prints the lines of the records that a filter keeps.

    independent.py FILTERFILE < RECORDS

A second reading of the rules, written from document 01, request 1 of document 02, RFC 1997, RFC 4271 and RFC 6396 and from nothing in crates/: a
filter becomes a function on a message, without a program. A text outside the grammar ends it with an error. The limits of level and weight, and
the numbers and places of refusals, aren't its business.
"""

import ipaddress
import re
import struct
import sys
from fractions import Fraction

MESSAGE_TYPES = {"OPEN": 1, "UPDATE": 2, "NOTIFICATION": 3, "KEEPALIVE": 4, "ROUTE_REFRESH": 5}
ATTRIBUTES = {
    "ORIGIN": 1,
    "AS_PATH": 2,
    "NEXT_HOP": 3,
    "MULTI_EXIT_DISC": 4,
    "LOCAL_PREF": 5,
    "ATOMIC_AGGREGATE": 6,
    "AGGREGATOR": 7,
    "COMMUNITY": 8,
    "MP_REACH_NLRI": 14,
    "MP_UNREACH_NLRI": 15,
    "AS4_PATH": 17,
    "AS4_AGGREGATOR": 18,
    "LARGE_COMMUNITY": 32,
}
WELL_KNOWN = {
    "NO_EXPORT": (65535, 65281),
    "NO_ADVERTISE": (65535, 65282),
    "NO_EXPORT_SUBCONFED": (65535, 65283),
}
ORIGIN, AS_PATH, NEXT_HOP, ATOMIC_AGGREGATE, AGGREGATOR, COMMUNITY = 1, 2, 3, 6, 7, 8
UPDATE = 2
AS_SET, AS_SEQUENCE = 1, 2
BOGONS = [
    (0, 0),
    (23456, 23456),
    (64496, 64511),
    (64512, 65534),
    (65535, 65535),
    (65536, 65551),
    (65552, 131071),
    (4200000000, 4294967294),
    (4294967295, 4294967295),
]


class BadFilter(Exception):
    pass


class BadRecord(Exception):
    pass


# ---- the record


class Bytes:
    """Bytes taken from the front, of which there must be enough."""

    def __init__(self, data):
        self.data = data

    def take(self, count):
        if count > len(self.data):
            raise BadRecord("cut short")
        front, self.data = self.data[:count], self.data[count:]
        return front

    def number(self, size):
        return int.from_bytes(self.take(size), "big")

    def address(self):
        return ipaddress.IPv4Address(self.take(4))


def need(fact, what):
    if not fact:
        raise BadRecord(what)


def prefixes(section):
    found = []
    while section.data:
        length = section.number(1)
        need(length <= 32, "prefix length")
        address = section.take(-(-length // 8)).ljust(4, b"\0")
        found.append(ipaddress.IPv4Network((address, length), strict=False))
    return found


def segments(body, width):
    found = []
    while body.data:
        kind, count = body.number(1), body.number(1)
        need(kind in (AS_SET, AS_SEQUENCE) and count > 0, "segment")
        found.append((kind, [body.number(width) for _ in range(count)]))
    return found


def attributes(section):
    found = {}
    while section.data:
        flags, code = section.number(1), section.number(1)
        body = section.take(section.number(2 if flags & 0x10 else 1))
        need(code not in found, "attribute twice")
        found[code] = body
    return found


def community_text(pair):
    for name, known in WELL_KNOWN.items():
        if pair == known:
            return name
    return "{}:{}".format(*pair)


class Message:
    """One record of BGP4MP_MESSAGE or BGP4MP_MESSAGE_AS4, taken apart."""

    def __init__(self, record):
        need(len(record) <= 8192, "record too long")
        rest = Bytes(record)
        self.seconds = rest.number(4)
        kind, subtype = rest.number(2), rest.number(2)
        need(rest.number(4) == len(rest.data), "record length")
        need(kind == 16 and subtype in (1, 4), "record type")
        self.width = 4 if subtype == 4 else 2
        self.peer_as = rest.number(self.width)
        rest.take(self.width + 2)
        need(rest.number(2) == 1, "address family")
        self.peer = rest.address()
        rest.address()
        need(19 <= len(rest.data) <= 4096, "message size")
        need(rest.take(16) == b"\xff" * 16, "marker")
        need(rest.number(2) == len(rest.data) + 18, "message length")
        self.type = rest.number(1)
        self.attributes, self.announced, self.withdrawn = {}, [], []
        self.origin = self.segments = self.next_hop = self.aggregator = self.communities = None
        if self.type == UPDATE:
            self.read_update(rest)

    def read_update(self, rest):
        withdrawn = Bytes(rest.take(rest.number(2)))
        section = Bytes(rest.take(rest.number(2)))
        self.attributes = attributes(section)
        self.read_bodies()
        self.withdrawn = prefixes(withdrawn)
        self.announced = prefixes(rest)

    def read_bodies(self):
        for code, body in self.attributes.items():
            if code == ORIGIN:
                need(len(body) == 1 and body[0] <= 2, "ORIGIN")
                self.origin = body[0]
            elif code == AS_PATH:
                self.segments = segments(Bytes(body), self.width)
            elif code == NEXT_HOP:
                need(len(body) == 4, "NEXT_HOP")
                self.next_hop = ipaddress.IPv4Address(body)
            elif code == ATOMIC_AGGREGATE:
                need(not body, "ATOMIC_AGGREGATE")
            elif code == AGGREGATOR:
                need(len(body) == self.width + 4, "AGGREGATOR")
                parts = Bytes(body)
                self.aggregator = parts.number(self.width), parts.address()
            elif code == COMMUNITY:
                need(len(body) % 4 == 0, "COMMUNITY")
                self.communities = list(struct.iter_unpack(">HH", body))

    def path(self):
        """The numbers of all segments in one list, or None without an AS_PATH."""
        if self.segments is None:
            return None
        return [number for _, numbers in self.segments for number in numbers]

    def lines(self):
        end = [f"{self.peer} {self.peer_as}", str(self.seconds), "1" if self.width == 4 else "0"]
        text = ""
        if self.announced:
            members = []
            for kind, numbers in self.segments or []:
                words = [str(number) for number in numbers]
                members += ["{" + ",".join(words) + "}"] if kind == AS_SET else words
            fields = [
                " ".join(members),
                "" if self.next_hop is None else str(self.next_hop),
                "" if self.origin is None else "ie?"[self.origin],
                "AT" if ATOMIC_AGGREGATE in self.attributes else "",
                " ".join(map(str, self.aggregator or [])),
                " ".join(map(community_text, self.communities or [])),
            ]
            text += "|".join(["+", " ".join(map(str, self.announced)), *fields, *end]) + "\n"
        if self.withdrawn:
            text += "|".join(["-", " ".join(map(str, self.withdrawn)), *[""] * 6, *end]) + "\n"
        return text


def records(run):
    """The whole records of a run, in order."""
    while len(run) >= 12:
        size = 12 + int.from_bytes(run[8:12], "big")
        if size > len(run):
            return
        yield run[:size]
        run = run[size:]


# ---- the filter


def number(text, limit):
    if not re.fullmatch("0|[1-9][0-9]*", text) or int(text) >= limit:
        raise BadFilter(f"not a number below {limit}: {text}")
    return int(text)


def address(text):
    parts = text.split(".")
    if len(parts) != 4:
        raise BadFilter(f"not an address: {text}")
    return ipaddress.IPv4Address(bytes(number(part, 256) for part in parts))


def named(names, text):
    return names[text] if text in names else number(text, 256)


def type_test(text):
    code = named(MESSAGE_TYPES, text)
    return lambda m: m.type == code


def attr_test(text):
    code = named(ATTRIBUTES, text)
    return lambda m: code in m.attributes


def item(text):
    if text == ".":
        return lambda member: True
    if text.startswith("!"):
        other = number(text[1:], 2**32)
        return lambda member: member != other
    wanted = number(text, 2**32)
    return lambda member: member == wanted


def aspath_test(text):
    blanks = " \t\n"
    start, middle, end = re.fullmatch(r"(\^?)(.*?)(\$?)", text.strip(blanks), re.DOTALL).groups()
    items = [item(word) for word in middle.split()]
    if not (start or items or end):
        raise BadFilter("an empty pattern")

    def matches(path):
        for at in range(len(path) - len(items) + 1):
            if start and at != 0:
                continue
            if end and at + len(items) != len(path):
                continue
            if all(fits(member) for fits, member in zip(items, path[at:])):
                return True
        return False

    return lambda m: m.path() is not None and matches(m.path())


def peer_test(text):
    words = re.split("[ \t\n]+", text)
    if len(words) == 2:
        wanted = address(words[0]), number(words[1], 2**32)
        return lambda m: (m.peer, m.peer_as) == wanted
    if "." in text:
        there = address(text)
        return lambda m: m.peer == there
    asn = number(text, 2**32)
    return lambda m: m.peer_as == asn


def returns(path):
    """Whether some number occurs twice with a different one between."""
    for i, first in enumerate(path):
        for j in range(i + 1, len(path)):
            if path[j] == first and any(between != first for between in path[i:j]):
                return True
    return False


def loops(m):
    return m.path() is not None and returns(m.path())


def bogon_asn(m):
    return any(low <= asn <= high for asn in m.path() or [] for low, high in BOGONS)


def network_test(relation):
    def test(text):
        sign = text[:1] if text[:1] in ("+", "-") else ""
        there, slash, length = text[len(sign) :].partition("/")
        if not slash:
            raise BadFilter(f"no length: {text}")
        network = ipaddress.IPv4Network((int(address(there)), number(length, 33)), strict=False)

        def holds(m):
            looked_at = [] if sign == "-" else m.announced
            looked_at = looked_at + ([] if sign == "+" else m.withdrawn)
            return any(relation(prefix, network) for prefix in looked_at)

        return holds

    return test


def timestamp_test(text):
    match = re.fullmatch(r"(>=|>|=|<=|<|)([0-9]+)(?:\.([0-9]{1,6}))?", text)
    if not match:
        raise BadFilter(f"not a time: {text}")
    sign, whole, fraction = match.groups()
    time = number(whole, 2**32) + Fraction(f"0.{fraction or 0}")
    compare = {
        "": lambda a: a == time,
        "=": lambda a: a == time,
        "<": lambda a: a < time,
        "<=": lambda a: a <= time,
        ">": lambda a: a > time,
        ">=": lambda a: a >= time,
    }[sign]
    return lambda m: compare(m.seconds)


def community(text):
    if text in WELL_KNOWN:
        return WELL_KNOWN[text]
    first, colon, second = text.partition(":")
    if not colon:
        raise BadFilter(f"not a community: {text}")
    return number(first, 65536), number(second, 65536)


def communities_test(text):
    wanted = {community(word) for word in re.split("[ \t\n]+", text)}
    return lambda m: m.communities is not None and wanted.issubset(m.communities)


BARE_TESTS = {"-loops": loops, "-bogon-asn": bogon_asn}
TESTS = {
    "-type": type_test,
    "-attr": attr_test,
    "-aspath": aspath_test,
    "-peer": peer_test,
    "-exact": network_test(lambda prefix, network: prefix == network),
    "-supernet": network_test(lambda prefix, network: network.subnet_of(prefix)),
    "-subnet": network_test(lambda prefix, network: prefix.subnet_of(network)),
    "-related": network_test(lambda prefix, network: prefix.overlaps(network)),
    "-timestamp": timestamp_test,
    "-communities": communities_test,
}


def tokens(text):
    """Pairs of a kind, `mark`, `word` or `quoted`, and the text."""
    if not re.fullmatch("[ -~\t\n]{0,4096}", text):
        raise BadFilter("too long, or a forbidden byte")
    found = []
    for mark, quoted, word, other in re.findall(r"([()!])|('[^']*')|([^ \t\n()!']+)|('.*)", text, re.DOTALL):
        if other:
            raise BadFilter("a quote that isn't closed")
        found.append(("mark", mark) if mark else ("quoted", quoted[1:-1]) if quoted else ("word", word))
    return found + [("end", "")]


class Parser:
    def __init__(self, text):
        self.left = tokens(text)

    def next_is(self, *wanted):
        if self.left[0] != wanted:
            return False
        self.left.pop(0)
        return True

    def expression(self):
        test = self.conjunction()
        while self.next_is("word", "-or"):
            test = (lambda a, b: lambda m: a(m) or b(m))(test, self.conjunction())
        return test

    def conjunction(self):
        test = self.factor()
        while self.next_is("word", "-and"):
            test = (lambda a, b: lambda m: a(m) and b(m))(test, self.factor())
        return test

    def factor(self):
        if self.next_is("mark", "!"):
            test = self.factor()
            return lambda m: not test(m)
        if self.next_is("mark", "("):
            test = self.expression()
            if not self.next_is("mark", ")"):
                raise BadFilter("no closing parenthesis")
            return test
        kind, name = self.left.pop(0)
        if kind == "word" and name in BARE_TESTS:
            return BARE_TESTS[name]
        if kind == "word" and name in TESTS and self.left[0][0] in ("word", "quoted"):
            return TESTS[name](self.left.pop(0)[1])
        raise BadFilter(f"no test: {name}")


def compiled(text):
    parser = Parser(text)
    test = parser.expression()
    if not parser.next_is("end", ""):
        raise BadFilter(f"more than an expression: {parser.left[0][1]}")
    return test


def main():
    keeps = compiled(open(sys.argv[1], encoding="latin-1", newline="").read())
    for record in records(sys.stdin.buffer.read(65536)):
        try:
            message = Message(record)
        except BadRecord:
            continue
        if keeps(message):
            sys.stdout.write(message.lines())


if __name__ == "__main__":
    main()
