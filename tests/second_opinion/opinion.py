#!/usr/bin/env python3
"""A second opinion of what lister, described and chain_check print, written from docs/ alone.

A set of labels is a number with label e at bit e - 1. A matroid is a size n and a test of
independence. Up to SMALL labels everything is done by going through all sets, as the definitions
say it; above that, by the usual shortcuts.

    opinion.py lister | described | chain_check  < FILE
"""

import itertools
import re
import sys
from collections import namedtuple

LIMIT = 48       # most labels
POINTS = 32      # most points
CLASSES = 8      # most classes of a partition matroid
READ = 4096      # most bytes that a program reads
SMALL = 12       # most labels for which all sets are gone through
WORD = 1 << 64


# Sets of labels

def bit(e):
    return 1 << (e - 1)


def full(n):
    return (1 << n) - 1


def labels(s):
    """The labels of a set, upwards."""
    return [e for e in range(1, s.bit_length() + 1) if s & bit(e)]


def size(s):
    return bin(s).count("1")


def parts(s):
    """All nonempty parts of a set."""
    part = s
    while part:
        yield part
        part = (part - 1) & s


# Matroids

class Matroid:
    def __init__(self, n, independent):
        self.n = n
        self._independent = independent
        self._known = {}

    def independent(self, s):
        if s not in self._known:
            self._known[s] = s & ~full(self.n) == 0 and self._independent(s)
        return self._known[s]


def can_join(matroid, s):
    """Whether some label outside s leaves it independent."""
    outside = full(matroid.n) & ~s
    return any(matroid.independent(s | bit(e)) for e in labels(outside))


def all_bases(matroid):
    """All sets within 1..n that are bases."""
    return [s for s in range(1 << matroid.n) if matroid.independent(s) and not can_join(matroid, s)]


def greedy(matroid, s, kept=0):
    """Goes through s upwards and keeps each label that leaves the kept set independent."""
    for e in labels(s):
        if matroid.independent(kept | bit(e)):
            kept |= bit(e)
    return kept


def rank(matroid, s):
    s &= full(matroid.n)
    if matroid.n <= SMALL:
        return max([0] + [size(part) for part in parts(s) if matroid.independent(part)])
    return size(greedy(matroid, s))


def base_test(matroid):
    """The test for a base, as a function of a set."""
    if matroid.n <= SMALL:
        bases = set(all_bases(matroid))
        return lambda s: s in bases
    of_all = rank(matroid, full(matroid.n))
    return lambda s: size(s) == of_all and matroid.independent(s)


# Seams (graphic matroid) and buttons (binary matroid)

def edge_words(edges):
    """Of each edge the points that it meets an odd number of times: two, or none for a loop."""
    return [bit(a) ^ bit(b) for a, b in edges]


def without_even_part(words):
    """Independence by its words: no nonempty part flips every place an even number of times."""
    flips = [0] * (1 << len(words))
    for s in range(1, len(flips)):
        highest = s.bit_length()
        flips[s] = flips[s & ~bit(highest)] ^ words[highest - 1]
    return lambda s: all(flips[part] for part in parts(s))


def without_closed_round(edges):
    """Independence of edges by union-find: each edge joins two points that were apart."""
    def independent(s):
        above = {}

        def root(point):
            while point in above:
                point = above[point]
            return point

        for e in labels(s):
            a, b = (root(point) for point in edges[e - 1])
            if a == b:
                return False
            above[a] = b
        return True
    return independent


def without_zero_rest(words):
    """Independence of words by reduction: each leaves a rest when those before are taken off."""
    def independent(s):
        rests = []
        for e in labels(s):
            word = words[e - 1]
            for rest in rests:
                word = min(word, word ^ rest)
            if word == 0:
                return False
            rests.append(word)
        return True
    return independent


def seams(edges):
    """The graphic matroid of a list of pairs of points."""
    if len(edges) <= SMALL:
        return Matroid(len(edges), without_even_part(edge_words(edges)))
    return Matroid(len(edges), without_closed_round(edges))


def buttons(words):
    """The binary matroid of a list of words."""
    if len(words) <= SMALL:
        return Matroid(len(words), without_even_part(words))
    return Matroid(len(words), without_zero_rest(words))


# Loads (partition matroid)

def loads(limits, classes):
    """The partition matroid of the limits of the classes and the class of each label."""
    def independent(s):
        chosen = [classes[e - 1] for e in labels(s)]
        return all(chosen.count(c) <= limits[c - 1] for c in set(chosen))
    return Matroid(len(classes), independent)


# Layers

def dual(below):
    """Independent: the labels outside contain a base below."""
    n = below.n
    if n <= SMALL:
        bases = all_bases(below)
        return Matroid(n, lambda s: any(base & s == 0 for base in bases))
    of_all = rank(below, full(n))
    return Matroid(n, lambda s: rank(below, full(n) & ~s) == of_all)


def truncation(below, k):
    return Matroid(below.n, lambda s: size(s) <= k and below.independent(s))


def minor(below, contracted, deleted):
    kept = greedy(below, contracted)
    gone = contracted | deleted
    return Matroid(below.n, lambda s: s & gone == 0 and below.independent(s | kept))


# Tie rules: each call makes a rule in its first state, which picks one of some candidates.

def closest():
    return max


def furthest():
    return min


def turnabout():
    turns = itertools.cycle([max, min])
    return lambda candidates: next(turns)(candidates)


TIE_RULES = {"closest": closest, "furthest": furthest, "turnabout": turnabout}


# Start, Algorithm G, walk. A handed-out set comes with its exchange; that of the start is None.

Handed = namedtuple("Handed", "set exchange")


def start(matroid, offered):
    return greedy(matroid, full(matroid.n), greedy(matroid, offered))


def swapped(s, e, f):
    """The set after the exchange of e and f, or None where not exactly one of them is in it."""
    if bool(s & bit(e)) == bool(s & bit(f)):
        return None
    return s ^ bit(e) ^ bit(f)


def algorithm_g(matroid, tie_rule, offered):
    """Algorithm G, with the bases visited so far."""
    is_base = base_test(matroid)
    choose = tie_rule()
    present = start(matroid, offered)
    visited = {present}
    yield Handed(present, None)
    while True:
        exchanges = []
        for e in range(1, matroid.n + 1):
            for f in range(1, e):
                after = swapped(present, e, f)
                if after is not None and is_base(after) and after not in visited:
                    exchanges.append((e, f))
        if not exchanges:
            return
        e = min(higher for higher, _ in exchanges)
        f = choose([lower for higher, lower in exchanges if higher == e])
        present = swapped(present, e, f)
        visited.add(present)
        yield Handed(present, (e, f))


def walk(matroid, tie_rule, offered, opened):
    """The walk, with active labels in place of visited bases."""
    is_base = base_test(matroid)
    choose = tie_rule()
    present = start(matroid, offered)
    active = opened & full(matroid.n)
    yield Handed(present, None)
    while True:
        for e in labels(active):
            after = {f: swapped(present, e, f) for f in range(1, e)}
            candidates = [f for f in after if after[f] is not None and is_base(after[f])]
            if candidates:
                break
        else:
            return
        f = choose(candidates)
        present = after[f]
        active = (active | full(e - 1)) & ~bit(e)
        yield Handed(present, (e, f))


def listing(matroid, tie_rule, offered, opened):
    """What is handed out: by Algorithm G where all labels are opened, else by the walk."""
    if matroid.n <= SMALL and full(matroid.n) & ~opened == 0:
        return algorithm_g(matroid, tie_rule, offered)
    return walk(matroid, tie_rule, offered, opened)


# Measures

def signed(number):
    """A number modulo 2^64, as a signed 64-bit number."""
    number %= WORD
    return number - WORD if number >= WORD // 2 else number


def add_shifts(shifts):
    """The sum of some shifts, across and along."""
    shifts = list(shifts)
    return signed(sum(shift[0] for shift in shifts)), signed(sum(shift[1] for shift in shifts))


def add_words(words):
    total = 0
    for word in words:
        total ^= word
    return total


# Seam files

Survey = namedtuple("Survey", "points rows")             # rows are (a, b, across, along)
SurveyRefusal = namedtuple("SurveyRefusal", "number row")

POINT_FORM = rb"(0|[1-9][0-9]{0,6})"
SHIFT_FORM = rb"(0|-?[1-9][0-9]{0,6})"
ROW_FORM = b",".join([POINT_FORM, POINT_FORM, SHIFT_FORM, SHIFT_FORM])
MOST_SHIFT = 1000000


def rows_of(text):
    rows = text.split(b"\n")
    return rows if rows[-1] else rows[:-1]


def read_row(row, seam, points, pairs):
    """A row as four numbers, or the number of its first fault; pairs are those of the rows above."""
    if seam > LIMIT:
        return 3
    form = re.fullmatch(ROW_FORM, row)
    if not form:
        return 1
    a, b, across, along = (int(number) for number in form.groups())
    if not (1 <= a <= points and 1 <= b <= points):
        return 2
    if abs(across) > MOST_SHIFT or abs(along) > MOST_SHIFT:
        return 2
    if a == b:
        return 4
    if {a, b} in pairs:
        return 5
    return a, b, across, along


def read_survey(text):
    """The survey that a text writes, or its refusal."""
    rows = rows_of(text)
    if not rows or not re.fullmatch(POINT_FORM, rows[0]):
        return SurveyRefusal(1, 1)
    points = int(rows[0])
    if not 1 <= points <= POINTS:
        return SurveyRefusal(2, 1)
    read = []
    pairs = []
    for seam, row in enumerate(rows[1:], 1):
        found = read_row(row, seam, points, pairs)
        if isinstance(found, int):
            return SurveyRefusal(found, seam + 1)
        read.append(found)
        pairs.append({found[0], found[1]})
    return Survey(points, read)


# The programs. Each yields the lines that it prints, and returns its status.

def lister(text):
    survey = read_survey(text)
    if isinstance(survey, SurveyRefusal):
        yield "refused %d row %d" % survey
        return 1
    matroid = seams([row[:2] for row in survey.rows])
    count, total = 0, (0, 0)
    for handed in listing(matroid, closest, 0, full(matroid.n)):
        count += 1
        chain = labels(handed.set)
        total = add_shifts([total] + [survey.rows[e - 1][2:] for e in chain])
        yield " ".join(str(number) for number in [count] + chain)
    yield "total %d %d %d" % (count, *total)
    return 0


# Chain files

HEAD, EXCHANGE, END, SHIFT_TOTAL, LAMP_TOTAL = 1, 2, 3, 4, 5
LENGTHS = {HEAD: 11, EXCHANGE: 4, END: 10, SHIFT_TOTAL: 18, LAMP_TOTAL: 10}
HELD_BACK = 50        # both totals and the end

WriterRefusal = namedtuple("WriterRefusal", "number after")
Record = namedtuple("Record", "byte length kind content")
ReaderRefusal = namedtuple("ReaderRefusal", "number byte after")


def little(number, width):
    return (number % (1 << 8 * width)).to_bytes(width, "little")


def record(kind, *fields):
    """A record from its kind and its fields, each a number and a width."""
    body = b"".join(little(number, width) for number, width in fields)
    return little(2 + len(body), 4) + little(kind, 2) + body


def head_is_lawful(n, first):
    return n <= LIMIT and first & ~full(n) == 0


def exchange_leads_to(n, present, e, f):
    """The set that an exchange leads to, or None where it cannot follow the present set."""
    if not (1 <= f < e <= n):
        return None
    return swapped(present, e, f)


def total_record(kind, value):
    if kind == SHIFT_TOTAL:
        return record(kind, (value[0], 8), (value[1], 8))
    return record(kind, (value, 8))


def write_chain(n, first, exchanges, totals, room):
    """The bytes of a list in a buffer of so many bytes, or the writer's refusal.

    totals are pairs of a kind and a value, in the order in which they are written.
    """
    if not head_is_lawful(n, first):
        return WriterRefusal(21, 0)
    file = record(HEAD, (n, 1), (first, 8))
    if room < len(file) + HELD_BACK:
        return WriterRefusal(12, 0)
    present = first
    for before, (e, f) in enumerate(exchanges):
        present = exchange_leads_to(n, present, e, f)
        if present is None:
            return WriterRefusal(22, before)
        added = record(EXCHANGE, (e, 1), (f, 1))
        if room - len(file) < len(added) + HELD_BACK:
            return WriterRefusal(13, before)
        file += added
    written = set()
    for kind, value in totals:
        if kind in written:
            return WriterRefusal(23, len(exchanges))
        written.add(kind)
        file += total_record(kind, value)
    return file + record(END, (len(exchanges) + 1, 8))


class ChainReader:
    """Reads a chain file record by record; fault is the number of what is wrong, or None."""

    def __init__(self, file):
        self.file = file
        self.byte = 0
        self.n = None
        self.present = 0
        self.exchanges = 0
        self.kinds = []
        self.fault = None

    def next(self):
        """The next record; None at the end of a lawful file and at a fault."""
        left = self.file[self.byte:]
        ended = END in self.kinds
        if ended and not left:
            return None
        if ended or not left:
            return self.refuse(33)
        if len(left) < 4:
            return self.refuse(31)
        length = int.from_bytes(left[:4], "little")
        if len(left) < 4 + length:
            return self.refuse(31)
        kind = int.from_bytes(left[4:6], "little")
        if length < 2 or LENGTHS.get(kind) != length:
            return self.refuse(32)
        if not self.can_come(kind):
            return self.refuse(33)
        content = self.content(kind, left[6:4 + length])
        if content is None:
            return None
        found = Record(self.byte, 4 + length, kind, content)
        self.kinds.append(kind)
        self.byte += 4 + length
        return found

    def refuse(self, number):
        self.fault = number

    def can_come(self, kind):
        if not self.kinds or kind == HEAD:
            return not self.kinds and kind == HEAD
        if kind == EXCHANGE:
            return SHIFT_TOTAL not in self.kinds and LAMP_TOTAL not in self.kinds
        return kind not in self.kinds

    def content(self, kind, body):
        """What a record says; None where that is at fault."""
        if kind == HEAD:
            return self.head(body[0], int.from_bytes(body[1:], "little"))
        if kind == EXCHANGE:
            return self.exchange(body[0], body[1])
        if kind == SHIFT_TOTAL:
            return tuple(signed(int.from_bytes(half, "little")) for half in (body[:8], body[8:]))
        number = int.from_bytes(body, "little")
        if kind == END and number != self.exchanges + 1:
            return self.refuse(36)
        return (number,)

    def head(self, n, first):
        if not head_is_lawful(n, first):
            return self.refuse(34)
        self.n, self.present = n, first
        return n, first

    def exchange(self, e, f):
        after = exchange_leads_to(self.n, self.present, e, f)
        if after is None:
            return self.refuse(35)
        self.present = after
        self.exchanges += 1
        return e, f, after


def read_chain(file):
    """The records of a chain file up to its end or its first fault, and the refusal or None."""
    reader = ChainReader(file)
    records = list(iter(reader.next, None))
    if reader.fault is None:
        return records, None
    return records, ReaderRefusal(reader.fault, reader.byte, reader.exchanges)


RECORD_NAMES = {HEAD: "head", EXCHANGE: "exchange", END: "end",
                SHIFT_TOTAL: "shift total", LAMP_TOTAL: "lamp total"}


def chain_check(file):
    if len(file) > READ:
        return 1
    records, refusal = read_chain(file)
    for found in records:
        content = " ".join(str(number) for number in found.content)
        yield "%d %d %s %s" % (found.byte, found.length, RECORD_NAMES[found.kind], content)
    if refusal:
        yield "refused %d byte %d after %d" % refusal
        return 1
    yield "accepted"
    return 0


# Described rigs

Rig = namedtuple("Rig", "plan layers tie_rule offered opened steps")
PlanRefusal = namedtuple("PlanRefusal", "number label")

MOST_SMALL_NUMBER = 255
MOST_LAYERS = 2
FILE_ROOM = 1024
LAMP_FACTOR = 11400714819323198485


class WrongForm(Exception):
    pass


class Words:
    """The words and numbers of a text, taken one by one."""

    def __init__(self, text):
        if not re.fullmatch(rb"[^ \n]+([ \n][^ \n]+)*\n?", text):
            raise WrongForm
        self.left = re.split(rb"[ \n]", text.removesuffix(b"\n"))

    def word(self):
        if not self.left:
            raise WrongForm
        return self.left.pop(0)

    def number(self, most=WORD - 1):
        word = self.word()
        if not re.fullmatch(rb"[0-9]{1,20}", word) or int(word) > most:
            raise WrongForm
        return int(word)

    def small(self):
        return self.number(MOST_SMALL_NUMBER)

    def several(self, count, take):
        return [take() for _ in range(count)]

    def done(self):
        if self.left:
            raise WrongForm


def parse_plan(words):
    """A plan as its name and its numbers, lawful or not."""
    name = words.word()
    if name == b"seams":
        points, m = words.small(), words.small()
        return name, points, words.several(m, lambda: (words.small(), words.small()))
    if name == b"buttons":
        return name, None, words.several(words.small(), words.number)
    if name == b"loads":
        limits = words.several(words.small(), words.small)
        return name, limits, words.several(words.small(), words.small)
    raise WrongForm


def parse_layer(words):
    """A layer as a function of the matroid below it."""
    name = words.word()
    if name == b"dual":
        return dual
    if name == b"truncation":
        k = words.small()
        return lambda below: truncation(below, k)
    if name == b"minor":
        contracted, deleted = words.number(), words.number()
        return lambda below: minor(below, contracted, deleted)
    raise WrongForm


def parse_rig(text):
    words = Words(text)
    plan = parse_plan(words)
    count = words.small()
    if count > MOST_LAYERS:
        raise WrongForm
    layers = words.several(count, lambda: parse_layer(words))
    tie_rule = TIE_RULES.get(words.word().decode("latin-1"))
    if tie_rule is None:
        raise WrongForm
    rig = Rig(plan, layers, tie_rule, words.number(), words.number(), words.number())
    words.done()
    return rig


def plan_refusal(plan):
    """The first refusal of a plan, or None: its own numbers first, then label by label."""
    name, own, entries = plan
    if name == b"seams" and not 1 <= own <= POINTS:
        return PlanRefusal(6, 0)
    if name == b"loads" and (len(own) > CLASSES or any(limit > LIMIT for limit in own)):
        return PlanRefusal(6, 0)
    for label, entry in enumerate(entries, 1):
        if name == b"seams" and not all(1 <= point <= own for point in entry):
            return PlanRefusal(6, label)
        if name == b"loads" and not 1 <= entry <= CLASSES:
            return PlanRefusal(6, label)
        if label > LIMIT:
            return PlanRefusal(7, label)
    return None


def matroid_of(rig):
    name, own, entries = rig.plan
    if name == b"seams":
        matroid = seams(entries)
    elif name == b"buttons":
        matroid = buttons(entries)
    else:
        matroid = loads(own + [0] * (CLASSES - len(own)), entries)
    for layer in rig.layers:
        matroid = layer(matroid)
    return matroid


def advance_at_most(handed_out, steps):
    """What so many advances hand out at most, and whether one of them answered finished."""
    handed = [next(handed_out)]
    for _ in range(steps):
        found = next(handed_out, None)
        if found is None:
            return handed, True
        handed.append(found)
    return handed, False


def described(text):
    try:
        if len(text) > READ:
            raise WrongForm
        rig = parse_rig(text)
    except WrongForm:
        yield "wrong form"
        return 1
    refusal = plan_refusal(rig.plan)
    if refusal:
        yield "refused %d label %d" % refusal
        return 1
    matroid = matroid_of(rig)
    handed, finished = advance_at_most(
        listing(matroid, rig.tie_rule, rig.offered, rig.opened), rig.steps)
    for number, one in enumerate(handed, 1):
        yield " ".join(str(field) for field in (number, one.set) + (one.exchange or ()))
    yield "finished" if finished else "more"
    yield "rank %d" % rank(matroid, full(matroid.n))
    every_label = [e for one in handed for e in labels(one.set)]
    shift_total = add_shifts((e, -e * e) for e in every_label)
    lamp_total = add_words(e * LAMP_FACTOR % WORD for e in every_label)
    yield "total %d %d %d %d" % (len(handed), *shift_total, lamp_total)
    file = write_chain(matroid.n, handed[0].set, [one.exchange for one in handed[1:]],
                       [(SHIFT_TOTAL, shift_total), (LAMP_TOTAL, lamp_total)], FILE_ROOM)
    if isinstance(file, WriterRefusal):
        yield "file refused %d after %d" % file
    else:
        yield "file " + file.hex()
    return 0


PROGRAMS = {"lister": lister, "described": described, "chain_check": chain_check}


def run(program, text, put):
    """Hands each line that a program prints to put, as bytes, and answers its status."""
    lines = program(text)
    while True:
        try:
            line = next(lines)
        except StopIteration as end:
            return end.value
        put(line.encode() + b"\n")


def output(program, text):
    """All that a program prints, and its status."""
    printed = []
    status = run(program, text, printed.append)
    return b"".join(printed), status


if __name__ == "__main__":
    if len(sys.argv) != 2 or sys.argv[1] not in PROGRAMS:
        sys.exit("usage: opinion.py lister | described | chain_check  < FILE")
    sys.exit(run(PROGRAMS[sys.argv[1]], sys.stdin.buffer.read(), sys.stdout.buffer.write))
