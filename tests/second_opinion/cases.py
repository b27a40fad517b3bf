"""Random inputs for lister, described and chain_check, lawful and damaged.

Each public function takes a random number generator and answers a Case: in a few words what it
is, and the bytes of standard input.
"""

import itertools
from collections import namedtuple

import opinion
from opinion import EXCHANGE, END, HEAD, LAMP_TOTAL, SHIFT_TOTAL, record

Case = namedtuple("Case", "what text")

MOST_CHAINS = 2000     # a longer list is not asked for


# Damage to any bytes

ODD_BYTES = b"0123456789,-+ \n\r\t\0.x\x7f\x80\xff"


def odd_byte(rng):
    return bytes([rng.choice(ODD_BYTES) if rng.random() < 0.8 else rng.randrange(256)])


def byte_changed(rng, text):
    at = rng.randrange(len(text) or 1)
    return text[:at] + odd_byte(rng) + text[at + 1:]


def byte_deleted(rng, text):
    at = rng.randrange(len(text) or 1)
    return text[:at] + text[at + 1:]


def byte_inserted(rng, text):
    at = rng.randint(0, len(text))
    return text[:at] + odd_byte(rng) + text[at:]


def cut(rng, text):
    return text[:rng.randint(0, len(text))]


def stretch_repeated(rng, text):
    first, last = sorted(rng.randint(0, len(text)) for _ in range(2))
    return text[:last] + text[first:]


BYTE_DAMAGES = [byte_changed, byte_deleted, byte_inserted, cut, stretch_repeated]


def damaged(rng, damages, text):
    """A text with one damage, sometimes two, and their names."""
    chosen = [rng.choice(damages) for _ in range(1 if rng.random() < 0.8 else 2)]
    for damage in chosen:
        text = damage(rng, text)
    return ", ".join(damage.__name__.replace("_", " ") for damage in chosen), text


# Seam files

def shift(rng):
    most = rng.choice([0, 9, 99, 999, 12345, 999999, 1000000])
    return rng.choice([rng.randint(-most, most), most, -most])


def all_pairs(points):
    return list(itertools.combinations(range(1, points + 1), 2))


def seam_row(rng, pair):
    a, b = rng.sample(pair, 2)
    return b"%d,%d,%d,%d" % (a, b, shift(rng), shift(rng))


def joined(rng, rows):
    return b"\n".join(rows) + rng.choice([b"", b"\n"])


def survey_text(rng, points, pairs):
    return joined(rng, [b"%d" % points] + [seam_row(rng, pair) for pair in pairs])


def small_survey(rng):
    points = rng.randint(1, 7)
    pairs = all_pairs(points)
    count = rng.randint(0, min(len(pairs), 10))
    return survey_text(rng, points, rng.sample(pairs, count))


def wide_survey(rng):
    """Many points, and few seams more than a forest has."""
    points = rng.randint(8, 32)
    tree = [(rng.randint(1, b - 1), b) for b in range(2, points + 1) if rng.random() < 0.95]
    others = [pair for pair in all_pairs(points) if pair not in tree]
    pairs = tree + rng.sample(others, rng.randint(0, 2))
    rng.shuffle(pairs)
    return survey_text(rng, points, pairs[:opinion.LIMIT])


def full_survey(rng):
    """As many seams as there can be."""
    points = rng.randint(11, 32)
    return survey_text(rng, points, rng.sample(all_pairs(points), opinion.LIMIT))


def rows_changed(rng, text, change):
    """A text with its rows changed by a function; a row 2 is made if there is none."""
    rows = opinion.rows_of(text)
    while len(rows) < 2:
        rows.append(b"1,2,3,4")
    change(rows)
    return joined(rng, rows)


def field_changed(rng, text, new):
    """A text in which one field of one row is made anew from the old one."""
    def change(rows):
        at = rng.randrange(len(rows))
        fields = rows[at].split(b",")
        place = rng.randrange(len(fields))
        fields[place] = new(fields[place])
        rows[at] = b",".join(fields)
    return rows_changed(rng, text, change)


def leading_zero(rng, text):
    return field_changed(rng, text, lambda old: rng.choice(
        [b"0" + old, b"00", old.replace(b"-", b"-0"), b"0000000"]))


def minus_zero(rng, text):
    return field_changed(rng, text, lambda old: rng.choice([b"-0", b"-00"]))


def sign(rng, text):
    return field_changed(rng, text, lambda old: rng.choice(
        [b"-" + old, b"+" + old, b"-", b"--1", b"-1", old + b"-"]))


def many_digits(rng, text):
    return field_changed(rng, text, lambda old: rng.choice(
        [b"10000000", b"99999999", b"-10000000", b"12345678", b"9" * 20, b"18446744073709551617"]))


def out_of_range(rng, text):
    return field_changed(rng, text, lambda old: rng.choice(
        [b"0", b"8", b"33", b"256", b"1000000", b"1000001", b"9999999", b"-1000001", b"-9999999"]))


def odd_field(rng, text):
    return field_changed(rng, text, lambda old: rng.choice(
        [b"", b" " + old, old + b" ", b"x", b"1.0", b"1e3", b"0x1", old + b"\0", b"\xb2"]))


def same_point(rng, text):
    def change(rows):
        at = rng.randrange(1, len(rows))
        fields = rows[at].split(b",")
        fields[1:2] = fields[:1]
        rows[at] = b",".join(fields)
    return rows_changed(rng, text, change)


def repeated_pair(rng, text):
    def change(rows):
        at = rng.randrange(1, len(rows))
        pair = rows[at].split(b",")[:2]
        again = b",".join(rng.choice([pair, pair[::-1]]) + [b"%d" % shift(rng)] * 2)
        rows.insert(rng.randint(1, len(rows)), again)
    return rows_changed(rng, text, change)


def extra_row(rng, text):
    def change(rows):
        row = rng.choice([b"", b"", b"7", b"1,2", b"1,2,3", b"1,2,3,4", b"1,2,3,4,", b"1,2,3,4,5",
                          b",,,", b" ", b"\r", b"#", rows[0]])
        rows.insert(rng.randint(0, len(rows)), row)
    return rows_changed(rng, text, change)


def rows_swapped(rng, text):
    def change(rows):
        one, other = rng.sample(range(len(rows)), 2)
        rows[one], rows[other] = rows[other], rows[one]
    return rows_changed(rng, text, change)


def carriage_returns(rng, text):
    if rng.random() < 0.5:
        return text.replace(b"\n", b"\r\n")
    return rng.choice([text + b"\r", text.replace(b"\n", b"\r"), text.replace(b"\n", b"\n\r")])


def first_row(rng, text):
    def change(rows):
        rows[0] = rng.choice([b"", b"0", b"1", b"2", b"32", b"33", b"03", b"-3", b"-0", b"3,", b"3 ",
                              b"+3", b"9999999", b"10000000", b"1,2,3,4", b"three"])
    return rows_changed(rng, text, change)


def line_feed_added(rng, text):
    return text + b"\n" * rng.randint(1, 3)


ROW_DAMAGES = [leading_zero, minus_zero, sign, many_digits, out_of_range, out_of_range, odd_field,
               same_point, repeated_pair, extra_row, rows_swapped, carriage_returns, first_row, line_feed_added]


def too_many_rows(rng):
    """48 lawful rows and more, which stand anyhow; sometimes something is wrong above."""
    text = full_survey(rng).removesuffix(b"\n") + b"\n"
    more = rng.choice([b"\n", b"x", b"1,2,3,4", b"1,1,0,0\n", b"\0", b"5,6,7,8\n9", b"9" * 3500])
    if rng.random() < 0.5:
        text = rng.choice(ROW_DAMAGES)(rng, text).removesuffix(b"\n") + b"\n"
    return text + more


def odd_text(rng):
    return rng.choice([
        b"", b"\n", b"\n\n", b"\n" * 60, b"\n" * 5000, b"1", b"1\n", b"32", b"0", b"\0", b"\xff",
        b"\r\n", b" ", b"1" * 5000, b"3\n" + b"1" * 5000, b"2\n1,2,3,4" + b"\0" * 5000,
        bytes(rng.randrange(256) for _ in range(rng.randint(1, 60))),
        bytes(rng.choice(b"0123,-\n") for _ in range(rng.randint(1, 60)))])


def seam_case(rng):
    draw = rng.random()
    if draw < 0.35:
        return Case("small survey", small_survey(rng))
    if draw < 0.40:
        return Case("wide survey", wide_survey(rng))
    if draw < 0.85:
        return Case(*damaged(rng, BYTE_DAMAGES + 2 * ROW_DAMAGES, small_survey(rng)))
    if draw < 0.95:
        return Case("too many rows", too_many_rows(rng))
    return Case("odd text", odd_text(rng))


def has_few_chains(text):
    survey = opinion.read_survey(text)
    if isinstance(survey, opinion.SurveyRefusal) or len(survey.rows) <= 11:
        return True
    lines = opinion.lister(text)
    return len(list(itertools.islice(lines, MOST_CHAINS + 1))) <= MOST_CHAINS


def seam_file(rng):
    while True:
        case = seam_case(rng)
        if has_few_chains(case.text):
            return case


def full_seam_file(rng):
    """A lawful file of 48 seams, whose list is too long to be seen to its end."""
    return Case("48 seams", full_survey(rng))


# Described rigs

ALL_PLACES = opinion.WORD - 1


def some_word(rng, n):
    """A set of labels, also with labels above n."""
    all_labels = opinion.full(n)
    return rng.choice([0, all_labels, ALL_PLACES, ALL_PLACES & ~all_labels,
                       rng.getrandbits(n), rng.getrandbits(n), rng.getrandbits(n),
                       rng.getrandbits(n + 2), rng.getrandbits(64)])


def seams_plan(rng, n):
    points = rng.choice([rng.randint(1, 6), rng.randint(1, 6), rng.randint(1, 32), 32])
    used = rng.sample(range(1, points + 1), min(points, rng.randint(1, max(6, n))))
    ends = [rng.choice(used) for _ in range(2 * n)]
    return ["seams", points, n] + ends


def buttons_plan(rng, n):
    places = rng.sample(range(64), rng.randint(1, max(6, n))) + [rng.choice([0, 63])]
    words = [sum(1 << place for place in set(places) if rng.random() < 0.5) for _ in range(n)]
    words = [rng.choice([word] * 8 + [0, rng.getrandbits(64), ALL_PLACES]) for word in words]
    return ["buttons", n] + words


def loads_plan(rng, n):
    k = rng.randint(1, 8)
    limits = [rng.choice([0, 1, 1, 2, 2, 3, 4, rng.randint(0, 48), 48]) for _ in range(k)]
    return ["loads", k] + limits + [n] + [rng.randint(1, k) for _ in range(n)]


PLANS = [seams_plan, buttons_plan, loads_plan]


def some_layer(rng, n):
    return rng.choice([
        ["dual"],
        ["truncation", rng.randint(0, n + 1)],
        ["minor", some_word(rng, n) & some_word(rng, n), some_word(rng, n) & some_word(rng, n)]])


def some_layers(rng, n):
    layers = [some_layer(rng, n) for _ in range(rng.randint(0, 2))]
    return [len(layers)] + sum(layers, [])


def some_rule(rng):
    return [rng.choice(["closest", "furthest", "turnabout"])]


def written(rng, tokens):
    """Tokens with single spaces or line feeds between them."""
    feeds = rng.choice([0, 0.2, 1])
    text = str(tokens[0])
    for token in tokens[1:]:
        text += ("\n" if rng.random() < feeds else " ") + str(token)
    return text.encode()


def list_length(tokens):
    """How many sets a walk hands out that is not stopped."""
    rig = opinion.parse_rig(written_plainly(tokens))
    matroid = opinion.matroid_of(rig)
    return len(list(opinion.walk(matroid, rig.tie_rule, rig.offered, rig.opened)))


def written_plainly(tokens):
    return " ".join(str(token) for token in tokens).encode()


def small_rig(rng):
    """The tokens of a lawful rig, from the plan to the most steps."""
    n = rng.choice([0, 1, 2, 3, 4, 5, 5, 6, 6, 7, 7, 8, 8, 9, 10])
    plan = rng.choice(PLANS)(rng, n)
    opened = rng.choice([opinion.full(n), ALL_PLACES, some_word(rng, n), some_word(rng, n)])
    tokens = plan + some_layers(rng, n) + some_rule(rng) + [some_word(rng, n), opened]
    if rng.random() < 0.2:
        return tokens + [max(0, list_length(tokens + [0]) + rng.choice([-2, -1, 0]))]
    return tokens + [rng.choice([0, 1, 2, 3, 5, 10, 50, 150, 1000, ALL_PLACES, ALL_PLACES])]


def small_described(rng):
    return Case("small rig", written(rng, small_rig(rng)))


def many_labels(rng):
    n = rng.randint(opinion.SMALL + 1, opinion.LIMIT)
    layers = some_layers(rng, n)
    tokens = rng.choice(PLANS)(rng, n) + layers + some_rule(rng)
    tokens += [some_word(rng, n), some_word(rng, n), rng.choice([0, 1, 5, 20, 60])]
    return Case("many labels", written(rng, tokens))


def full_file(rng):
    """Just as many exchanges as a buffer of 1,024 bytes has room for, or about that."""
    tokens = ["loads", 1, 5, 10] + [1] * 10 + [0] + some_rule(rng)
    tokens += [some_word(rng, 10), 1023, rng.choice([118, 119, 120, 121, 300])]
    return Case("file about full", written(rng, tokens))


def rest_of_rig(rng):
    return some_layers(rng, 5) + some_rule(rng) + [rng.getrandbits(5), 31, 40]


def refused_seams(rng):
    m = rng.choice([0, 1, 3, 6, 48, 49, 50, 60])
    points = rng.choice([0, 1, 4, 4, 32, 33, 255])
    ends = [rng.randint(1, min(max(points, 1), 32)) for _ in range(2 * m)]
    for _ in range(rng.randint(0, 2) if m else 0):
        ends[rng.randrange(2 * m)] = rng.choice([0, points + 1 & 255, 33, 64, 65, 255])
    if m == 49 and rng.random() < 0.5:
        ends[-1] = 0
    return ["seams", points, m] + ends


def refused_buttons(rng):
    m = rng.choice([48, 49, 50, 60])
    return ["buttons", m] + [rng.getrandbits(rng.choice([1, 8, 16])) for _ in range(m)]


def refused_loads(rng):
    k = rng.choice([0, 1, 3, 8, 8])
    m = rng.choice([0, 1, 5, 48, 49, 50])
    limits = [rng.choice([0, 1, 2, 48]) for _ in range(k)]
    classes = [rng.randint(1, max(k, 1)) for _ in range(m)]
    draw = rng.random()
    if draw < 0.4 and k:
        limits[rng.randrange(k)] = rng.choice([48, 49, 50, 255])
    if draw > 0.3 and m:
        classes[rng.randrange(m)] = rng.choice([0, 9, 255])
    return ["loads", k] + limits + [m] + classes


def refused_plan(rng):
    plan = rng.choice([refused_seams, refused_buttons, refused_loads])(rng)
    tokens = plan + [0] + some_rule(rng) + [rng.getrandbits(5), 31, rng.randint(0, 3)]
    return Case("plan that may be refused", written(rng, tokens))


def classes_above_k(rng):
    """A circuit that is at most 8 but has no limit of its own."""
    k = rng.randint(0, 7)
    tokens = ["loads", k] + [rng.randint(0, 3) for _ in range(k)]
    tokens += [3] + [rng.randint(1, 8) for _ in range(2)] + [rng.randint(k + 1, 8)]
    return Case("circuit above k, at most 8", written(rng, tokens + rest_of_rig(rng)))


def many_classes(rng):
    k = rng.choice([9, 10, 20, 255])
    tokens = ["loads", k] + [rng.randint(0, 3) for _ in range(k)]
    tokens += [3] + [rng.randint(1, rng.choice([8, k])) for _ in range(3)]
    return Case("more than 8 circuits", written(rng, tokens + rest_of_rig(rng)))


def large_truncation(rng):
    k = rng.choice([255, 256, 1000, 1 << 32, ALL_PLACES])
    tokens = seams_plan(rng, 5) + [1, "truncation", k] + some_rule(rng) + [0, 31, 40]
    return Case("truncation to 255 or more", written(rng, tokens))


def three_layers(rng):
    count = rng.choice([3, 3, 4, 255, 256])
    layers = sum([some_layer(rng, 4) for _ in range(min(count, 4))], [])
    tokens = seams_plan(rng, 4) + [count] + layers + some_rule(rng) + [0, 15, 40]
    return Case("more than two layers", written(rng, tokens))


def refused_and_wrong(rng):
    """A plan that is refused, and a wrong form behind it."""
    plan = rng.choice([["seams", 0, 1, 1, 1], ["seams", 2, 1, 1, 3], ["loads", 1, 49, 0],
                       ["loads", 1, 2, 1, 0], ["buttons", 49] + [1] * 49])
    rest = rng.choice([[], [0], [0, "closest"], [0, "nearest", 0, 0, 0], [1, "cap", 1],
                       [0, "closest", 0, 0, 0, 0], [256]])
    return Case("refused plan, then wrong form", written(rng, plan + rest))


def leading_zeros(rng):
    """Numbers of up to twenty digits; now and then one of them has more."""
    tokens = small_rig(rng)
    numbers = [at for at, token in enumerate(tokens) if isinstance(token, int)]
    for at in numbers:
        tokens[at] = str(tokens[at]).zfill(rng.randint(1, 20))
    if rng.random() < 0.3:
        at = rng.choice(numbers)
        tokens[at] = tokens[at].zfill(rng.randint(21, 25))
    return Case("leading zeros", written(rng, tokens))


def edges_of_text(rng):
    """Spaces or line feeds before or after all of it."""
    text = written(rng, small_rig(rng))
    before, after = rng.choice([(b"", b"\n"), (b"", b"\n"), (b"", b" "), (b"", b"\n\n"),
                                (b"", b" \n"), (b" ", b""), (b"\n", b""), (b"", b"\r\n"),
                                (b"", b"\0"), (b"", b"\t")])
    return Case("text with %r before and %r after" % (before, after), before + text + after)


ODD_TOKENS = ["", "x", "-1", "+1", "0x1", "1.0", "256", "255", "300", "18446744073709551615",
              "18446744073709551616", "99999999999999999999", "000000000000000000001",
              "100000000000000000000", "seams", "dual", "closest", "Seams", "DUAL", "seam", "\t", "\r"]


def token_changed(rng, tokens):
    tokens[rng.randrange(len(tokens))] = rng.choice(ODD_TOKENS)


def token_deleted(rng, tokens):
    del tokens[rng.randrange(len(tokens))]


def token_inserted(rng, tokens):
    tokens.insert(rng.randint(0, len(tokens)), rng.choice(ODD_TOKENS + list("0123456789")))


def tokens_cut(rng, tokens):
    del tokens[rng.randint(1, len(tokens)):]


def wrong_tokens(rng):
    tokens = small_rig(rng)
    damage = rng.choice([token_changed, token_deleted, token_inserted, tokens_cut])
    damage(rng, tokens)
    return Case(damage.__name__.replace("_", " "), written(rng, tokens or ["x"]))


def wrong_bytes(rng):
    return Case(*damaged(rng, BYTE_DAMAGES, written(rng, small_rig(rng))))


def odd_described(rng):
    return Case("odd text", rng.choice([
        b"", b"\n", b" ", b"seams", b"seams ", b"\0", b"\xff", b"buttons 0", b"x" * 5000,
        b"buttons 255" + b" 18446744073709551615" * 255,
        bytes(rng.randrange(256) for _ in range(rng.randint(1, 60)))]))


def long_described(rng):
    """A plan that is refused, in a text about as long as what is read of it, or longer."""
    labels, before, behind = 200, b"buttons 200", b" 0 closest 0 0 0"
    room = opinion.READ + rng.randint(-2, 3) - len(before) - len(behind)
    digits = [room // labels - 1 + (label < room % labels) for label in range(labels)]
    text = before + b"".join(b" " + b"1" * count for count in digits) + behind
    return Case("refused plan in %d bytes" % len(text), text)


DESCRIBED = ([small_described] * 22 + [many_labels] * 3 + [refused_plan] * 6 + [wrong_tokens] * 4 + [wrong_bytes] * 3 +
             [full_file, classes_above_k, many_classes, large_truncation, three_layers,
              refused_and_wrong, leading_zeros, edges_of_text, odd_described, long_described])


def described_rig(rng):
    return rng.choice(DESCRIBED)(rng)


# Chain files

def some_exchanges(rng, n, present, count):
    exchanges = []
    for _ in range(count):
        inside = opinion.labels(present)
        outside = opinion.labels(opinion.full(n) & ~present)
        if not inside or not outside:
            break
        one, other = rng.choice(inside), rng.choice(outside)
        exchanges.append((max(one, other), min(one, other)))
        present ^= opinion.bit(one) ^ opinion.bit(other)
    return exchanges


def some_number(rng):
    return rng.choice([0, 1, opinion.WORD - 1, 1 << 63, (1 << 63) - 1,
                       rng.getrandbits(64), rng.getrandbits(8)])


def some_totals(rng):
    totals = [(SHIFT_TOTAL, (some_number(rng), some_number(rng))), (LAMP_TOTAL, some_number(rng))]
    return rng.sample(totals, rng.randint(0, 2))


def chain_records(rng, most=12):
    """The records of a lawful chain file."""
    n = rng.choice([0, 1, 2, 3, rng.randint(4, 10), rng.randint(0, 48), 48])
    first = rng.getrandbits(n) if n else 0
    exchanges = some_exchanges(rng, n, first, rng.randint(0, most))
    middle = [record(EXCHANGE, (e, 1), (f, 1)) for e, f in exchanges]
    middle += [opinion.total_record(kind, value) for kind, value in some_totals(rng)]
    head = record(HEAD, (n, 1), (first, 8))
    return [head] + middle + [record(END, (len(exchanges) + 1, 8))]


def some_place(rng, records):
    return rng.randrange(len(records))


def records_swapped(rng, records):
    one, other = some_place(rng, records), some_place(rng, records)
    records[one], records[other] = records[other], records[one]


def record_repeated(rng, records):
    records.insert(rng.randint(0, len(records)), records[some_place(rng, records)])


def record_deleted(rng, records):
    del records[some_place(rng, records)]


def wrong_count(rng, records):
    exchanges = sum(1 for one in records if one[4] == EXCHANGE)
    count = rng.choice([0, exchanges, exchanges + 2, exchanges + 257, exchanges + 1 + (1 << 32),
                        exchanges + 1 + (1 << 63), some_number(rng)])
    records[-1] = record(END, (count, 8))


def wrong_length(rng, records):
    at = some_place(rng, records)
    old = int.from_bytes(records[at][:4], "little")
    new = rng.choice([0, 1, 2, 3, old - 1, old + 1, old + 8, 4, 10, 11, 18, 256 + old,
                      (1 << 24) + old, (1 << 32) - 1, (1 << 32) - 4, 1 << 31])
    records[at] = opinion.little(new, 4) + records[at][4:]


def record_resized(rng, records):
    """A record with another body, whose length says so."""
    at = some_place(rng, records)
    size = rng.choice([0, 1, 2, 3, 4, 8, 9, 10, 16, 17])
    body = bytes(rng.choice([0, 1, 2, 3, 255]) for _ in range(size))
    records[at] = opinion.little(2 + size, 4) + records[at][4:6] + body


def unknown_kind(rng, records):
    at = some_place(rng, records)
    kind = rng.choice([0, 1, 2, 3, 4, 5, 6, 7, 255, 256, 257, 258, 259, 260, 261, 512, 65535])
    records[at] = records[at][:4] + opinion.little(kind, 2) + records[at][6:]


def tiny_record(rng, records):
    tiny = rng.choice([b"\0\0\0\0", b"\1\0\0\0", b"\1\0\0\0\1", b"\1\0\0\0\1\0", b"\0\0\0\0\1\0",
                       b"\2\0\0\0\1\0", b"\2\0\0\0\2\0", b"\2\0\0\0\3\0"])
    records.insert(rng.randint(0, len(records)), tiny)


def wrong_head(rng, records):
    n = rng.choice([0, 1, 3, 47, 48, 49, 50, 63, 64, 65, 128, 255])
    first = rng.choice([0, opinion.bit(n + 1), opinion.full(n), opinion.full(n + 1),
                        opinion.bit(64), some_number(rng)])
    records[0] = record(HEAD, (n, 1), (first, 8))


def second_head(rng, records):
    head = rng.choice([records[0], record(HEAD, (49, 1), (0, 8)), record(HEAD, (0, 1), (0, 8))])
    records.insert(rng.randint(1, len(records)), head)


def wrong_exchange(rng, records):
    n = records[0][6] if len(records[0]) > 6 else 0
    near = [0, 1, 2, 3, n, n + 1 & 255, 48, 49, 64, 65, 255]
    e, f = (rng.choice(near + [rng.randint(0, n)] * 6) for _ in range(2))
    exchanges = sum(1 for one in records if one[4] == EXCHANGE)
    records.insert(rng.randint(1, 1 + exchanges), record(EXCHANGE, (e, 1), (f, 1)))


def another_total(rng, records):
    totals = [opinion.total_record(SHIFT_TOTAL, (1, some_number(rng))),
              opinion.total_record(LAMP_TOTAL, some_number(rng))]
    records.insert(rng.randint(0, len(records)), rng.choice(totals))


def extra_bytes(rng, records):
    records.append(bytes(rng.choice([0, 1, 3, 255]) for _ in range(rng.choice([1, 2, 3, 4, 5, 6, 20]))))


RECORD_DAMAGES = [records_swapped, record_repeated, record_deleted, wrong_count, wrong_length,
                  record_resized, unknown_kind, tiny_record, wrong_head, second_head,
                  wrong_exchange, wrong_exchange, another_total, extra_bytes]


def damaged_records(rng):
    records = chain_records(rng)
    damage = rng.choice(RECORD_DAMAGES)
    damage(rng, records)
    return Case(damage.__name__.replace("_", " "), b"".join(records))


def damaged_chain_bytes(rng):
    return Case(*damaged(rng, BYTE_DAMAGES, b"".join(chain_records(rng))))


def long_chain_file(rng):
    """A file about as long as what is read of it, or longer."""
    records = [record(HEAD, (2, 1), (1, 8))]
    exchanges = rng.choice([505, 506, 507, 508, 509, 510, 511, 520])
    records += [record(EXCHANGE, (2, 1), (1, 1))] * exchanges
    totals = [opinion.total_record(kind, value) for kind, value in some_totals(rng)]
    file = b"".join(records + totals + [record(END, (exchanges + 1, 8))])
    return Case("lawful file of %d bytes" % len(file), file)


def odd_chain_file(rng):
    return Case("odd bytes", rng.choice([
        b"", b"\0", b"\0" * 3, b"\0" * 4, b"\0" * 5000, b"\xff" * 20, b"1\n1,2,3,4\n",
        record(END, (1, 8)), record(HEAD, (0, 1), (0, 8)),
        bytes(rng.randrange(256) for _ in range(rng.randint(1, 60))),
        bytes(rng.choice([0, 0, 0, 1, 2, 3, 4, 10, 11]) for _ in range(rng.randint(1, 60)))]))


def chain_file(rng):
    draw = rng.random()
    if draw < 0.25:
        return Case("lawful list", b"".join(chain_records(rng, rng.choice([3, 12, 100]))))
    if draw < 0.75:
        return damaged_records(rng)
    if draw < 0.94:
        return damaged_chain_bytes(rng)
    if draw < 0.97:
        return long_chain_file(rng)
    return odd_chain_file(rng)
