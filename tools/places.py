"""Lists places in crates/*/src that an older form of the language may have shaped: `python3 tools/places.py [POINT]`.

A row is a place to look at. What was decided of each is in docs/DESIGN-PASS.md.
"""
import pathlib
import re
import sys

ROOT = pathlib.Path(__file__).resolve().parent.parent

# Point by point: what is looked for, as expressions over a whole file.
FORMS = {
    1: [
        ("numbers for kinds or refusals", r"^ *(?:pub(?:\(crate\))? )?(?:fn number(?:ed)?\(|number: u\d+)"),
        ("a flag that says what the value beside it is", r"^ *(?:pub(?:\(crate\))? )?\w+: bool,$"),
        ("a failure passed on by hand", r"let (?:Ok|Some)\([^=;]*?\) = [^;]*? else \{\s*return (?:Err|None|Ok\(None)"),
        ("a failure passed on by hand", r"Err\((\w+)\) => (?:return )?(?:\{\s*return )?Err\("),
        ("a failure passed on by hand", r"if let Err\(\w+\) = [^{;]* \{\s*return Err"),
        ("a failure passed on by hand", r"Some\((\w+)\) => Ok\(\1\),|Ok\((\w+)\) => Some\(\2(?:\.\w+)?\),|Ok\((\w+)\) => Ok\(\3\),"),
    ],
    3: [
        ("a counted range", r"for (?!_ )\w+ in [^{]*\.\.[^{]*\{"),
        ("a loop with a test of its own", r"while (?!let)[^{]*\{"),
        ("a count kept by hand", r"^ *\w+ \+= 1;"),
    ],
    4: [
        ("a conversion, a comparison or a text by hand",
         r"^ *(?:pub(?:\(crate\))? )?fn (?:same_?\w*|is_same\w*|is_digit|in_range|is_in_range|is_point|reaches|narrowed|numbered"
         r"|below_zero|not_below_zero|digit|\w+_body|stated|kind_number|word_at)\("),
        ("an enum or struct without Debug or PartialEq", r"#\[derive\(Clone, Copy\)\]"),
        ("a printed value in a wrapper", r"^impl fmt::Display for Shown<"),
    ],
    6: [
        ("an array with its length beside", r"^ *(?:pub(?:\(crate\))? )?\w+: \[[^;\]]+; [\w:]+\],"),
        ("a lent buffer with a place beside", r"^ *(?:pub(?:\(crate\))? )?\w+: &'a (?:mut )?\[\w+\],"),
        ("a buffer in a program", r"let mut \w+ = \[\w+; \w+\];"),
    ],
    7: [
        ("a switch on a kind", r"match (?:\w+\.)?(?:kind|rule|lower|upper|plan|stop)\b"),
    ],
}


def sources():
    return sorted(ROOT.glob("crates/*/src/**/*.rt"))


def row(path, text, at, what):
    line = text.count("\n", 0, at) + 1
    shown = text[at:].lstrip().split("\n", 1)[0].strip()
    return f"{path.relative_to(ROOT)}:{line}: {what}: {shown}"


def in_comment(text, at):
    return text[text.rfind("\n", 0, at) + 1:at].lstrip().startswith("//")


def by_forms(point):
    for path in sources():
        text = path.read_text()
        rows = []
        for what, form in FORMS[point]:
            rows += [(m.start(), what) for m in re.finditer(form, text, re.M) if not in_comment(text, m.start())]
        for at, what in sorted(set(rows)):
            at += len(text[at:]) - len(text[at:].lstrip())
            yield row(path, text, at, what)


def functions(text):
    """Name, place and body of each function that has a body."""
    for m in re.finditer(r"^( *)(?:pub(?:\(crate\))? )?(?:extern \"C\" )?fn (\w+)", text, re.M):
        end = re.search(r"^" + m.group(1) + r"\}", text[m.end():], re.M)
        body = re.search(r"^" + m.group(1) + r"\{\n|\) (?:-> [^;{]+ )?\{\n", text[m.end():], re.M)
        if end and body and body.end() <= end.start():
            yield m.group(2), m.start(), text[m.end() + body.end():m.end() + end.start()]


def twins():
    """Functions whose bodies have one shape, names and numbers aside, and three lines or more, or one name and the same body."""
    shapes = {}
    same = {}
    for path in sources():
        text = path.read_text()
        for name, at, body in functions(text):
            lines = [l.strip() for l in body.split("\n") if l.strip() and not l.strip().startswith("//")]
            here = row(path, text, at + len(text[at:]) - len(text[at:].lstrip()), "one shape")
            if len(lines) < 3:
                same.setdefault((name, *lines), []).append(here)
                continue
            shape = re.sub(r"\w+", "w", re.sub(r'"[^"]*"', "s", "\n".join(lines)))
            shapes.setdefault(shape, []).append(here)
    for rows in [*shapes.values(), *same.values()]:
        if len(rows) > 1:
            yield from rows
            yield ""


def clauses():
    """Clauses that stand in three or more contracts, names of the clause aside."""
    seen = {}
    for path in sources():
        text = path.read_text()
        for m in re.finditer(r"^ *(?:ensures|requires)\*? (?:\w+ )?(\{(?:[^{}]|\{[^{}]*\})*\})", text, re.M):
            clause = re.sub(r"\s+", " ", m.group(1))
            seen.setdefault(clause, []).append(row(path, text, m.start(), "stands often"))
    for clause, rows in sorted(seen.items()):
        if len(rows) > 2:
            yield f"{len(rows)} times: {clause}"
            yield from rows
            yield ""


def answers():
    """Answers in the proofs of functions, file by file."""
    for path in sorted(ROOT.glob("crates/*/proofs/**/Answers.antt")):
        count = len(re.findall(r"^pub [\w+-]+ : goal\.", path.read_text(), re.M))
        yield f"{path.relative_to(ROOT)}: {count}"


LISTS = {2: twins, 5: clauses, 8: answers}


def main():
    points = [int(sys.argv[1])] if len(sys.argv) > 1 else range(1, 9)
    for point in points:
        rows = list(LISTS[point]() if point in LISTS else by_forms(point))
        if len(sys.argv) > 1:
            print("\n".join(rows))
        places = [r for r in rows if re.match(r"crates/", r)]
        print(f"point {point}: {len(places)} places")


main()
