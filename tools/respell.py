#!/usr/bin/env python3
"""Brings the repository's own definitions and lemmas to one spelling: facts in upper camel case, all else in snake case.
Run once, at the top, after the toolchain's own port script."""
import glob
import re

EDGE = r"[\s(){}\[\],;.λ«»`|]"
# a lemma whose name would fall together with the word that it is about
OWN = {
    "crates/graphic/specs/GraphsLemmas.antt": {"in-range": "in_range_tells"},
    "crates/survey_walk/proofs/Entries.antt": {"in-range": "in_range_passes"},
}
# lemmas whose names would fall together with words of the library
LIBRARY = {"bit-and": "bit_of_and", "bit-or": "bit_of_or", "bit-xor": "bit_of_xor"}


def definitions(path):
    """The names that a file defines at its top or in a module: (kind, name). Nothing below a `where` of a lemma counts."""
    found, inner = [], None
    with open(path, encoding="utf-8") as f:
        lines = f.read().split("\n")
    for line, after in zip(lines, lines[1:] + [""]):
        text = line.strip()
        if after.strip().startswith(": "):
            text += " :"  # a signature whose type begins in the next line
        if not text or text.startswith("--"):
            continue
        indent = len(line) - len(line.lstrip())
        if inner is not None:
            if indent <= inner:
                inner = None
            else:
                continue
        if re.match(r"where\b", text):
            inner = indent - 1
            continue
        m = re.match(r"(?:unfoldable |abbrev )?(?:pub )?(?:abbrev )?(record|data|ruleset)\s+([^\s:({]+)", text)
        if m:
            found.append((m.group(1), m.group(2)))
            continue
        m = re.match(r"(?:unfoldable |abbrev )?(?:pub )?(?:abbrev )?([^\s:({]+)(?: \{[^}]*\})* :(?: (.*))?$", text)
        if m and not (m.group(2) or "").startswith("goal."):
            found.append(("value", m.group(1)))
    return found


def imports(text):
    """What a file imports: (module, name, the name that it goes by)."""
    for module, names in re.findall(r"^(?:ghost )?use ([\w.+'-]+)\.\{([^}]*)\}", text, re.M):
        for each in names.split(","):
            name, _, other = each.strip().partition(" as ")
            yield module, name, other.strip() or name


def left_alone(text, own):
    """The names in a file that are the library's."""
    return {local for module, _, local in imports(text) if not module.startswith(own)}


def aliases(text):
    """Other names that a file gives to what it imports."""
    return {local: snake(local) for _, name, local in imports(text) if local != name and local[:1].islower() and snake(local) != local}


def snake(name):
    return re.sub(r"([a-z0-9])([A-Z])", lambda m: m.group(1) + "_" + m.group(2).lower(), name).replace("-", "_")


def camel(name):
    head, *rest = name.split("-")
    return head + "".join(part[:1].upper() + part[1:] for part in rest)


def main():
    specs = {p: definitions(p) for p in sorted(glob.glob("crates/*/specs/*.antt")) if not p.endswith("Lemmas.antt")}
    lemmas = {p: definitions(p) for p in sorted(glob.glob("crates/*/proofs/*.antt") + glob.glob("crates/*/specs/*Lemmas.antt"))}
    answers = {p: definitions(p) for p in sorted(glob.glob("crates/*/proofs/**/*.antt", recursive=True)) if p not in lemmas}
    turned = {}
    for names in specs.values():
        for _, name in names:
            turned[name] = camel(name) if name[:1].isupper() else snake(name)
    for names in lemmas.values():
        for _, name in names:
            if name not in turned:
                turned[name] = camel(name) if name[:1].isupper() else snake(name)
    turned = {a: b for a, b in {**turned, **LIBRARY}.items() if a != b}
    owned = dict(OWN)
    for p, names in answers.items():
        owned[p] = {n: snake(n) for _, n in names if n[:1].islower() and n not in turned and snake(n) != n}

    everywhere = set()
    for names in list(specs.values()) + list(lemmas.values()) + list(answers.values()):
        everywhere |= {n for _, n in names}
    for a, b in sorted(turned.items()):
        if b in everywhere:
            print("falls together: %s -> %s" % (a, b))
    back = {}
    for a, b in turned.items():
        if b in back:
            print("two become one: %s, %s -> %s" % (a, back[b], b))
        back[b] = a

    def respell(text, names):
        if not names:
            return text
        pattern = re.compile("(?:^|(?<=%s))(%s)(?=%s|$)" % (EDGE, "|".join(sorted(map(re.escape, names), key=len, reverse=True)), EDGE), re.M)
        return pattern.sub(lambda m: names[m.group(1)], text)

    own = tuple("Rattle.%s." % p.split("/")[1] for p in glob.glob("crates/*/src"))
    antt = sorted(glob.glob("crates/*/specs/**/*.antt", recursive=True) + glob.glob("crates/*/proofs/**/*.antt", recursive=True))
    for p in antt + sorted(glob.glob("crates/*/src/**/*.rt", recursive=True) + glob.glob("crates/*/must-fail/*.edit")):
        with open(p, encoding="utf-8") as f:
            old = f.read()
        kept = left_alone(old, own)
        names = {**turned, **owned.get(p, {}), **aliases(old)}
        names = {a: b for a, b in names.items() if a not in kept or a in aliases(old)}
        lines = [l if l.strip().startswith(("--", "//")) else respell(l, names) for l in old.split("\n")]
        write(p, old, "\n".join(lines))


def write(path, old, new):
    if new != old:
        with open(path, "w", encoding="utf-8") as f:
            f.write(new)


main()
