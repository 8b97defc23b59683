#!/usr/bin/env python3
"""Spells this repository's own definitions and lemmas as Rattle's guide asks: words in snake case, types and facts in camel case.

usage: tools/respell.py [FOLDER]     FOLDER: the repository, else the one that this script stands in

It was run once, right after the toolchain's port.py and before `rt fmt` in each crate, and needs no second run. What it turns:
- a name that specs/ or proofs/*.antt declare, and that has a capital after a small letter or a dash: `startsAt-two` becomes `starts_at_two`;
- the algorithms of the Node.js documents get the documents' own spelling: `LOAD-AS-FILE` becomes `LOAD_AS_FILE`;
- the facts of JsonLimits, which were in small letters, get a capital.
What keeps its spelling: functions of src/, names of RFC 8259's grammar (JsonGrammar), names that a library or Rattle itself makes, strings.
Where two names would fall together they are printed, and the lemma gets `_lem` at its end.
"""

import collections
import os
import re
import sys

HERE = os.path.dirname(os.path.realpath(__file__))
ROOT = sys.argv[1] if len(sys.argv) > 1 else os.path.dirname(HERE)
CRATES = os.path.join(ROOT, "crates")
NAME = r'[^\s(){}\[\].;,@"«»`]+'
HEAD = re.compile(r"^\s*(?:(?:abbrev|unfoldable|pub|data|record|ruleset|pattern|mutual|infix[lr]?|\d+) )*([^\s:({\[]+(?: [^\s:({\[]+)*)(?:\s+[({\[].*)?\s*:(?:\s|$)")
FACTS = {
    "continuation": "Continuation",
    "string-over": "StringOver",
    "values-before": "ValuesBefore",
    "members-before": "MembersBefore",
    "text-over": "TextOver",
    "manifest-over": "ManifestOver",
}
# Words of the Node.js documents' steps, which the comments quote.
DOCUMENTS = {"packageURL", "packageName", "packageSubpath", "patternMatch", "mainExport", "isImports", "matchKey"}
# Names that would fall together with another, which is a different thing.
APART = {"allHold": "every_row_holds", "noDigit": "no_digit_follows"}
# A lemma that has its snake case already, and whose definition gets the same name: each file that declares or imports it.
GIVES_WAY = {
    "first_member": ("first_member_lem", "Rattle.laws.specs.JsonAtLaws"),
    "no_member": ("neither_member", "Rattle.laws.specs.ManifestViewLaws"),
}


def files(end):
    for folder, dirs, names in os.walk(CRATES):
        dirs[:] = sorted(d for d in dirs if d != "out")
        for n in sorted(names):
            if n.endswith(end):
                yield os.path.join(folder, n)


def of_a_function(path):
    return re.search(r"/proofs/.+/", path) is not None


def read(path):
    with open(path, encoding="utf-8") as f:
        return f.read()


def declared(text):
    """The names that a text declares: definitions and lemmas, in a block too, constructors and fields."""
    for line in text.split("\n"):
        m = HEAD.match(line)
        if m and not line.startswith(("--", "use ")):
            yield from m.group(1).split()


def fields(text):
    """The names that a text declares in a block: the fields of records among them."""
    for line in text.split("\n"):
        m = HEAD.match(line)
        if m and line.startswith("  "):
            yield from m.group(1).split()


def respelled(name):
    if name in FACTS:
        return FACTS[name]
    parts = []
    for part in name.split("-"):
        if part[:1].islower():
            part = re.sub(r"(?<=[a-z0-9])([A-Z]+)(?![a-z])", lambda m: "_" + m.group(1).lower(), part)
            part = re.sub(r"(?<=[a-z0-9])([A-Z])", lambda m: "_" + m.group(1).lower(), part)
        parts.append(part)
    return "_".join(parts)


def wanted(name):
    return name in FACTS or "-" in name or (name[:1].islower() and re.search(r"[a-z0-9][A-Z]", name) is not None)


def libraries(text):
    """The names that a file imports from elsewhere than the repository's own crates."""
    own = {c for c in os.listdir(CRATES)}
    for m in re.finditer(r"(?m)^(?:ghost )?use ([^\s;{]+)\.\{([^}]*)\}", text):
        steps = m.group(1).split(".")
        if steps[0] == "Rattle" and len(steps) > 1 and steps[1] in own:
            continue
        for item in m.group(2).split(","):
            yield item.split(" as ")[0].strip()


def undotted(text):
    """The words of a text's code that stand behind no dot, but for those that only name a folder of proofs/."""
    text = re.sub(r'"[^"\n]*"', '""', re.sub(r"(?m)(^|\s)--.*$", "", text))
    return re.findall(r"(?<![\w.'-])" + NAME, text)


def table():
    names, grammar, outside, spelled = set(), set(), set(), set()
    of_records = set()
    for path in files(".antt"):
        text = read(path)
        outside.update(libraries(text))
        of_records.update(fields(text))
        spelled.update(undotted(text))
        if os.path.basename(path) == "JsonGrammar.antt":
            grammar.update(declared(text))
        elif not of_a_function(path):
            names.update(declared(text))
    turned = {n: respelled(n) for n in names - grammar - outside if wanted(n)}
    turned.update(APART)
    meets = collections.defaultdict(list)
    for old, new in turned.items():
        meets[new].append(old)
    for new, olds in sorted(meets.items()):
        if len(olds) > 1 or new in spelled:
            lemmas = [o for o in olds if "-" in o]
            print(f"look: {' and '.join(sorted(olds))}: {new}" + (", already" if new in spelled else ""))
            for o in lemmas:
                turned[o] = new + "_lem"
    FIELDS.update(of_records & set(turned))
    return turned


# Names of fields, which stand behind a dot.
FIELDS = set()


def turner(turned, skip, dotted):
    def one(m):
        word = m.group(0)
        if word in skip or word not in turned:
            return word
        before = m.string[: m.start()]
        if before.endswith(".") and "-" in word and word not in FIELDS and not re.search(dotted + r"$", before):
            return word
        return turned[word]

    return one


def in_code(text, turned, skip, dotted):
    one = turner(turned, skip, dotted)
    return "".join(p if p.startswith('"') else re.sub(NAME, one, p) for p in re.split(r'("(?:\\.|[^"\\\n])*")', text))


def in_comment(text, turned):
    """A comment's own names stand in backticks or are those of the algorithms; other words may be the documents', as packageURL."""

    def one(m):
        return turned.get(m.group(0), m.group(0))

    text = re.sub(NAME, lambda m: one(m) if m.group(0).isupper() or m.group(0) not in DOCUMENTS and "-" not in m.group(0) else m.group(0), text)
    return re.sub(r"`([^`\n]+)`", lambda m: "`" + re.sub(NAME, one, m.group(1)) + "`", text)


def whole(text, turned, mark, skip):
    aliases = re.findall(r"(?m)^(?:ghost )?use Rattle\.\S+?(?:\.(\w+)| as (\w+));?$", text)
    dotted = r"(?<![\w.])(?:" + "|".join({a or b for a, b in aliases} | {r"Rattle(?:\.[\w+]+)+"}) + r")\."
    out = []
    for line in text.split("\n"):
        m = re.search(r'^(?:[^"]|"(?:\\.|[^"\\])*")*?(?=' + ("//" if mark == "//" else r"(?:^|\s)--(?:\s|$)") + ")", line)
        code, rest = (line[: m.end()], line[m.end():]) if m else (line, "")
        out.append(in_code(code, turned, skip, dotted) + in_comment(rest, turned))
    return "\n".join(out)


def main():
    turned = table()
    for path in list(files(".antt")) + list(files(".rt")) + list(files(".edit")):
        text = read(path)
        skip = set()
        own = turned
        for old, (new, home) in GIVES_WAY.items():
            at_home = path.endswith(os.path.join(*home.split(".")[1:]) + ".antt")
            if at_home or re.search(r"(?m)^use " + re.escape(home) + r"\.\{[^}]*\b" + old + r"\b", text):
                own = dict(own, **{old: new})
        if path.endswith(".antt") and of_a_function(path):
            skip = {n for n in declared(text) if n in turned}
        if path.endswith(".edit"):
            new = "\n".join(
                (re.match(r"\w+: ?", l).group(0) + in_code(l[re.match(r"\w+: ?", l).end():], own, skip, r"[A-Z]\w+\.")) if re.match(r"(old|new):", l) else in_comment(l, own)
                for l in text.split("\n")
            )
        else:
            new = whole(text, own, "--" if path.endswith(".antt") else "//", skip)
        if new != text:
            with open(path, "w", encoding="utf-8") as f:
                f.write(new)
    print(f"{len(turned)} names respelled")


if __name__ == "__main__":
    main()
