#!/usr/bin/env python3
"""List the places in crates/*/src that docs/DESIGN-PASS.md counts, point by point.

    python3 tools/design_places.py [FOLDER] [--brief]

FOLDER is the top of a checkout (this one if none is given). --brief prints the counts only.
It goes by text: a place is a line, a function or a group of them, named by file and line.
"""
import collections
import pathlib
import re
import sys

WORD = re.compile(r"b?'(?:\\.|[^'\\])'|b?\"(?:\\.|[^\"\\])*\"|[A-Za-z_][A-Za-z_0-9]*|\d[\dxA-Fa-f_]*|[^\sA-Za-z_0-9]")
KEYWORDS = set(
    "as bool break const else enum false fn for if impl in let loop match mut pub ref return self Self struct trait true "
    "u8 u16 u32 u64 usize i16 i32 i64 where while Ok Err Some None Option Result".split()
)


def sources(top):
    for path in sorted(top.glob("crates/*/src/**/*.rt")):
        yield path.relative_to(top), path.read_text().splitlines()


def functions(lines):
    """(first line, head, contract, body) of each function that has a body."""
    i = 0
    while i < len(lines):
        match = re.match(r"(\s*)(pub(?:\(crate\))? )?fn \w+", lines[i])
        if not match:
            i += 1
            continue
        indent, start, head = match.group(1), i, []
        while i < len(lines) and not lines[i].rstrip().endswith((";", "{")) and not re.match(r"\s+(requires|ensures)", lines[i]):
            head.append(lines[i])
            i += 1
        contract = []
        if i < len(lines) and not re.match(r"\s+(requires|ensures)", lines[i]):
            head.append(lines[i])
        while i < len(lines) and lines[i] != indent + "{" and not lines[i].rstrip().endswith((";", " {")):
            if re.match(r"\s+(requires|ensures)", lines[i]):
                contract.append(lines[i])
            i += 1
        if i < len(lines) and lines[i].rstrip().endswith(";"):
            i += 1
            continue
        body = []
        while i + 1 < len(lines) and lines[i + 1] != indent + "}":
            body.append(lines[i + 1])
            i += 1
        yield start + 1, " ".join(head), contract, body
        i += 1


def shape(text):
    """The words of a text, each name by its order of appearance and each literal alike."""
    names, out = {}, []
    for word in WORD.findall(re.sub(r"//.*", "", text)):
        if word[0].isdigit() or word[0] in "'\"" or word.startswith(("b'", 'b"')):
            out.append("#")
        elif re.match(r"[A-Za-z_]", word) and word not in KEYWORDS:
            out.append("n%d" % names.setdefault(word, len(names)))
        else:
            out.append(word)
    return tuple(out)


def lines_that(top, pattern):
    return [f"{path}:{n}: {line.strip()}" for path, lines in sources(top) for n, line in enumerate(lines, 1) if re.search(pattern, line)]


def option_shapes(top):
    found = lines_that(top, r"^    (Unknown|Nothing|None|Absent|Missing|Memory)(\(.*\))?,")
    found += lines_that(top, r"^    (pub )?\w+: bool,")
    found += lines_that(top, r"(?i)// .*(where none is|past the (last|end))")
    found += lines_that(top, r"Err\(AllocError\)|=> Err\(|=> (Ok|Some)\(\w+\),?$|None => ")
    return found


def twins(top):
    groups = collections.defaultdict(list)
    for path, lines in sources(top):
        for n, head, _, body in functions(lines):
            name = re.search(r"fn (\w+)", head).group(1)
            words = shape("\n".join(body))
            if len(words) >= 12:
                groups[words].append(f"{path}:{n} {name}")
        text = "\n".join(line for line in lines if not re.match(r"\s*(//|ghost|#)", line))
        for match in re.finditer(r"(struct|enum) (\w+)[^{;]*\{([^}]*)\}", text):
            words = shape(match.group(3))
            if len(words) >= 6:
                groups[(match.group(1),) + words].append(f"{path} {match.group(1)} {match.group(2)}")
    return [" = ".join(group) for group in groups.values() if len(group) > 1]


def counted_loops(top):
    return lines_that(top, r"^\s*(while .*\{|loop \{|for \w+ in .*\.\..*\{)")


def hand_conversions(top):
    """Functions that are one match on a parameter, and flags made by a test of a match."""
    found, name = [], re.compile(r"fn (.*?)(?: *\{)?$")
    for path, lines in sources(top):
        for n, head, _, body in functions(lines):
            if body and re.match(r"\s*match \*?(self|\w+) \{", body[0]) and all(
                re.match(r"\s*(\}|match .*\{|[\w:|. (),'_<>=b\"-]+ (if .*)?=>.*|[\w:\"(),. ]*,?|\".*\",?)$", line) for line in body
            ):
                found.append(f"{path}:{n}: {name.search(head).group(1)}")
    return found + lines_that(top, r"matches!")


def travelling(top):
    """Groups of two parameters or more, by name and type, that three functions or more share; facts in three contracts or more."""
    groups, facts = collections.defaultdict(list), collections.defaultdict(set)
    for path, lines in sources(top):
        for n, head, contract, _ in functions(lines):
            name = f"{path}:{n}"
            inner = re.search(r"fn \w+(?:<.*?>)?\((.*)\)(?: ->.*)?", head)
            parameters = re.findall(r"(\w+): ([^,()]+(?:\([^)]*\))?)", inner.group(1)) if inner else []
            for pair in {tuple(sorted((a, b))) for a in parameters for b in parameters if a < b}:
                groups[pair].append(name)
            for fact in set(re.findall(r"\b([A-Z][A-Za-z]+) (?:\w+\.\w+|\w+ \w+\.now|guard|term)", " ".join(contract))):
                facts[fact].add(name)
    found = [f"{len(names)} functions take {' and '.join(f'{a}: {b.strip()}' for a, b in pair)}" for pair, names in groups.items() if len(names) > 2]
    return sorted(found, key=lambda line: -int(line.split()[0])) + [f"{len(names)} contracts have {fact}" for fact, names in sorted(facts.items()) if len(names) > 2]


def buffers(top):
    name = re.compile(r"fn (\w+)")
    found = lines_that(top, r"^\s+(pub )?\w+: (&'a mut )?\[.*\],|^    (pub )?(at|len|left|end): (usize|u8|u16),")
    for path, lines in sources(top):
        for n, head, _, body in functions(lines):
            text = "\n".join(body)
            if re.search(r"(for|while) [^\n]*\{\n[^}]*\breturn\b", text) and "?;" not in text:
                found.append(f"{path}:{n}: a search by hand in {name.search(head).group(1)}")
    return found


def switches(top):
    return lines_that(top, r"match (question|step|kind|mode|op)\b|\bfn\(|\bdyn ")


def proofs(top):
    found = []
    for crate in sorted(top.glob("crates/*")):
        files = sorted(crate.glob("proofs/**/*.antt"))
        answers = sum(len(re.findall(r"^pub [\w-]+ :", f.read_text(), re.M)) for f in files if f.name == "Answers.antt")
        lines = sum(len(f.read_text().splitlines()) for f in files)
        found.append(f"{crate.name}: {len(files)} files, {answers} answers, {lines} lines")
    return found


POINTS = [
    ("1 shapes of Option and Result, flags, numbers for kinds", option_shapes),
    ("2 twins", twins),
    ("3 counted loops", counted_loops),
    ("4 conversion and comparison by hand", hand_conversions),
    ("5 parameters and facts that travel together", travelling),
    ("6 buffers with a length, hand searches", buffers),
    ("7 switches and tables of functions", switches),
    ("8 proofs", proofs),
]


def main():
    words = [word for word in sys.argv[1:] if word != "--brief"]
    top = pathlib.Path(words[0] if words else ".")
    for name, places in POINTS:
        found = places(top)
        print(f"## {name}: {len(found)}")
        if "--brief" not in sys.argv:
            print("\n".join(found) + "\n")


main()
