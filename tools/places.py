#!/usr/bin/env python3
"""The places that docs/DESIGN-PASS.md counts: where the code has an older form than today's Rattle allows.

usage: places.py [--counts] [FOLDER]     FOLDER is the top of the repository, or else this one
Prints a line `point crate/file:line what` for each place; with --counts, how many there are for each point and crate. Points 1 to 7
are rules on the text of crates/*/src without comments and tests, point 8 on the files of crates/*/proofs. A rule finds what looks
like a place: whether it is one, and what keeps it as it is, a reader judges.
"""
import collections
import difflib
import itertools
import pathlib
import re
import sys

Fn = collections.namedtuple("Fn", "source at name params result facts body start")
KEYWORDS = set("as else fn for if in let loop match mut return while".split())
TRAITS = set("clone cmp default drop eq fmt from from_str hash into main new next partial_cmp try_from try_into".split())
NUMBER = r"(?:u8|u16|u32|u64|usize)"
LITERAL = r"(?:(?:\w+::)*[A-Z][A-Z_0-9]*|\d\w*|b'_+')"  # in a pattern: a constant, a number, a letter
PRINT = r"\b(?:say|text|byte|decimal|hex|left|right|padded|name|write_all|write!)\(\s*(?:out|text|b?\"|&)[^;{}]*"
# A variant that says that there is no value, or why not. The enums that have one, and one or two others, are point 1's.
FAILED = r"(?:Refused|Nothing|Failed|Missing|(?:No|Not|Bad|Wrong|Too|Past)(?:[A-Z]\w*)?|Un[a-z]\w*)\Z"

# (point, regular expression, what); a blank stands for any white space. A function whose body has it is a place:
IN_BODIES = [
    (1, r"\bErr\((\w+)\) =>(?: \{)?(?: return)? Err\(|\bNone =>(?: \{)?(?: return)? None\b|if let Err\(\w+\) = [^{]*\{ return"
        r"|let Some\([^)]*\) = [^;{]*else \{ return None|let Ok\([^)]*\) = [^;{]*else \{ return Err", "takes a Result apart by hand"),
    (1, r"(?:shapes::\w+\([^()]*\)|\bbefore|\bletter) [!=]= b'", "asks the letter of a kind"),
    (1, r"return [A-Z]\w+ \{(?: \w+: 0,?){2,} \}|else \{ return \d+;|_ => \d+, \} \}\Z", "gives a number where there is nothing"),
    (3, r"\b(\w+)\(([^;()]*)\b0\), \1\(\2\b1\)|\+ 1\] = [^;]*; [^;]*\+ 2\] = [^;]*; [^;]*\+ 3\] ="
        r"|\b(\w+)\(([^;]*)\b1,[^;]*; \3\(\4\b2,[^;]*; \3\(\4\b3,", "has calls or lines that count up"),
    (4, r"while [^{]*\{[^}]*if (?:\w+\[[^]]*\]|[\w:]*byte\([^()]*\)) [!=]= (?:\w+\[|[\w:]*byte\()", "compares by hand"),
    (4, r"while [^{]*\{[^}]*(?:\w+\[[^]]+\] = \w+\[|put\([^;]*byte\()", "copies by hand"),
    (4, r"\A\{ (?:\(?[\w.%() ]+ as \w+|if \w+ \{ 1 \} else \{ 0 \}) \}\Z", "converts a number by hand"),
    (4, r"if (\S+) <=? (\S+) \{ (?:\1|\2) \} else \{ (?:\1|\2) \}|if (\S+) < (\S+) \{ (?:\4 - (?:\3|1)) \} else \{ 0 \}"
        r"|if (\w+) < \S+ \{ \5 \+ 1 \} else \{ \5 \}", "writes out a method of the library"),
    (4, r"let (\w+) = \w+\.\w+; match \1\b", "copies a field to match on it"),
    (4, PRINT + r"\)\?; (?:return )?(?:out\.|output::)?" + PRINT, "puts a text together from pieces"),
    (4, r"\A\{ out\.\w+\(\w*\) \}\Z|\A\{ write!\(out, \S+\) \}\Z", "stands for a method of the writer"),
    (6, r"\bif (\w+) < [\w.:()]+ \{[^{}]*\w\[\1\b", "asks a length and then indexes"),
    (6, r"(?:\w|\)) \* (?:(?:3|67|(?:\w+::)?WIDTH)\b|(?:64|192)(?: \+|\) as))", "computes an index"),
    (6, r"let (?:mut )?\w+ = \[[^];]*; (?:\d{2,}|[A-Z]+)\]", "has a buffer of fixed size"),
    (7, r"if (\w+) == [\w:]+ \{ return [^?]{1,250}? if \1 == [\w:]+ \{ return", "picks a step by ifs"),
]
# A file that has it is a place for each text that is found, however often:
IN_FILES = [
    (1, rf"\b(?:(?:form|want|row|kind|opcode|op|letter|field|should): {NUMBER}|before: u8)\b", "a number for a kind"),
    (1, rf"(?:const \w+: {NUMBER} = \d+; (?:pub )?){{3,}}", "numbers by name"),
    (1, r"\w+_(?:read|given|set|known|found|valid): bool|-> \(bool, [^()]*\)|-> \([^()]*, bool\)", "a flag beside a value"),
    (4, r"form::say", "prints by marks of the repository's own"),
    (4, r"\b(?:18446744073709551615|0xFFFF_FFFF_FFFF_FFFF)\b", "u64::MAX written out"),
    (6, r"const \w+: \[\w+; \d+\](?= =)", "a table"),
    (6, r"(?<=\w)\[(?=(?:\w+::)+[A-Z][A-Z_0-9]*\])", "values of an array by named numbers"),
    (6, r"start: usize, pub end: usize", "positions in place of a slice"),
    (6, r"\[bool; \d+\]", "flags in an array beside the values"),
    (6, r"(?<!\*)b\"", "texts as bytes"),
]


def close(text, at):
    """The index behind the bracket that closes the one at `at`."""
    depth = 0
    for i in range(at, len(text)):
        depth += (text[i] in "([{") - (text[i] in ")]}")
        if depth == 0:
            return i + 1
    return len(text)


def parts(text):
    """The parts between the commas that stand in no bracket."""
    found, depth = [""], 0
    for before, c in zip(" " + text, text):
        depth += (c in "([{<") - (c in ")]}" or c == ">" and before != "-")
        found[-1:] = [found[-1], ""] if c == "," and depth == 0 else [found[-1] + c]
    return [" ".join(p.split()) for p in found if p.strip()]


class Source:
    """A file: its text, and for one of src/, where comments, tests and what stands in quotes are blank, its functions."""

    def __init__(self, path, below="src"):
        at = path.parts.index(below)
        self.crate, self.where, self.text = path.parts[at - 1], "/".join(path.parts[at - 1:]), path.read_text(encoding="utf-8")
        if below == "src":
            quoted = r"//[^\n]*|b?\"(?:\\.|[^\"\\])*\"|b?'(?:\\.[^']*|[^'\\])'"
            self.text = re.sub(quoted, self.blank, self.text.split("#[cfg(test)]")[0], flags=re.S)
            self.functions = list(self.scan())

    @staticmethod
    def blank(found):
        t, quote = found[0], found[0].find(found[0][-1])
        return " " * len(t) if t[:2] == "//" else t[: quote + 1] + re.sub(r"[^\n]", "_", t[quote + 1: -1]) + t[-1]

    def scan(self):
        for m in re.finditer(r"\bfn (\w+)(?:<(?:[^()]|\([^()]*\))*?>)?(?=\()", self.text):
            end = close(self.text, m.end())
            params = tuple(tuple(p.split(": ", 1)) for p in parts(self.text[m.end() + 1: end - 1]) if ": " in p)
            head = re.compile(r"\s*(?:->\s*(.*?))?\s*(?=requires\b|ensures\b|where\b|\{|;\s*\n)", re.S).match(self.text, end)
            at, facts = head.end(), []
            while clause := re.compile(r"\s*(?:where\b[^{}]*?)?(?:requires|ensures)(?: \w+)?\s*(?=\{)").match(self.text, at):
                at = close(self.text, clause.end())
                facts += re.sub(r"\.(?:old|now|new)\b", "", self.text[clause.end() + 1: at - 1]).split("×")
            start = self.text.find("{", at)
            body = "" if ";" in self.text[at: start] else self.text[start: close(self.text, start)]
            facts = {x + ")" * (x.count("(") - x.count(")")) for x in (" ".join(x.split()).strip("()") for x in facts)}
            yield Fn(self, m.start(), m[1], params, " ".join((head[1] or "").split()), frozenset(facts), body, start)


def by_pattern(s):
    """The places of a file that a regular expression finds."""
    for point, rule, what in IN_FILES:
        found = collections.defaultdict(list)
        for m in re.finditer(rule.replace(" ", r"\s+"), s.text):
            found[" ".join(m[0].split())].append(m.start())
        yield from ((point, s, at[0], f"{what}: {text[:60]}, {len(at)} in this file") for text, at in found.items())
    for f in s.functions:
        for point, rule, what in IN_BODIES:
            if m := re.search(rule.replace(" ", r"\s+"), f.body):
                yield point, s, f.start + m.start(), f"{f.name} {what}"


def matches(f):
    """The matches of a function, each with its index, its subject and its arms: a pattern, and what it gives."""
    for m in re.finditer(r"\bmatch\b([^{};]*)(?=\{)", f.body):
        at, end, arms = m.end() + 1, close(f.body, m.end()) - 1, []
        while arm := re.compile(r"[\s,]*(.+?)\s*=>\s*", re.S).match(f.body, at, end):
            at = close(f.body, arm.end()) if f.body[arm.end()] == "{" else arm.end()
            while at < end and f.body[at] != "," and f.body[at - 1] != "}":
                at = close(f.body, at) if f.body[at] in "([{" else at + 1
            arms.append((" ".join(arm[1].split()), " ".join(f.body[arm.end(): at].split())))
        yield f.start + m.start(), m[1].strip(), arms


def by_function(f, own, results):
    """The places of points 1, 3, 4, 6 and 7 that take more than one regular expression."""
    s = f.source
    for m in re.finditer(r"\bwhile ([^{}]*)(?=\{)", f.body):
        step = re.search(r"\b(\w+) [-+]= \d+;|\b(\w+) = [^;]*[-+] 1\b", f.body[m.end(): close(f.body, m.end())])
        yield 3, s, f.start + m.start(), f"{f.name}: a while loop that {'counts ' + (step[1] or step[2]) if step else 'steps by hand'}"
    for name in sorted(set(re.findall(rf"\b({results})::\w+(?:\s*[({{][^(){{}}]*[)}}])?\s*(?:=>|\||=[^=])", f.body))):
        yield 1, s, f.start + f.body.index(name + "::"), f"{f.name} takes {name} apart by hand"
    for at, subject, arms in matches(f):
        gives = [re.sub(r"b?\"[^\"]*\"|^\{ |output::", "", t) for _, t in arms]
        if all(t in ("true", "false") for t in gives):
            yield 4, s, at, f"{f.name}: a match for a bool"
        elif sum(bool(re.fullmatch(rf"{LITERAL}(?:(?: \| |\.\.=){LITERAL})*", p)) for p, _ in arms) >= 2:
            yield 1, s, at, f"{f.name}: a match on numbers or letters, {subject}"
        if sum(bool(re.match(PRINT.replace(r"|b?\"|&", ""), t)) for t in gives) >= 2:
            yield 4, s, at, f"{f.name}: a match that prints, {subject}"
        calls = [set(re.findall(r"[a-z]\w*", t[t.index("("):])) - {"out"} for (p, _), t in zip(arms, gives)
                 if re.match(r"(?:[a-z]\w*::)*[a-z]\w*\(", t) and not re.search(r"[({]|^_$", p)]
        if any(a & b & c for a, b, c in itertools.combinations(calls, 3)):
            yield 7, s, at, f"{f.name}: a match picks what to call, {subject}"
    if len(f.params) == 1 and f.name not in TRAITS and f.result not in ("", "bool", f.params[0][1]) and ".." not in f.body:
        given, whole = f.params[0][1], rf"\{{\s*(?:(?:let \w+ = [^;]*;\s*)?match\b|\[|(?:{own})(?:::\w+\()?\s*(?:\w+\s*)?\{{)"
        if re.match(whole, f.body) and (not re.fullmatch(NUMBER + "|bool", given) or f.name.endswith("_of")):
            yield 4, s, f.at, f"{f.name}: a conversion by hand, {given} to {f.result}"
    beside = {n for n, t in f.params if t in ("usize", "u64")} & set("size n len length start end first past from at to".split())
    ranges = len(beside - {"at"}) >= 2 or beside & {"size", "len", "length"} or "n" in beside and re.search(r"\bat\b|\.\.n|n\.\.", f.body)
    if ranges and any("[" in t for _, t in f.params):
        yield 6, s, f.at, f"{f.name}: a list with {', '.join(sorted(beside))} beside it"


def tokens(text, names):
    """A text's tokens, each name by when it came first: the same for two texts that differ in names, numbers and types."""
    for t in re.findall(r"b?\"[^\"]*\"|b?'[^']*'|\w+|[^\s\w]", text):
        value = re.match(r"\d|b?[\"']|(?:true|false)\Z", t)
        yield "value" if value else t if t in KEYWORDS or not t[0].isidentifier() else names.setdefault(t, len(names))


def twins(sources):
    """2: functions that differ in names, numbers and types alone, or nearly so; and types of one name."""
    functions = [(f, list(tokens(f.body, {}))) for s in sources for f in s.functions if f.name not in TRAITS]
    for i, (f, mine) in enumerate(functions):
        for g, other in functions[:i]:
            near = difflib.SequenceMatcher(None, mine, other, autojunk=False)
            same = mine == other and (len(mine) >= 20 and f.body.count("\n") >= 3 or f.name == g.name)
            long = len(mine) >= 36 and abs(len(mine) - len(other)) <= 8
            if same or long and all(r() > 0.92 for r in (near.real_quick_ratio, near.quick_ratio, near.ratio)):
                yield 2, f.source, f.at, f"{f.name} is {'' if same else 'nearly '}{g.name} of {g.source.where}"
                break
    types = [(m[1], s, m.start()) for s in sources for m in re.finditer(r"^(?:pub )?(?:struct|enum|type) (\w+)", s.text, re.M)]
    first = {name: s for name, s, _ in reversed(types)}
    yield from ((2, s, at, f"{name} is a type of {first[name].where} too") for name, s, at in types if s != first[name] and name != "Error")


def together(sources):
    """5: facts in the contracts of three or more functions, and three or more parameters that three or more heads have."""
    functions = [f for s in sources for f in s.functions]
    found = {f"the fact {x}": [f for f in functions if x in f.facts] for x in sorted(set().union(*(f.facts for f in functions)))}
    heads = {f: frozenset((n, re.sub(r"&(?:mut )?", "", t)) for n, t in f.params if n != "out") for f in functions}
    while heads:  # the largest group first; a head counts for one group
        groups = {a & b for a, b in itertools.combinations(set(heads.values()), 2)} | set(heads.values())
        users = {g: [f for f in heads if g <= heads[f]] for g in groups if len(g) >= 3}
        group = max((g for g in users if len(users[g]) >= 3), key=lambda g: (len(g) * len(users[g]), sorted(g)), default=None)
        if group is None:
            break
        found["the parameters " + ", ".join(f"{n}: {t}" for n, t in sorted(group))] = users[group]
        heads = {f: h for f, h in heads.items() if f not in users[group]}
    for what, users in found.items():
        for here in (list(g) for _, g in itertools.groupby(users if len(users) >= 3 else [], key=lambda f: f.source.crate)):
            yield 5, here[0].source, here[0].at, f"{what}, in {len(here)} of {len(users)} contracts"


def proofs(top):
    """8: what is written for one function, lines that three or more of these have, and what lemmas of two crates state."""
    lemmas, lines = collections.defaultdict(list), collections.defaultdict(dict)
    for p in [Source(p, "proofs") for p in sorted(top.glob("crates/*/proofs/**/*.antt"))]:
        if re.search(r"/(?:Answers|Invariants|Proof)\.antt$", p.where):
            yield 8, p, 0, f"{p.text.count(chr(10))} lines written for one function"
            for m in re.finditer(r"^(?!use |--|unfolding|.*: goal\.|.* (?:in|=)$) *(?:[\w-]+ c = )?(\S.{15,})$", p.text, re.M):
                lines[m[1]].setdefault(p, m.start())
        else:
            for m in re.finditer(r"^ *(?:pub )?[\w-]+ : (.{15,})$", p.text, re.M):
                lemmas[m[1]].append((p, m.start()))
    yield from ((8, *list(at.items())[0], f"{len(at)} files have the line {x}") for x, at in lines.items() if len(at) >= 3)
    yield from ((8, *at, f"{of[0][0].where} states {x}") for x, of in lemmas.items() for at in of if at[0].crate != of[0][0].crate)


def places(top, crates):
    """All places: their point, source, index and what they are."""
    sources, results = [Source(p) for c in crates for p in sorted(top.glob(f"crates/{c}/src/**/*.rt"))], {"-"}
    own = "|".join({m[1] for s in sources for m in re.finditer(r"\b(?:struct|enum) (\w+)", s.text)})
    for s, m in ((s, m) for s in sources for m in re.finditer(r"\benum (\w+)\s*(?=\{)", s.text)):
        variants = [re.match(r"\w+", v)[0] for v in parts(s.text[m.end() + 1: close(s.text, m.end()) - 1])]
        good, error = sum(not re.match(FAILED, v) for v in variants), re.compile(rf"Result<[^\n]*\b{m[1]}>")
        if 1 <= good <= min(2, len(variants) - 1) and not any(error.search(x.text) for x in sources):
            results.add(m[1])
            yield 1, s, m.start(), f"enum {m[1]}: {', '.join(variants)}"
    yield from (p for s in sources for f in s.functions for p in by_function(f, own, "|".join(results)))
    yield from itertools.chain(*map(by_pattern, sources), twins(sources), together(sources), proofs(top))


def main():
    top = pathlib.Path(([a for a in sys.argv[1:] if a != "--counts"] or ["."])[0]).resolve()
    crates = re.findall(r"^\w+", (top / "crates.txt").read_text(encoding="utf-8"), re.M)
    found = sorted(places(top, crates), key=lambda p: (p[0], crates.index(p[1].crate), p[1].where, p[2], p[3]))
    if "--counts" not in sys.argv:
        print("\n".join(f"{n} {s.where}:{s.text.count(chr(10), 0, at) + 1} {what}" for n, s, at, what in found))
        return
    counts = collections.Counter(x for n, s, _, _ in found for x in ((s.crate, n), ("all", n)))
    print("| crate | 1 | 2 | 3 | 4 | 5 | 6 | 7 | 8 |\n|---|" + "--:|" * 8)
    for c in crates + ["all"]:
        print(f"| {c} |" + "".join(f" {counts[c, n] or ''} |" for n in range(1, 9)))


main()
