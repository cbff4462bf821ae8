#!/usr/bin/env python3
"""Lists the places of docs/DESIGN-PASS.md: forms in src/ for which the language has a better one.

    python3 tools/places.py [ROOT]     every place, by point, with the counts
"""
import collections
import pathlib
import re
import sys

ROOT = pathlib.Path(sys.argv[1] if len(sys.argv) > 1 else ".")

# point, what it is, the text that shows it
PATTERNS = [
    (1, "own enum that holds one of two values", r"\benum \w+<"),
    (1, "field with a number for a kind", r"^    (pub )?(side|gate|float|band): u\d+,"),
    (1, "kind or refusal to its number by arms", r"fn number\(self\)[^{}]*\{[^{}]*\}\s*\{\s*match self"),
    (1, "number to its kind by arms", r"fn new\(number: u64\)[^{}]*\{[^{}]*\}\s*\{\s*match number"),
    (1, "Option made by an if", r"\{\s*Some\([^;]*?\)\s*\} else \{\s*None\s*\}"),
    (1, "match or else that a method says", r"None => (true|false|None)\b|Err\(_\) => Err\b|else \{\s*return false;"),
    (1, "status with a value beside it", r'extern "C" fn \w+'),
    (1, "zeros for no value", r"None => Found\b"),
    (1, "test whose answer the caller makes again", r"fn check_\w+"),
    (2, "range tested by hand", r"\w+ < 1 \|\| \w+ > |1 <= \w+ && \w+ <= |> MAX_PERCENT"),
    (3, "loop with a counted index", r"\bfor (?!_)\w+ in [^{]*\.\.[^{]*\{|\bwhile \w+ |\.enumerate\(\)|\bloop \{"),
    (4, "order by hand", r"fn (is_after|leads)\(|fn comes_before\(.*bool \{"),
    (4, "conversion by hand", r"fn number\(self\)[^{}]*\{[^{}]*\}\s*\{\s*match self|fn (new\(number: u64\)|found_of\()"),
    (4, "printing by hand", r"fn (line|bad_line|put_besides?|verdict)\("),
    (4, "zeros by hand", r"\{\n(\s+\w+: (0|\[0; 6\]),\n)+\s*\}"),
    (6, "slice with a length beside it", r"\bused: usize\b"),
    (6, "records written, and their number handed back", r"fn \w+(<.*>)?\([^)]*&mut \[Fill\][^)]*\) -> (usize|Result<usize)"),
    (6, "parallel arrays", r"^(pub\(crate\) )?const \w+: \[u32; \d+\]"),
    (6, "sorted list searched by hand", r"for \w+ in .*\.rev\(\)"),
    (6, "text as bytes", r"^\s*(pub )?fn \w+\([^)]*: &\[u8\]"),
    (7, "test as a type of its own", r"^pub trait Test|\bimpl\b.* Test<"),
    (7, "step chosen by a value", r"match \(.*\bevent\)"),
]

KEPT = {"if", "else", "for", "in", "while", "match", "let", "return", "self", "mut", "N", "S",
        "Some", "None", "Ok", "Err", "true", "false", "as"}


def sources():
    """Each source file without its tests."""
    for path in sorted(ROOT.glob("crates/*/src/**/*.rt")):
        if not path.name.endswith("_tests.rt"):
            text = re.split(r"#\[cfg\(test\)\]\nmod", path.read_text())[0]
            yield str(path.relative_to(ROOT / "crates")), text


def functions(text):
    """Name, head (with its clauses) and body of each function that has a body."""
    for m in re.finditer(r"^( *)(?:pub(?:\(crate\))? |extern \"C\" )*fn (\w+)", text, re.M):
        indent = m.group(1)
        rest = text[m.start():]
        opened = re.search(r"\{\n", rest)
        declared = re.search(r";$", rest, re.M)
        end = re.search(r"^%s\}$" % indent, rest, re.M)
        if not opened or not end or (declared and declared.start() < opened.start()):
            continue
        whole = rest[:end.end()]
        head, brace, body = whole.partition("\n" + indent + "{\n")
        if not brace:
            head, brace, body = whole.partition(" {\n")
        if brace:
            yield m.group(2), head, body


def shape(body):
    """The body with its names and numbers taken out."""
    body = re.sub(r"//.*", "", body)
    body = re.sub(r"b?\"[^\"]*\"|b'.'", "S", body)
    body = re.sub(r"\b\d[\d_]*(u\d+)?\b", "N", body)
    words = re.findall(r"\w+|[^\s\w]", body)
    return " ".join(w if w in KEPT or not w[0].isalpha() else "x" for w in words)


def shared(groups, least):
    return {k: v for k, v in groups.items() if len(v) >= least}


def travelling(calls):
    """For functions that have two parameters or more in common, three functions at least, those parameters."""
    sets = {a & b for a in calls.values() for b in calls.values() if len(a & b) >= 2}
    found = {}
    for together in sorted(sets, key=len):
        group = frozenset(f for f, given in calls.items() if together <= given)
        if len(group) >= 3:
            found[group] = together
    return found


def main():
    places = collections.defaultdict(list)
    shapes = collections.defaultdict(list)
    types = collections.defaultdict(list)
    facts = collections.defaultdict(set)
    calls = {}
    for name, text in sources():
        for point, what, pattern in PATTERNS:
            for m in re.finditer(pattern, text, re.M):
                line = text.count("\n", 0, m.start()) + 1
                shown = " ".join(m.group(0).split())[:60]
                places[point, what].append("%s:%d %s" % (name, line, shown))
        for m in re.finditer(r"^(?:pub(?:\(crate\))? )?struct (\w+)[^{;]*\{(.*?)^\}", text, re.M | re.S):
            fields = [re.sub(r"^\s*(pub )?\w+:|^\s*ghost \w+: \{ .*\}", "", l) for l in m.group(2).split("\n")]
            fields = [l.strip() for l in fields if l.strip() and not l.strip().startswith("/")]
            if "ghost " in m.group(2) or len(fields) == 1:
                types[" ".join(fields)].append(m.group(1))
        for fn, head, body in functions(text):
            where = "%s:%s" % (name, fn)
            form = shape(body)
            if len(form.split()) >= 9:
                shapes[form].append(where)
            for clause in re.findall(r"(?:requires|ensures)(?: \w+)? \{ (.*?) \}$", head, re.M):
                clause = re.sub(r"\b(self\.now|self\.new|self\.old|result|self)\b", "_", clause)
                for fact in clause.split(" × "):
                    facts[fact.strip("() ")].add(where)
            given = re.findall(r"(\w+: &?(?:mut )?[\w\[\]<>']+)", head.partition("(")[2].split("->")[0])
            calls[where] = frozenset(given)
    for form, group in shared(shapes, 2).items():
        places[2, "functions of one shape"].append(", ".join(group))
    for form, group in shared(types, 2).items():
        places[2, "types of one shape"].append(", ".join(group))
    for fact, group in shared(facts, 3).items():
        places[5, "fact in three contracts or more"].append("%s (%s)" % (fact, ", ".join(sorted(group))))
    for group, together in sorted(travelling(calls).items(), key=lambda x: sorted(x[0])):
        shown = "%s (%s)" % (", ".join(sorted(together)), ", ".join(sorted(group)))
        places[5, "parameters together in three or more"].append(shown)
    for (point, what), found in sorted(places.items()):
        print("%d  %s: %d" % (point, what, len(found)))
        for place in found:
            print("       " + place)
    proofs = [p for p in ROOT.glob("crates/*/proofs/**/*.antt") if p.name != "Lib.antt"]
    lines = sum(len(p.read_text().splitlines()) for p in proofs)
    answers = sum(1 for p in proofs if p.name in ("Answers.antt", "Invariants.antt", "Proof.antt"))
    print("8  files of proofs: %d, of them answers and invariants: %d; lines: %d" % (len(proofs), answers, lines))


main()
