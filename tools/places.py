#!/usr/bin/env python3
"""Lists places of src/ that today's forms of the language may write more plainly.

    python3 tools/places.py [POINT]     every place, by point, then a line of counts
    python3 tools/places.py --at COMMIT [POINT]   the same for a commit

It goes by text: a place is somewhere to look, and docs/DESIGN-PASS.md says what became of each.
"""
import re
import subprocess
import sys
from collections import defaultdict

POINTS = {
    1: "flags and numbers where Option, Result or an enum says it",
    2: "twins",
    3: "loops that count an index by hand",
    4: "equality, conversion and printing by hand",
    5: "facts and parameters that travel together",
    6: "buffers with a length beside",
    7: "switches on which step to run",
}

# What a line of code may look like at a place of each point. `code` has no comments and no clauses.
PATTERNS = {
    1: [
        ("success told by a bool", r"fn \w+(?:<[^{;]*?>)?\([^{;]*?&mut [^{;]*?\) -> bool\b"),
        ("an error dropped for a bool", r"if let Err\(_\) = [^{]*\{\s*return false;"),
        ("absence passed on by hand", r"let Some\([^=]*\) = [^;{]*else \{\s*return None;"),
        ("an Option or Result made anew arm by arm", r"(?:None => None|Err\((\w+)\) => Err\(\1|Some\(\w+\) => Some\(\w+\.|Ok\((\w+)\) => Ok\(\2)"),
        ("Options taken apart in pairs", r"match \(\w+, \w+(?:, \w+)?\) \{"),
        ("a match with a default", r"None => (?:true|false|0),|Err\(_\) => 0,"),
        ("refusals as numbers by hand", r"(?:Err\((\w+)\) => \(?0?,? ?\1\.number\(\)|Err\((\w+)\) => Err\(\2\.number)"),
        ("a number for success or another fault", r"Ok\((?:_|\(\))\) => 0,|const NOT_WIPED: u32|\) -> (?:u32|\[u32; \d\]|\(u32, u32\)|\(u64, u32\)) \{|return \[0; 4\];"),
        ("a table from variants to numbers", r"match self \{\s*\w+::\w+ => \d+,"),
        ("a refusal of another crate dropped for a text", r"let Ok\(\w+\) = [^;{]*else \{\s*return Err\("),
    ],
    3: [
        ("for over indices that only index", r"for (\w+) in \w+\.\.[^{]*\{(?:(?!\n    \}\n)[\s\S])*?\[\1(?: as usize)?\]"),
        ("for over indices up to a length or a count", r"for \w+ in 0\.\.(?:\w+(?:\.\w+)*\.len\(\)|self\.count|count|depth)\b"),
        ("for over an index that is cast to one", r"for i in 0\.\.\d+u64"),
        ("while that moves an index", r"while [^{]*\b(?:n|i)\b[^{]*\{"),
        ("for with enumerate that indexes another", r"for \((\w+), \w+\) in [^{]*enumerate\(\) \{[^}]*\[\1\]"),
        ("a search or test loop", r"for \w+ in [^{]*\{\s*(?:let [^;]*;\s*)?if [^{]*\{\s*return (?:false|Some\()"),
        ("a bound test before an index", r"if \w+ < (?:\w+\.)*\w+\.len\(\) \{\s*Some\("),
    ],
    4: [
        ("equality by hand", r"\(?self\.(\w+) == other\.\1|\.high == \w+\.high"),
        ("conversion by hand", r"\bfn (?:columns|joined|text|from_words|node)\b"),
        ("a default by hand", r"Row \{\s*level: 0,\s*index: 0,|Tally \{\s*agree: 0"),
        ("printing by hand", r"let (?:number|words) = e\.(?:number|words)\(\);|let (?:text|value|bits|count|sum|squares) = (?:self|line|sum)\.\w+|fn text\("),
        ("printing of a taken apart struct", r"let Tally \{[^}]*\} = tally;"),
        ("an operator as a function", r"\bfn xor\("),
    ],
    6: [
        ("an array or a lent slice with a count", r"struct \w+(?:<[^{]*>)? \{[^}]*(?:\[\w+; \d+\]|&'a mut \[\w+\])[^}]*\}"),
        ("words of lent memory in pairs", r"\w+\[at(?: \+ \d)?\]"),
    ],
    7: [
        ("a flag that says which step", r"fn \w+(?:<[^{;]*?>)?\([^{;]*?: bool[^{;]*?\)"),
    ],
}

# Facts of clauses, and parameters, that may belong to a type: counted where three or more functions have them.
FACT = re.compile(r"(?:requires|ensures) ?\w* \{ (.*) \}\s*$")
PAIRS = [
    ("level: u32, index: u64", r"level: u32, index: u64"),
    ("a: usize, b: usize", r"a: usize,\s*b: usize"),
    ("depth: u32, index: u64", r"depth: u32, index: u64"),
]


def sources(commit):
    if commit is None:
        names = subprocess.run(["git", "ls-files", "crates/*/src/*.rt", "crates/*/src/**/*.rt"], capture_output=True, text=True, check=True).stdout.split()
        return {n: open(n, encoding="utf-8").read() for n in sorted(set(names))}
    names = subprocess.run(["git", "ls-tree", "-r", "--name-only", commit], capture_output=True, text=True, check=True).stdout.split()
    names = [n for n in names if "/src/" in n and n.endswith(".rt")]
    return {n: subprocess.run(["git", "show", f"{commit}:{n}"], capture_output=True, text=True, check=True).stdout for n in names}


def blank(text, pattern):
    return re.sub(pattern, lambda m: re.sub(r"[^\n]", " ", m.group(0)), text, flags=re.M)


def code_of(text):
    text = blank(text, r"//.*$")
    text = blank(text, r"^\s*ghost [^\n]*$")
    return blank(text, r"^\s*(?:requires|ensures)[ *][^\n]*$")


def bodies(files):
    """Bodies of functions by their shape, names and numbers left out: twins have the same."""
    shapes = defaultdict(list)
    for name, text in files.items():
        code = code_of(text)
        for m in re.finditer(r"\bfn (\w+)[^{;]*\{", code):
            depth, at = 1, m.end()
            while depth and at < len(code):
                depth += {"{": 1, "}": -1}.get(code[at], 0)
                at += 1
            body = re.sub(r"\s+", " ", code[m.end():at - 1]).strip()
            shape = re.sub(r"\b(?!(?:if|else|for|in|let|mut|match|return|self|Some|None|Ok|Err|while|usize|u64|as)\b)\w+\b", "_", body)
            if len(body) >= 24:
                shapes[shape].append((name, code.count("\n", 0, m.start()) + 1, m.group(1)))
    return {s: v for s, v in shapes.items() if len(v) > 1}


def shared(files):
    """Constants of one name, structs that share two fields or more, and runs of statements that stand in two functions."""
    rows = []
    consts, structs, runs = defaultdict(list), [], defaultdict(list)
    for name, text in files.items():
        code = code_of(text)
        for m in re.finditer(r"\bconst ([A-Z_]+): \w+ = \d", code):
            consts[m.group(1)].append(f"{name}:{code.count(chr(10), 0, m.start()) + 1}")
        for m in re.finditer(r"struct (\w+)(?:<[^{]*>)? \{([^}]*)\}", code):
            fields = {f.strip().removeprefix("pub(crate) ").removeprefix("pub ") for f in m.group(2).split(",") if ":" in f}
            structs.append((m.group(1), f"{name}:{code.count(chr(10), 0, m.start()) + 1}", fields))
        lines = [(i, re.sub(r"\s+", " ", l).strip()) for i, l in enumerate(code.splitlines(), 1)]
        lines = [(i, l) for i, l in lines if len(l) > 3 and not l.startswith(("use ", "pub use ", "mod ", "#["))]
        for k in range(len(lines) - 2):
            window = lines[k:k + 3]
            run = " ".join(l for _, l in window)
            run = re.sub(r"\bself\.\w+\b|\b[a-z]\b", "_", run)
            if len(run) > 70 and "fn " not in run and "assert" not in run and "0x" not in run:
                runs[run].append((name, window[0][0]))
    for c, where in sorted(consts.items()):
        if len(where) > 1:
            rows.append((f"constant {c}", "; ".join(where)))
    for k, (a, at, fa) in enumerate(structs):
        for b, bt, fb in structs[k + 1:]:
            if len(fa & fb) >= 2:
                rows.append((f"structs {a} and {b} share {len(fa & fb)} fields", f"{at}; {bt}"))
    last = None
    for run, where in sorted(runs.items(), key=lambda kv: kv[1]):
        if len(where) > 1:
            near = [(n, l - 1) for n, l in where]
            if near != last:
                rows.append(("statements in two places", "; ".join(f"{n}:{l}" for n, l in where)))
            last = where
    return rows


def found(files, point):
    rows = []
    if point == 2:
        for shape, where in sorted(bodies(files).items(), key=lambda kv: kv[1]):
            rows.append(("bodies of one shape", "; ".join(f"{n}:{l} {f}" for n, l, f in where)))
        return rows + shared(files)
    if point == 5:
        facts = defaultdict(list)
        for name, text in files.items():
            for i, line in enumerate(text.splitlines(), 1):
                m = FACT.search(line)
                if m:
                    fact = re.sub(r"\b(?:height|depth|level)\b ≤ 32", "number ≤ 32", m.group(1))
                    fact = re.sub(r"(?:\w+\.)*\w*\.?sound|[SE]\.Store\.sound", "sound", fact)
                    if "sound " in fact:
                        fact = "sound store"
                    facts[fact].append(f"{name}:{i}")
        for fact, where in sorted(facts.items()):
            if len(where) >= 3 and len(fact) < 60:
                rows.append((f"fact `{fact}`", "; ".join(where)))
        for what, pattern in PAIRS:
            where = [f"{n}:{t.count(chr(10), 0, m.start()) + 1}" for n, t in files.items() for m in re.finditer(pattern, t)]
            if len(where) >= 3:
                rows.append((f"parameters `{what}`", "; ".join(where)))
        return rows
    seen = set()
    for name, text in files.items():
        code = code_of(text)
        for what, pattern in PATTERNS[point]:
            for m in re.finditer(pattern, code):
                line = code.count("\n", 0, m.start()) + 1
                if (name, line) not in seen:
                    seen.add((name, line))
                    rows.append((what, f"{name}:{line}"))
    return rows


def main():
    args = sys.argv[1:]
    commit = None
    if args[:1] == ["--at"]:
        commit, args = args[1], args[2:]
    wanted = [int(args[0])] if args else sorted(POINTS)
    files = sources(commit)
    counts = []
    for point in wanted:
        rows = found(files, point)
        counts.append(f"{point}: {len(rows)}")
        print(f"\n{point}. {POINTS[point]}: {len(rows)}")
        for what, where in sorted(rows):
            print(f"  {what}: {where}")
    print("\ncounts: " + ", ".join(counts))


main()
