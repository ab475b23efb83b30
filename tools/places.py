#!/usr/bin/env python3
"""Lists the places that docs/DESIGN-PASS.md counts, in the sources below this folder or the one that is named.

    python3 tools/places.py [FOLDER]

It goes by text, and in part by the names that stood here when the places were first counted, so it finds places to look at:
what is found has to be read, and what it does not find is looked for by reading.
"""
import collections
import os
import re
import subprocess
import sys
import tempfile

top = sys.argv[1] if len(sys.argv) > 1 else "."
files = sorted(
    os.path.relpath(os.path.join(d, f), top)
    for c in os.listdir(os.path.join(top, "crates"))
    for d, _, fs in os.walk(os.path.join(top, "crates", c, "src"))
    for f in fs
    if f.endswith(".rt")
)
lines = {f: open(os.path.join(top, f)).read().split("\n") for f in files}

# An arm over Option or Result that only wraps anew, or that gives a truth value or a number.
ARM = re.compile(r"\s*(Ok|Err|Some|None)(\(([\w:]+|\w+\(_\))\))?( \| None)? => (\{ if |return Err|Ok|Err|Some|None|unreachable|true|false|0\b|1\b)")
LET = re.compile(r"let (Some|Ok)\(.* else \{|if let Some\(refusal\)|\.is_err\(\)")


def found(pattern):
    p = re.compile(pattern)
    return [(f, i + 1, t.strip()) for f in files for i, t in enumerate(lines[f]) if p.search(t)]


def rewrapping_matches():
    """One place for each match that has such an arm."""
    out = []
    for f in files:
        last = None
        for i, t in enumerate(lines[f]):
            if re.search(r"\bmatch\b.*\{", t):
                last = (f, i + 1, t.strip())
            if ARM.match(t) and last and last not in out:
                out.append(last)
    return out


def early_errors():
    return [
        (f, i + 1, t.strip())
        for f in files
        for i, t in enumerate(lines[f])
        if LET.search(t) and "return Err" in lines[f][i + 1]
    ]


def twins():
    """The pairs of the tool `duplicates`, which reads Rust, over copies with the ending of Rust."""
    with tempfile.TemporaryDirectory() as d:
        for f in files:
            to = os.path.join(d, f[:-3] + ".rs")
            os.makedirs(os.path.dirname(to), exist_ok=True)
            open(to, "w").write("\n".join(lines[f]))
        said = subprocess.run(["duplicates", "--repo", d, "--min-lines", "4", "--most", "200"], capture_output=True, text=True).stdout
    return [(t.strip(), 0, "") for t in said.split("\n") if re.match(r"\s*D\d+ ", t)]


def repeated_facts():
    """A fact that stands in the requires or ensures of three or more functions of a crate."""
    where = collections.defaultdict(set)
    for f in files:
        fn = "?"
        for t in lines[f]:
            m = re.search(r"\bfn (\w+)", t)
            fn = m.group(1) if m else fn
            m = re.match(r"\s*(requires|ensures)( \w+)? \{ (.*) \}", t)
            if m:
                parts = re.split(r" × ", m.group(3)) if m.group(1) == "requires" else [m.group(3)]
                for p in parts:
                    where[f.split("/")[1], re.sub(r"^\(+|\)+$", "", p)].add(fn)
    return [(c, 0, f"{fact}: {', '.join(sorted(fns))}") for (c, fact), fns in sorted(where.items()) if len(fns) >= 3]


points = [
    ("1a an Option of a refusal", found(r"-> Option<\w*(Refusal|Fault|Error)>")),
    ("1b a match that wraps an Option or a Result anew", rewrapping_matches()),
    ("1c an early return where `?` would do", early_errors()),
    ("1d a number for a refusal, a value beside a flag", found(r"fn (number|refusal_of)\b.*-> u32|fn place_of\(orders.*-> usize|^    order: Option<Order>")),
    ("2 lines that stand twice", twins()),
    ("3 an index counted by hand", found(r"\bwhile\b|\bin [0-9a-z_]+\.\.|\+= 1\b|saturating_add\(1\)")),
    ("4a a text or a conversion written by hand", found(r"-> &'static str|-> Result<String, AllocError>|fn number\(self\)| as (usize|u8|u16|u32|u64)\b")),
    ("4b a comparison written by hand", found(r"fn (is|is_same_price|prefers|serves_first|is_ahead|rows_tie|surplus)\b")),
    ("5 a fact in three contracts", repeated_facts()),
    ("6 a buffer with a length, a list searched by hand", found(r"&mut \[\w+; |= \[(EMPTY|empty); |\&'a mut \[|\.insert\(at|const [A-Z]+: \[Band|^    count: usize")),
    ("7 a switch on the step", found(r"enum Class|class: Class|\bfn\(|\bdyn\b")),
]
for name, places in points:
    print(f"{name}: {len(places)}")
    for f, i, t in places:
        print(f"    {f}:{i}: {t}" if i else f"    {f} {t}".rstrip())
