#!/usr/bin/env python3
"""Lists the places in crates/*/src that docs/DESIGN-PASS.md counts, by point.

count_forms.py [TREE] [--count]: TREE is a checkout, this one if none is given; with --count the sums alone.
"""
import re
import sys
from collections import Counter, defaultdict
from pathlib import Path

# A point's letter, what it looks for, and the pattern of a line.
LINES = [
    ("1a own enum beside Option and Result", r"^\s*(Refused|GivenUp|Nothing)(\(|,)"),
    ("1b comment: a value that stands for none",
     r"^// .*(, or (0|256|`n`|the length)( |\.|,)|`m` where there is( none|$)|is `m` where there$|16 where the byte|, or 17 where|, plus one\.|; gives 1, or 0|^// 1 where)"),
    ("1b a figure tested for none",
     r"(if|while) (next|before|old|length|place|v|found|item|b|x|w\[\w+ \+ \w\]|[\w:]+\(.*\)) (!=|==|<|<=) (0|1|a|m|n|256) \{$|if (15|9) < \w+ \{$|if mark == 0 \|\|"),
    ("1c a number for a kind of word", r"(kind_of\(.*[!=]= (kind|\d+)|\bkind [!=]= \d+|: u32 = 0x[1-9A-F]000_0000;|0x[23F]000_0000 \+|0x1000_0000 \+|, [57], |kind: u32)"),
    ("1d a number for a refusal", r"((Refused|GivenUp)\(\d+,|return 1[67];|refusal\(rt, 13,|: u32 = 13;|number [!=]= 0)"),
    ("3 while and loop", r"(^\s*while |\bloop \{$)"),
    ("3 for over an index alone", r"^\s*for \w+ in 0\.\..*(\.len\(\)|count) \{$"),
    ("4 a cast", r"\bas (u8|u32|u64|usize)\b"),
    ("4 a derive", r"#\[derive\("),
    ("4 a From, TryFrom or Display", r"^impl.* (From<|TryFrom<|fmt::Display )"),
    ("6 a table of items by index", r"\[(NEXT|PREV|VIA|QUEUE)\b"),
    ("6 words written to a lent buffer, their count given back", r"fn \w+\(.*(out|words): &mut \[u32\].*\) -> usize"),
    ("7 a choice of the step to run", r"match (service|word) \{$"),
]

# A clause's facts, without which value of a parameter is meant.
CLAUSE = re.compile(r"^\s*(?:requires|ensures)(?: \w+)? \{(.*?)\}$", re.M | re.S)


def functions(text):
    """The name, the parameters and the clauses of each function."""
    for m in re.finditer(r"\bfn (\w+)(?:<(?:->|<[^<>]*>|[^<>])*>)?\((.*?)\)[^{;]*?\n((?:\s*(?:requires|ensures|where)\b.*?)?)\{\n", text, re.S):
        yield m.group(1), m.group(2), m.group(3)


def facts(clauses):
    for clause in CLAUSE.findall(clauses):
        text = re.sub(r"\s+", " ", clause).strip()
        for fact in text.split(" × "):
            fact = re.sub(r"\.(now|old|new)\b", "", fact.strip())
            while fact.startswith("(") and fact.endswith(")"):
                fact = fact[1:-1].strip()
            if fact:
                yield fact


def parameters(text):
    names = [re.sub(r"^(mut )?", "", p.strip()) for p in re.split(r",(?![^<]*>)", text) if ":" in p]
    return [re.sub(r"&mut ", "&", n) for n in names]


def main():
    tree = Path(next((a for a in sys.argv[1:] if not a.startswith("-")), "."))
    short = "--count" in sys.argv
    files = sorted(tree.glob("crates/*/src/*.rt"))
    for name, pattern in LINES:
        found = [
            (f.relative_to(tree), n, line.strip())
            for f in files
            for n, line in enumerate(f.read_text().splitlines(), 1)
            if re.search(pattern, line)
        ]
        print(f"{name}: {len(found)}")
        for f, n, line in [] if short else found:
            print(f"    {f}:{n}: {line}")
    said, pairs = defaultdict(set), defaultdict(set)
    for f in files:
        for name, params, clauses in functions(f.read_text()):
            for fact in facts(clauses):
                said[fact].add(f"{f.parts[-3]}::{name}")
            names = parameters(params)
            for i, a in enumerate(names):
                for b in names[i + 1:]:
                    pairs[(a, b)].add(f"{f.parts[-3]}::{name}")
    for name, table in (("5 a fact in three contracts or more", said), ("5 two parameters together in four functions or more", pairs)):
        most = 3 if table is said else 4
        rows = sorted(((k, v) for k, v in table.items() if len(v) >= most), key=lambda r: (-len(r[1]), str(r[0])))
        print(f"{name}: {len(rows)}")
        for k, v in [] if short else rows:
            print(f"    {len(v):2} {k if isinstance(k, str) else ', '.join(k)}")
    # Those of a method or of a closure stand in folders of folders.
    answers = [f for f in sorted(tree.glob("crates/*/proofs/*/**/*.antt"))]
    text = [f.read_text() for f in answers]
    print(f"8 files of answers and invariants: {len(answers)}, lines {sum(t.count(chr(10)) for t in text)}, answers "
          f"{sum(len(re.findall(r'^pub [^:]+ : goal', t, re.M)) for t in text)}")


main()
