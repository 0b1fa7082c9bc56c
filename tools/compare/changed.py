"""changed.py BASE NOW [--private] [--no-lemmas] [--short] > changed.md: what changed between two checkouts, crate by crate, old and new side by side: public functions
(with --private the others too), public types, ghost items, definitions of specs/, theorems, and (but for --no-lemmas) other lemmas of proofs/*.antt."""

import collections
import difflib
import glob
import os
import re
import subprocess
import sys
import textwrap

import stm
import trees

# Files whose public statements README names as theorems.
THEOREMS = ("promises/proofs/Promises.antt", "paths/proofs/Theorems.antt", "paths/proofs/Worked.antt", "logs/proofs/Laws.antt", "input/proofs/Laws.antt", "order/proofs/Dilworth.antt")
WIDTH = 150
PAGE = []


def say(line=""):
    PAGE.append(line)


def named(root):
    """What README and docs/ put in backquotes."""
    out = set()
    for p in [os.path.join(root, "README.md"), *glob.glob(os.path.join(root, "docs/*.md")), *glob.glob(os.path.join(root, "docs/changes/*.md"))]:
        with open(p, encoding="utf-8") as f:
            out.update(re.findall(r"`([^`\n]+)`", f.read()))
    return out


def wrap(mark, line):
    lead = len(line) - len(line.lstrip())
    parts = textwrap.wrap(line, WIDTH, subsequent_indent=" " * (lead + 4), break_long_words=False, break_on_hyphens=False) or [""]
    return [f"{mark if i == 0 else '   '} {p}" for i, p in enumerate(parts)]


def beside(old, new):
    """Two lists of lines as one code block: what is in both once, and the rest marked."""
    say("```text")
    plain = lambda l: trees.squeeze(l)  # noqa: E731
    m = difflib.SequenceMatcher(None, [plain(l) for l in old], [plain(l) for l in new], autojunk=False)
    for tag, i, j, k, l in m.get_opcodes():
        if tag == "equal":
            lines = new[k:l] if l - k < 9 else [*new[k : k + 2], "..", *new[l - 2 : l]]
            for line in lines:
                PAGE.extend(wrap("   ", line))
        else:
            for line in old[i:j]:
                PAGE.extend(wrap("old", line))
            for line in new[k:l]:
                PAGE.extend(wrap("new", line))
    say("```")
    say()


def functions(old, new):
    """Pairs of functions: the same place, else the same name in another type or file of the crate, else the name and the contract in another crate."""
    pairs, left, rest = [], [], {k: v for k, v in new.items() if k not in old}
    for k, x in old.items():
        if k in new:
            pairs.append((k, x, k, new[k]))
        else:
            left.append((k, x))
    clauses = lambda x: [c[2] for c in x["requires"] + x["ensures"]]  # noqa: E731
    tests = (lambda a, x, b, y: a[0] == b[0] and clauses(x) == clauses(y), lambda a, x, b, y: a[0] == b[0], lambda a, x, b, y: clauses(x) and clauses(x) == clauses(y))
    for test in tests:
        still = []
        for k, x in left:
            q = next((q for q in rest if q[3] == k[3] and test(k, x, q, rest[q])), None)
            if q is None:
                still.append((k, x))
            else:
                pairs.append((k, x, q, rest.pop(q)))
        left = still
    return pairs, left, list(rest.items())


def types(old, new):
    for k in old:
        if k in new and old[k]["pub"] and (old[k]["text"], sorted(old[k]["attrs"])) != (new[k]["text"], sorted(new[k]["attrs"])):
            yield k, old[k], new[k]


def lines_of_type(t):
    return [*t["attrs"], t["text"]]


def names(some):
    return ", ".join(f"`{s}`" for s in some)


def section(title):
    say(f"### {title}")
    say()


def counted(n, one, many):
    return f"{n} {one if n == 1 else many}"


def main(argv):
    base, now = argv[0], argv[1]
    of, og, ot = trees.read_rt(base)
    nf, ng, nt = trees.read_rt(now)
    fpairs, fgone, fnew = functions(of, nf)
    pairs, lost, new = stm.compare(base, now)
    pages = named(base) | named(now)
    changed = [(a, b) for a, b in pairs if trees.statement(a) != trees.statement(b) or (a.pub and not b.pub)]
    totals = collections.Counter()
    commit = lambda root: subprocess.run(["git", "rev-parse", "--short", "HEAD"], cwd=root, capture_output=True, text=True).stdout.strip()  # noqa: E731
    say(f"Lines with `old` are those of {commit(base)}, lines with `new` those of {commit(now)}; a line without a mark stands in both, and `..` stands for more of these.")
    say()
    crates = sorted({k[0] for k in of} | {it.crate for it, _ in pairs}, key=lambda c: order(now).index(c) if c in order(now) else 99)
    for crate in crates:
        mine = [p for p in fpairs if p[0][0] == crate and (p[0] != p[2] or not trees.same_function(p[1], p[3]))]
        public = [p for p in mine if trees.is_public(p[0], p[1]) or trees.is_public(p[2], p[3])]
        private = [p for p in mine if p not in public and (p[1]["requires"] or p[1]["ensures"] or p[3]["requires"] or p[3]["ensures"])]
        tys = [t for t in types(ot, nt) if t[0][0] == crate]
        ghosts = [(k, og[k], ng[k]) for k in og if k[0] == crate and k in ng and og[k] != ng[k]]
        new_public = [trees.full(k) for k, x in fnew if k[0] == crate and trees.is_public(k, x)]
        new_types = [f"{k[0]}::{k[1]}" for k in nt if k[0] == crate and k not in ot and nt[k]["pub"]]
        new_ghosts = [f"{k[1]}.{k[2]}" for k in ng if k[0] == crate and k not in og and k[1] != "const"]
        some = [(a, b) for a, b in changed if a.crate == crate]
        defs = [p for p in some if p[0].place == "specs"]
        is_theorem = lambda a: a.pub and not a.transparent and (f"{a.crate}/{a.file}" in THEOREMS or a.name in pages)  # noqa: E731
        theorems = [p for p in some if p[0].place == "proofs" and is_theorem(p[0])]
        lemmas = [p for p in some if p[0].place == "proofs" and not is_theorem(p[0])]
        new_defs = [it.name for it in new if it.crate == crate and it.place == "specs"]
        new_lemmas = [it.name for it in new if it.crate == crate and it.place == "proofs" and it.pub]
        if not (mine or tys or ghosts or some or new_public or new_types or new_defs or new_ghosts or new_lemmas):
            continue
        say(f"## `{crate}`")
        say()
        for label, ps in (("Public functions", public), ("Functions inside the crate", private if "--private" in argv else [])):
            if ps:
                section(label)
                for k, x, q, y in ps:
                    totals[label] += 1
                    say(f"`{trees.full(k)}`" + (f", now `{trees.full(q)}`" if trees.full(q) != trees.full(k) else "") + (", no longer public" if trees.is_public(k, x) and not trees.is_public(q, y) else ""))
                    say()
                    beside(trees.function_lines(k, x), trees.function_lines(q, y))
        for label, items in (
            ("Public types", [(f"{k[0]}::{k[1]}", lines_of_type(x), lines_of_type(y)) for k, x, y in tys]),
            ("Ghost items and constants", [(f"{k[1]}.{k[2]}", x, y) for k, x, y in ghosts]),
        ):
            if items:
                section(label)
                for name, x, y in items:
                    totals[label] += 1
                    say(f"`{name}`")
                    say()
                    beside(x, y)
        for label, ps in (("Definitions", defs), ("Theorems", theorems), ("Lemmas", [] if "--no-lemmas" in argv else lemmas)):
            if ps:
                section(label)
                statements(ps)
                totals[label] += len(ps)
        for label, ns in (("New public functions", new_public), ("New public types", new_types), ("New type invariants and ghost items", new_ghosts), ("New definitions", new_defs), ("New lemmas", new_lemmas)):
            if ns:
                totals[label] += len(ns)
                say(f"{label}: {names(ns)}.")
                say()
    print("counts: " + ", ".join(f"{k} {v}" for k, v in totals.items()), file=sys.stderr)
    if "--short" not in argv:
        print("\n".join(PAGE))


def statements(ps):
    """Those of which only what stands around them changed are told together."""
    around = collections.OrderedDict()
    for a, b in ps:
        same = "\n".join(map(trees.squeeze, a.raw)) == "\n".join(map(trees.squeeze, b.raw))
        if same and a.teles != b.teles:
            around.setdefault((a.file, b.file, a.teles, b.teles), []).append((a, b))
        else:
            around[a.file, b.file, a.name, a.at] = [(a, b)]
    for group in around.values():
        a, b = group[0]
        where = f", `{a.file}`" + (f", now `{'' if a.crate == b.crate else b.crate + '/'}{b.file}`" if (a.crate, a.file) != (b.crate, b.file) else "")
        less = ", no longer `pub`" if a.pub and not b.pub else ""
        around_only = a.teles != b.teles and trees.squeeze(" ".join(a.raw)) == trees.squeeze(" ".join(b.raw))
        say(names(x.name for x, _ in group) + where + less + (": their own words are the same, and what stands around them is" if around_only else ""))
        say()
        f = (lambda it: [f"module _ {t} where" for t in it.teles]) if around_only else trees.shown
        beside(f(a), f(b))


def order(root):
    with open(os.path.join(root, "crates.txt"), encoding="utf-8") as f:
        return [re.split(r"[ :]", l)[0] for l in f if l.strip() and not l.startswith("#")]


if __name__ == "__main__":
    main(sys.argv[1:])
