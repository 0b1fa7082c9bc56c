"""stm.py BASE NOW [--short]: all statements (theorems, lemmas, definitions) by name with their text squeezed: LOST (in BASE only), CHANGED, MOVED, NEW."""

import collections
import sys

import trees


def table(root):
    found, strange = trees.antt(root)
    for s in strange:
        print(f"not understood in {root}: {s}", file=sys.stderr)
    by = collections.OrderedDict()
    for it in found:
        by.setdefault((it.crate, it.place, it.file, it.name), []).append(it)
    # A name that stands twice in a file: numbered in order.
    out = collections.OrderedDict()
    for k, v in by.items():
        for i, it in enumerate(v):
            out[(*k, i)] = it
    return out


def compare(base, now):
    """Pairs (old, new) by place, else by name in the crate, else by name and statement anywhere; what is left of both."""
    old, new = table(base), table(now)
    pairs, left_old, left_new = [], [], []
    used = set()
    for k, it in old.items():
        if k in new:
            pairs.append((it, new[k]))
            used.add(k)
        else:
            left_old.append((k, it))
    rest = [(k, it) for k, it in new.items() if k not in used]
    # Within the crate, first with the same statement, then by the name alone; then in any crate with the same statement, or the same name of a definition.
    tests = (
        lambda a, b: a.crate == b.crate and trees.statement(a) == trees.statement(b),
        lambda a, b: a.crate == b.crate and a.place == b.place,
        lambda a, b: trees.statement(a) == trees.statement(b),
        lambda a, b: a.crate == b.crate,
    )
    for test in tests:
        still = []
        for k, it in left_old:
            i = next((i for i, (q, b) in enumerate(rest) if b.name == it.name and test(it, b)), None)
            if i is None:
                still.append((k, it))
            else:
                pairs.append((it, rest[i][1]))
                del rest[i]
        left_old = still
    return pairs, [it for _, it in left_old], [it for _, it in rest]


def name(it):
    return f"{it.crate}/{it.file} {it.name}"


def main(argv):
    pairs, lost, new = compare(argv[0], argv[1])
    changed = [(a, b) for a, b in pairs if trees.statement(a) != trees.statement(b)]
    moved = [(a, b) for a, b in pairs if trees.statement(a) == trees.statement(b) and (a.crate, a.file) != (b.crate, b.file)]
    less = [(a, b) for a, b in pairs if a.pub and not b.pub]
    count = lambda place: sum(it.place == place for it in table(argv[0]).values())  # noqa: E731
    print(f"definitions (specs) {count('specs')}, items of proofs {count('proofs')} in BASE; the same {len(pairs) - len(changed)}, LOST {len(lost)}, CHANGED {len(changed)}, MOVED {len(moved)}, NEW {len(new)}, no longer pub {len(less)}")
    if "--short" in argv:
        return
    for label, some in (("LOST", lost), ("NEW", new)):
        for it in some:
            print(f"{label} {name(it)}\n    {trees.statement(it)}")
    for a, b in changed:
        print(f"CHANGED {name(a)}" + (f" -> {name(b)}" if name(a) != name(b) else "") + f"\n  - {trees.statement(a)}\n  + {trees.statement(b)}")
    for a, b in moved:
        print(f"MOVED {name(a)} -> {name(b)}")
    for a, b in less:
        print(f"NO LONGER PUB {name(a)}")
    # The same words, but an import that names another definition of this repository.
    for a, b in pairs:
        if trees.statement(a) == trees.statement(b):
            u, v = (trees.uses(r, f"crates/{x.crate}/{x.file}") for r, x in ((argv[0], a), (argv[1], b)))
            for w in set(trees.statement(a).replace("(", " ").replace(")", " ").split()):
                p, q = u.get(w.split(".")[0]), v.get(w.split(".")[0])
                if p and q and p != q and (p.startswith("Rattle.") or q.startswith("Rattle.")):
                    print(f"ANOTHER IMPORT {name(a)}: {w} is {p}, now {q}")


if __name__ == "__main__":
    main(sys.argv[1:])
