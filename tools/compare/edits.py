"""edits.py BASE NOW: for each new public function with a contract, which must-fail edits change its text; those with none are named at the end.
Also: edits of BASE that are gone, and edits whose old text does not stand exactly once."""

import glob
import os
import re
import sys

import trees
import contracts


def parse(path):
    """The edit's replacements: (file, old)."""
    out, file, old, part = [], None, None, None
    for line in open(path, encoding="utf-8").read().split("\n"):
        m = re.match(r"(file|old|new):(?: (.*))?$", line)
        if m and m[1] == "file":
            file, part = m[2].strip(), None
        elif m and m[1] == "old":
            old, part = [m[2] or ""], "old"
        elif m and m[1] == "new":
            out.append((file, "\n".join(old)))
            part = "new"
        elif part == "old":
            old.append(line)
    return out


def spans(root, crate, rel):
    """The functions of a file: place, name, from where to where."""
    raw = open(os.path.join(root, "crates", crate, rel), encoding="utf-8").read()
    t = contracts.blank(raw)
    found, stack = [], []
    for m in re.finditer(r"\b(impl|trait|fn)\b", t):
        while stack and m.start() >= stack[-1][0]:
            stack.pop()
        if m[1] == "fn":
            w = contracts.WORD.search(t, m.end())
            _, end = contracts.head(t, raw, w.end())
            stop = contracts.closing(t, end) if t[end : end + 1] == "{" else end
            found.append((stack[-1][1] if stack else "", w[0], m.start(), stop))
        else:
            j = t.find("{", m.end())
            name = re.sub(r"^<[^>]*>\s*", "", trees.squeeze(t[m.end() : j]))
            stack.append((contracts.closing(t, j), name if m[1] == "impl" else re.split(r"[<:]", name)[0].strip()))
    return raw, found


def main(argv):
    base, now = argv
    of, _, _ = trees.read_rt(base)
    nf, _, _ = trees.read_rt(now)
    touched = {}
    for p in sorted(glob.glob(os.path.join(now, "crates/*/must-fail/*.edit"))):
        crate, label = p.split("/")[-3], os.path.basename(p)[:-5]
        for file, old in parse(p):
            if not file.startswith("src/"):
                if open(os.path.join(now, "crates", crate, file), encoding="utf-8").read().count(old) != 1:
                    print(f"BAD {crate}/{label}: the old text does not stand once in {file}")
                continue
            raw, found = spans(now, crate, file)
            if raw.count(old) != 1:
                print(f"BAD {crate}/{label}: the old text stands {raw.count(old)} times in {file}")
                continue
            at = raw.find(old)
            for place, name, a, b in found:
                if a <= at < b or a < at + len(old) <= b:
                    touched.setdefault((crate, place, name), []).append(f"{crate}/{label}")
    gone = {os.path.relpath(p, base) for p in glob.glob(os.path.join(base, "crates/*/must-fail/*.edit"))} - {os.path.relpath(p, now) for p in glob.glob(os.path.join(now, "crates/*/must-fail/*.edit"))}
    for g in sorted(gone):
        print("EDIT GONE", g)
    old_names = {(k[0], k[3]) for k in of}
    without = []
    for k, x in nf.items():
        if k in of or not trees.is_public(k, x) or "fmt::Display" in k[2] or k[0] in ("print_report", "trials"):
            continue
        edits = sorted(set(touched.get((k[0], k[2], k[3]), [])))
        print(f"{trees.full(k)}{'' if (k[0], k[3]) not in old_names else ' (a function of that name stood in BASE)'}: {', '.join(edits) or 'NO EDIT changes its text'}")
        if not edits:
            without.append(trees.full(k))
    print(f"\nnew public functions whose text no edit changes: {', '.join(without) or 'none'}")


if __name__ == "__main__":
    main(sys.argv[1:])
