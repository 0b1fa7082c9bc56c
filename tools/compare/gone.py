"""gone.py BASE NOW > gone.md: what stands in BASE and not in NOW, crate by crate, with its statement and what states its promise now: functions (public ones,
and others with a contract), public types and constants, definitions of specs/, and lemmas of proofs/*.antt. What states it stands in gone_entries.py; the script
fails, and names them, where an item has no entry there or an entry names what is not in NOW."""

import os
import re
import sys

import changed
import names
import stm
import trees
from gone_entries import ENTRIES


def entry(place, name):
    for keys, text in ENTRIES.get(place, {}).items():
        if name in keys.split(" "):
            return text
    return None


def cell(s):
    return s.replace("|", "\\|")


def quoted(s):
    return f"`{cell(s)}`"


def main(argv):
    base, now = argv[:2]
    of, _, ot = trees.read_rt(base)
    nf, _, nt = trees.read_rt(now)
    pairs, gone, _ = changed.functions(of, nf)
    _, lost, _ = stm.compare(base, now)
    rows = {}

    def add(crate, kind, place, name, statement):
        rows.setdefault(crate, {}).setdefault(kind, []).append((place, name, statement, entry(place, name)))

    for k, x in gone:
        if (x["pub"] and k[0] not in ("print_report", "trials")) or x["requires"] or x["ensures"]:
            add(k[0], "functions", f"{k[0]}::", k[3], "; ".join(map(trees.squeeze, trees.function_lines(k, x))))
    for k, x, q, y in pairs:
        if trees.is_public(k, x) and not trees.is_public(q, y) and k[0] not in ("print_report", "trials"):
            add(k[0], "functions", f"{k[0]}::", k[3], "; ".join(map(trees.squeeze, trees.function_lines(k, x))) + " (no longer public)")
        elif x["ensures"] and not y["ensures"]:
            add(k[0], "functions", f"{k[0]}::", k[3], "; ".join(map(trees.squeeze, trees.function_lines(k, x))) + " (its clause)")
    for k, x in ot.items():
        if x["pub"] and (k not in nt or not nt[k]["pub"]):
            add(k[0], "types and constants", f"{k[0]}::", k[1], x["text"] + ("" if k not in nt else " (no longer public)"))
    for it in lost:
        kind = "definitions" if it.place == "specs" else "lemmas"
        text = " ".join([*(f"[{t}]" for t in it.teles), it.sign if not it.transparent else " ".join(map(trees.squeeze, it.raw))])
        add(it.crate, kind, f"{it.crate}/{it.file}", it.name, trees.squeeze(text))

    code = names.everything(now)
    crates = set(os.listdir(os.path.join(now, "crates")))
    names.ALL = code[3]
    missing, wrong, total, used = [], [], 0, set()
    out = []
    for crate in sorted(rows, key=lambda c: changed.order(base).index(c)):
        out += [f"## `{crate}`", ""]
        for kind in ("functions", "types and constants", "definitions", "lemmas"):
            some = rows[crate].get(kind)
            if not some:
                continue
            out += [f"| {kind} | statement | what states its promise now |", "|---|---|---|"]
            for place, name, statement, text in some:
                total += 1
                used.add((place, name))
                where = "" if place.endswith("::") else f" (`{place.split('/', 1)[1]}`)"
                out.append(f"| `{name}`{where} | {quoted(statement)} | {cell(text or 'MISSING')} |")
                if text is None:
                    missing.append(f"{place} {name}\n    {statement}")
                for n in re.findall(r"(?<!std's )`([^`]+)`", text or ""):
                    here = (n, f"{crate}::{n}")
                    if re.fullmatch(r"[\w.:/']+", n) and not any(names.exists(x, *code[:3], crates, None, now, "README.md") for x in here):
                        wrong.append(f"{place} {name}: `{n}` is not in NOW")
            out.append("")
    print("\n".join(out))
    stale = [f"{p} {n}" for p, e in ENTRIES.items() for keys in e for n in keys.split(" ") if (p, n) not in used]
    print(f"{total} gone: " + ", ".join(f"{kind} {sum(len(r.get(kind, [])) for r in rows.values())}" for kind in ("functions", "types and constants", "definitions", "lemmas")), file=sys.stderr)
    if stale:
        print(f"entries of what is not gone: {', '.join(stale)}", file=sys.stderr)
    for label, some in (("NO ENTRY", missing), ("WRONG NAME", wrong)):
        for s in some:
            print(f"{label}: {s}", file=sys.stderr)
    if missing or wrong:
        sys.exit(1)


if __name__ == "__main__":
    main(sys.argv[1:])
