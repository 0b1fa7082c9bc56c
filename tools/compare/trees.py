"""What stands in a checkout: the declarations of antt files with their statements, the functions and types of rt files. Used by the other scripts."""

import collections
import os
import re
import shutil
import sys

# `contracts` is the toolchain's script beside its compiler.
sys.path.insert(0, os.path.join(os.path.dirname(os.path.dirname(os.path.realpath(shutil.which("rattle") or "rattle"))), "port"))
import contracts  # noqa: E402

squeeze = contracts.squeeze
MODS = ("pub", "abbrev", "unfoldable", "opaque", "pattern", "instance", "private")
SIGN = re.compile(r"^((?:(?:%s) )*)((?:record|data) )?([^\s(){}.;,@\"=]+)((?: \{[^{}]*\}| \([^()]*(?:\([^()]*\)[^()]*)*\))*) :(?: |$)(.*)$" % "|".join(MODS))
Item = collections.namedtuple("Item", "crate place file name mods teles sign body pub transparent raw at")


def uncomment(line):
    return re.sub(r"(^|(?<=[\s(){}\[\]]))--.*$", "", line).rstrip()


def lines_of(path):
    with open(path, encoding="utf-8") as f:
        return [uncomment(l.rstrip("\n")) for l in f]


def split_items(lines, indent):
    """The lines in groups: each begins with a line at that depth, and the deeper ones behind belong to it."""
    groups = []
    for l in lines:
        if not l.strip():
            continue
        depth = len(l) - len(l.lstrip())
        if depth == indent or not groups:
            groups.append([l])
        elif depth > indent:
            groups[-1].append(l)
        else:
            raise ValueError(f"a line at depth {depth} below {indent}: {l}")
    # A line that only closes brackets, at the depth of the item, belongs to it.
    out = []
    for g in groups:
        if out and re.match(r"\s*[)}\]]", g[0]):
            out[-1] += g
        else:
            out.append(g)
    return out


def dedent(g):
    n = len(g[0]) - len(g[0].lstrip())
    return [l[n:] for l in g]


def items(crate, place, file, lines, indent, teles, out, strange):
    last = None
    for g in split_items(lines, indent):
        first = g[0].strip()
        word = first.split()[0]
        if word == "module":
            n = next(i for i, l in enumerate(g) if re.search(r"\bwhere$", l))
            tele = squeeze(" ".join(g[: n + 1]))
            tele = re.sub(r"^module\s+(\S+)\s*(.*?)\s*where$", r"\2", tele)
            inner = g[n + 1 :]
            items(crate, place, file, inner, len(inner[0]) - len(inner[0].lstrip()), teles + (tele,), out, strange)
            last = None
            continue
        text = squeeze(" ".join(g))
        if word in ("use", "unfolding", "infixl", "infixr", "infix", "mod") or re.match(r"pub (use|mod|infix)\b", text):
            continue
        m = SIGN.match(text)
        if m:
            mods = m[1].split()
            kind = (m[2] or "").strip()
            sign = squeeze((m[4].strip() + " : " if m[4].strip() else "") + m[5])
            codomain = re.split(r"→", sign)[-1].strip()
            transparent = bool(kind) or "abbrev" in mods or "unfoldable" in mods or bool(re.match(r"^Type\b", codomain))
            last = Item(crate, place, file, m[3], (" ".join(mods) + " " + kind).strip(), teles, sign, [], "pub" in mods, transparent, dedent(g), len(out))
            out.append(last)
        elif last is not None and (first.split()[0] == last.name or re.match(r"\S", first)):
            last.body.append(text)
            if last.transparent:
                last.raw.extend(dedent(g))
        else:
            strange.append((crate, file, first))


def antt(root):
    """All declarations of specs/ and of the files that stand in proofs/ itself."""
    out, strange = [], []
    top = os.path.join(root, "crates")
    for crate in sorted(os.listdir(top)):
        for place in ("specs", "proofs"):
            base = os.path.join(top, crate, place)
            if not os.path.isdir(base):
                continue
            for folder, dirs, names in os.walk(base):
                dirs[:] = [] if place == "proofs" else sorted(d for d in dirs if d != "declared")
                for f in sorted(names):
                    if f.endswith(".antt"):
                        p = os.path.join(folder, f)
                        items(crate, place, os.path.relpath(p, os.path.join(top, crate)), lines_of(p), 0, (), out, strange)
    return out, strange


def statement(it):
    """The item's full statement: what stands around it, its type, and its body where the body is part of its meaning."""
    return squeeze(" ".join([*(f"[{t}]" for t in it.teles), it.mods.replace("pub", "").strip(), ":", it.sign, *(("=", *it.body) if it.transparent else ())]))


def shown(it, teles=True):
    """The item as a reader sees it, in lines."""
    return ([f"module _ {t} where" for t in it.teles] if teles else []) + list(it.raw)


def uses(root, file):
    """What the file's imports name: the name here, and where it comes from."""
    out = {}
    text = "\n".join(lines_of(os.path.join(root, file)))
    for m in re.finditer(r"(?m)^\s*(?:pub )?use ([^\s{]+?)(?:\.\{([^}]*)\}| as (\S+))?$", text):
        path = m[1]
        if m[2] is not None:
            for part in m[2].split(","):
                part = squeeze(part)
                if part:
                    a, _, b = part.partition(" as ")
                    out[b or a] = f"{path}.{a}"
        else:
            out[m[3] or path.split(".")[-1]] = path
    return out


# ---- rt files


def is_public(key, x):
    place = key[2]
    return x["pub"] or " for " in place or x["trait"]


def read_rt(root):
    """Functions by (crate, file, place, name), ghost items, and types with their fields."""
    crates, out, ghosts, specs, sizes, files = contracts.read(root)
    functions = {}
    types = {}
    for crate in crates:
        base = os.path.join(root, "crates", crate, "src")
        if not os.path.isdir(base):
            continue
        for folder, dirs, names in os.walk(base):
            for f in sorted(names):
                if f.endswith(".rt"):
                    raw = open(os.path.join(folder, f), encoding="utf-8").read()
                    read_types(crate, os.path.relpath(os.path.join(folder, f), os.path.join(root, "crates", crate)), raw, types)
    traits = {(t[0], t[1]) for t in types if types[t]["kind"] == "trait"}
    for k, v in out.items():
        for i, x in enumerate(v):
            if x["test"] or x["in tests"]:
                continue
            x["trait"] = (k[0], k[2]) in traits
            functions[k if i == 0 else (*k[:3], f"{k[3]}#{i}")] = x
    return functions, ghosts, types


def read_types(crate, path, raw, out):
    t = contracts.blank(raw)
    for m in re.finditer(r"(?m)^(pub(?:\([^)]*\))? )?(struct|enum|const|trait|type) ([A-Za-z_]\w*)", t):
        if m[2] in ("const", "type"):
            end = t.find(";", m.end()) + 1
            text = squeeze(raw[m.start() : end])
        else:
            j = m.end()
            while t[j] not in "{;":
                j = contracts.closing(t, j, "(", ")") if t[j] == "(" else j + 1
            end = contracts.closing(t, j) if t[j] == "{" else j + 1
            body = re.sub(r"//[^\n]*", "", raw[m.start() : end])
            if m[2] == "trait":
                body = raw[m.start() : j]
            text = squeeze(body)
        before = raw[: m.start()].rstrip("\n").split("\n")
        attrs = []
        while before and before[-1].startswith("#["):
            attrs.insert(0, before.pop().strip())
        out[crate, m[3]] = {"pub": bool(m[1]), "kind": m[2], "text": text, "attrs": [a for a in attrs if not a.startswith("#[tactic")], "file": path}


def tidy(sign):
    return re.sub(r"\( ", "(", re.sub(r",? \)", ")", sign))


def function_lines(key, x):
    place = f"impl {key[2]}: " if key[2] else ""
    head = f"{place}{'pub ' if x['pub'] else ''}fn {key[3]}{tidy(x['sign'])}"
    return [head] + [f"    {c[0]}{' ' + c[1] if c[1] else ''} {{ {c[2]} }}" for c in x["requires"] + x["ensures"]]


def same_function(x, y):
    plain = lambda f: (tidy(f["sign"]), [c for c in f["requires"]], [c for c in f["ensures"]], f["pub"])  # noqa: E731
    return plain(x) == plain(y)


def full(key):
    """A function's name with its crate and place, as the pages have it."""
    return "::".join(p for p in (key[0], key[2].replace("<'a>", "").strip(), key[3]) if p)
