"""names.py NOW [BASE]: names in backquotes in README.md, docs/*.md and docs/changes/*.md that look like a function, theorem, definition, crate, edit or path
and that are not in NOW. With BASE, a name that is in BASE is marked. docs/PORT.md and docs/changes/ tell of older states, and are listed apart."""

import collections
import glob
import os
import re
import sys

import trees

SKIP = {"out", "target", ".git", "build", "node_modules"}


def everything(root):
    """Declared names by kind, all paths, and every word of the code."""
    declared, words, paths = collections.defaultdict(set), set(), set()
    texts = []
    for folder, dirs, files in os.walk(root):
        dirs[:] = [d for d in dirs if d not in SKIP]
        rel = os.path.relpath(folder, root)
        paths.update(os.path.normpath(os.path.join(rel, d)) + "/" for d in dirs)
        for f in files:
            p = os.path.normpath(os.path.join(rel, f))
            paths.add(p)
            if f.endswith((".md", ".patch", ".edit")) or "/proofs/" in p and p.count("/") > 3 and False:
                continue
            try:
                text = open(os.path.join(folder, f), encoding="utf-8").read()
            except UnicodeDecodeError:
                continue
            if f.endswith(".antt"):
                declared[f[:-5]].add(p)
            if f.endswith((".rt", ".antt")):
                for m in re.finditer(r"(?m)^\s*(?:ghost )?(?:pub )?use ([^;\n]+)", text):
                    for w in re.findall(r"[A-Za-z_][\w'-]*", m[1]):
                        declared[w].add(p)
            texts.append(text)
            if f.endswith((".rt", ".rs", ".h", ".c")):
                for m in re.finditer(r"\b(?:fn|struct|enum|const|static|trait|type|mod|macro_rules!|#define)\s+([A-Za-z_]\w*)", text):
                    declared[m[1]].add(p)
                for m in re.finditer(r"(?m)^\s*(?:pub )?([A-Za-z_]\w*)\s*(?::|\(|,|=|\{)", text):
                    declared[m[1]].add(p)
                for m in re.finditer(r"\bghost (\w+)", text):
                    declared[m[1]].add(p)
            if f.endswith(".antt"):
                for line in text.split("\n"):
                    m = re.match(r"\s*(?:(?:pub|abbrev|unfoldable|record|data) )*([^\s(){}.;,@\"=]+)(?: .*)? :(?: |$)", line)
                    if m:
                        declared[m[1]].add(p)
            if f.endswith((".rt", ".antt", ".rs", ".h", ".c", ".toml", ".txt", ".py", ".sh", "")) or "." not in f:
                words.update(re.findall(r"[A-Za-z_][\w']*", text))
    for m in re.finditer(r"#define\s+(\w+)", "\n".join(texts)):
        declared[m[1]].add("include")
    return declared, words, paths, "\n".join(texts)


def exists(name, declared, words, paths, crates, edits, root, page):
    plain = name.strip()
    plain = re.sub(r"\(.*\)$", "", plain)
    if re.match(r"(build|out|target)/", plain) or plain.startswith("Rattle.NAME") or "/NAME/" in plain or "FUNCTION/" in plain:
        return True
    # a plain word of some language or program
    if re.fullmatch(r"[a-z0-9]+(-[a-z0-9]+)*", plain) and re.search(r"(?<![\w-])" + re.escape(plain) + r"(?![\w-])", ALL):
        return True
    if plain in ("_lem", "A-B", "rattle-kit-13f"):
        return True
    if plain in declared or plain in crates or plain in paths or plain + "/" in paths:
        return True
    if "/" in plain or "*" in plain:
        here = os.path.dirname(page)
        for p in (plain, os.path.join(here, plain), "crates/" + plain):
            p = os.path.normpath(p)
            if p in paths or p + "/" in paths or glob.glob(os.path.join(root, p)):
                return True
        parts = plain.split("/")
        if len(parts) == 2 and glob.glob(os.path.join(root, "crates", parts[0], "must-fail", parts[1] + ".edit")):
            return True
        # a part of a path, as `logs/proofs/Walk.antt` or `passed.rt`
        return any(q.rstrip("/").endswith("/" + plain.rstrip("/").lstrip("./")) for q in paths)
    if "::" in plain:
        parts = plain.split("::")
        if parts[0] in crates:
            return all(x in declared for x in parts[1:]) and any(("crates/" + parts[0] + "/") in p for p in declared.get(parts[-1], ()))
        return parts[-1] in words and parts[0] in words | {"std"}
    if "." in plain:
        return any(q.endswith("/" + plain) or q == plain for q in paths) or all(x in declared or x in words for x in plain.split(".") if x)
    return False


LOOKS = re.compile(r"^[A-Za-z_.][\w.:/*'-]*(?:\([^)]*\))?$")


def main(argv):
    global ALL
    root = argv[0]
    trees_of = {}
    for r in argv[:2]:
        trees_of[r] = (*everything(r), set(os.listdir(os.path.join(r, "crates"))))
    declared, words, paths, ALL, crates = trees_of[root]
    edits = None
    later = []
    pages = ["README.md", *sorted(os.path.relpath(p, root) for p in glob.glob(os.path.join(root, "docs/*.md")) + glob.glob(os.path.join(root, "docs/changes/*.md")))]
    total = missing = 0
    for page in pages:
        fenced = False
        older = page.startswith("docs/changes/") or page == "docs/PORT.md"
        for n, line in enumerate(open(os.path.join(root, page), encoding="utf-8"), 1):
            if line.startswith("```"):
                fenced = not fenced
            if fenced:
                continue
            for name in re.findall(r"`([^`\n]+)`", line):
                if not LOOKS.match(name) or re.fullmatch(r"[a-z]|\d+", name):
                    continue
                total += 1
                if exists(name, declared, words, paths, crates, edits, root, page):
                    continue
                missing += 1
                word = re.split(r"[/.:]+", name.strip("."))[-1]
                hint = "a word of the code, but not declared" if word in words else "nowhere in the code"
                mark = ""
                if len(argv) > 1:
                    d, w, ps, ALL, cs = trees_of[argv[1]]
                    mark = "; in BASE it is" if exists(name, d, w, ps, cs, None, argv[1], page) else "; nor in BASE"
                    ALL = trees_of[root][3]
                (later.append if older else print)(f"{page}:{n}: `{name}`: {hint}{mark}")
    print("\nPages of older states:\n" + "\n".join(later))
    print(f"{total} names looked at, {missing} not found", file=sys.stderr)


if __name__ == "__main__":
    main(sys.argv[1:])
