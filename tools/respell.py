#!/usr/bin/env python3
"""Brings the repository's own names in contracts, definitions and proofs to one spelling.

usage: python3 tools/respell.py        at the top of the repository, once, after the spelling of the language itself was turned

Definitions, lemmas, fields and local names of .antt files, and where contracts in .rt files cite them: a name with dashes
or in lower camel case becomes snake case, and a type's, a predicate's or an alias's name (one that begins with a capital) camel case. Names that a file
takes from the standard library stay, and so do names that the checker makes, but for the names of the source in them, which get
the underscores that they have there. Functions, types and strings of src/ keep their names, and their comments stay too.
"""

import collections
import glob
import os
import re
import sys

WORD = re.compile(r"[A-Za-z0-9_'₀-₉][A-Za-z0-9_'₀-₉\-]*")
DECLARED = re.compile(r"\s*(?:pub )?(?:abbrev |unfoldable |opaque )*(?:pub )?(?:record |data )?(?:pub )?([A-Za-z0-9_']*-[A-Za-z0-9_'\-]*)\s*(:|\()(.*)")
CAMEL = re.compile(r"\s*(?:pub )?(?:abbrev |unfoldable |opaque )*(?:pub )?([a-z][a-z0-9_']*[A-Z][A-Za-z0-9_']*)\s*:(.*)")
LIBRARY = re.compile(r"\s*(?:ghost )?(?:pub )?use (?:Rattle\.(?:std|core|std_alloc)|native|mathlib|Prim|lib)\b[\w.'\-]*\.\{(.*)\}")
MADE = re.compile(r"\s*(?:goal|given)\.")
# names of the standard library's functions, as made names have them
LIBRARY_NAMES = ["from_be_bytes", "to_be_bytes", "copy_from_slice", "split_at", "split_at_mut", "is_some", "is_none", "is_ok", "is_err", "into_iter", "div_ceil", "chunks_exact", "saturating_add", "saturating_sub", "checked_add", "wrapping_add", "unwrap_or", "map_or", "is_empty", "leading_zeros", "trailing_zeros", "count_ones", "min_by", "abs_diff", "next_back", "get_mut"]


def files(pattern):
    return sorted(p for p in glob.glob(pattern, recursive=True) if "/out/" not in p)


def is_walk(path):
    """A file of a function's own proof, where most names with dashes are made by the checker."""
    return os.path.basename(path) in ("Answers.antt", "Invariants.antt", "Proof.antt", "Choices.antt")


def read(path):
    with open(path, encoding="utf-8") as f:
        return f.read()


def without_comments(text, mark):
    return re.sub(re.escape(mark) + r"[^\n]*", "", text)


def library_names(text):
    found = set()
    for line in text.splitlines():
        m = LIBRARY.match(line)
        if m:
            found.update(w for w in WORD.findall(m.group(1)) if "-" in w)
    return found


def own_names():
    """The repository's own names with dashes."""
    own = set()
    for path in files("crates/**/*.antt"):
        text = read(path)
        taken = library_names(text)
        for line in text.splitlines():
            m = DECLARED.match(line)
            if m and not MADE.match(m.group(3)) and not m.group(1).startswith(("invariant-", "decreases-", "returns-", "overflow-", "loop-", "bounds-")):
                own.add(m.group(1))
            m = CAMEL.match(line)
            if m and not MADE.match(m.group(2)):
                own.add(m.group(1))
        own.update(re.findall(r" as ([A-Za-z][A-Za-z0-9_']*-[A-Za-z0-9_'\-]*)", text))
        if not is_walk(path):
            body = "\n".join(l for l in without_comments(text, "--").splitlines() if not re.match(r"\s*(?:pub )?use ", l))
            own.update(w for w in WORD.findall(body) if "-" in w and re.search("[a-z]", w) and w not in taken and not w.endswith("-"))
    for path in files("crates/**/*.rt"):
        own.update(re.findall(r"ghost use [^;]*? as ([A-Za-z][A-Za-z0-9_']*-[A-Za-z0-9_'\-]*)", read(path)))
    return own


def respelled(name):
    if not name[0].isupper():
        return re.sub(r"(?<=[a-z0-9'])[A-Z]", lambda m: "_" + m.group(0).lower(), name.replace("-", "_"))
    return "".join(part[:1].upper() + part[1:] for part in name.split("-"))


def source_names():
    """Names of the source with underscores, the longest first."""
    found = set(LIBRARY_NAMES)
    for path in files("crates/**/src/**/*.rt"):
        text = without_comments(read(path), "//")
        code = "\n".join(l for l in text.splitlines() if not re.match(r"\s*(?:ghost|requires|ensures)\b", l))
        found.update(w for w in re.findall(r"\b[A-Za-z][A-Za-z0-9]*(?:_[A-Za-z0-9]+)+\b", code))
    return sorted(found, key=lambda w: (-len(w), w))


def made(word, sources):
    """A made name, with the names of the source in it as they are there."""
    for s in sources:
        word = re.sub(r"(?<![A-Za-z0-9_])" + re.escape(s.replace("_", "-")) + r"(?![A-Za-z0-9_])", s, word)
    return word


def turn(path, own, sources):
    text = read(path)
    taken = library_names(text)
    walk = is_walk(path)
    rust = path.endswith(".rt")
    mark = "//" if rust else "--"
    out = []
    for line in text.split("\n"):
        at = line.find(mark)
        code, comment = (line, "") if at < 0 else (line[:at], line[at:])
        if rust and not re.match(r"\s*(?:pub )?(?:ghost|requires|ensures|invariant|decreases)\b", code) and "prove!" not in code:
            out.append(line)
            continue

        def put(m):
            w = m.group(0)
            if w in taken or not re.search("[A-Za-z]", w) or ("-" not in w and w not in own):
                return w
            before = code[: m.start()]
            after_c = re.search(r"(?:\bc|\bgoal|\bgiven|\bl|\.at\.[\w'.\-]+)\.$", before)
            if w in own and not (walk and after_c):
                return respelled(w)
            return made(w, sources) if walk else w

        code = WORD.sub(put, code)
        if not rust and re.match(r"--   \S", comment):
            head = re.match(r"--   .*?(?=   |$)", comment).group(0)
            turned = WORD.sub(lambda m: respelled(m.group(0)) if m.group(0) in own else m.group(0), head)
            rest = WORD.sub(lambda m: respelled(m.group(0)) if m.group(0) in own else m.group(0), comment[len(head) :])
            comment = (turned.ljust(len(head)) if rest else turned) + rest
        elif not rust:
            comment = WORD.sub(lambda m: respelled(m.group(0)) if m.group(0) in own else m.group(0), comment)
        out.append(code + comment)
    new = "\n".join(out)
    if new != text:
        with open(path, "w", encoding="utf-8") as f:
            f.write(new)
        return 1
    return 0


def main():
    if not os.path.isdir("crates"):
        raise SystemExit("respell: run it at the top of the repository")
    own = own_names()
    sources = source_names()
    met = collections.defaultdict(set)
    for name in own:
        met[respelled(name)].add(name)
    present = set()
    for path in files("crates/**/*.antt"):
        present.update(w for w in WORD.findall(without_comments(read(path), "--")) if "-" not in w)
    for new, names in sorted(met.items()):
        if len(names) > 1 or new in present:
            print(f"look: {new} from {', '.join(sorted(names))}{' stands already' if new in present else ''}")
    count = sum(turn(p, own, sources) for p in files("crates/**/*.antt") + files("crates/**/*.rt"))
    print(f"respell: {len(own)} names, {count} files")


if __name__ == "__main__":
    sys.exit(main())
