#!/usr/bin/env python3
"""Brings the names of specs/ and proofs/ to today's spelling, after the kit's own port.py has run.

    tools/respell.py [--clashes]      at the top of the repository, once

1. port.py goes into no folder called target: the crate of that name is turned under another name, in a folder of its own.
2. A word is in snake case, a type in camel case, a prime is an apostrophe: lineEnd and line-end become line_end, Closed-at becomes
   ClosedAt. Names of Rust code, strings and the library's names stay. --clashes says which names fall together, and changes nothing.
"""
import collections, os, pathlib, re, shutil, subprocess, sys, tempfile

PORT = "/opt/rattle/port/port.py"
STRING = r'"(?:[^"\\]|\\.)*"'
WORD = r"[A-Za-zμκ«][A-Za-z0-9_\-·'′?₀-₉»]*"
# A string, a comment, an operator with holes, a numeral in hexadecimals or a name of the library, or a word.
TOKEN = re.compile(rf"({STRING})|((?:^|(?<=\s))--(?:\s.*)?$|//.*$)|(\S*◌\S*|0x[0-9A-Fa-f]+|Memᴰ\.not-nil)|({WORD})", re.M)
# Where a lemma, a field or a parameter would come to the name of a function: lemmas take _lem, the others these.
OTHERWISE = {
    "code-close": "closing_code", "code-open": "opening_code", "link-close": "closing_link", "link-open": "opening_link",
    "paragraph-close": "closing_paragraph", "paragraph-open": "opening_paragraph", "code-span": "a_code_span",
    "collapsed-row": "a_collapsed_row", "full-row": "a_full_row", "shortcut-row": "a_shortcut_row", "span-rows": "rows_of_spans",
    "definition-table": "table_of_definitions", "first-deep": "first_too_deep", "is-code": "kind_is_code",
    "is-image": "is_an_image", "is-label": "is_a_label", "label-end": "label_ends_at", "text-end": "text_ends_at",
    "is-entry": "entry_is", "image-opens": "an_image_opens", "row-at": "row_placed", "image-open": "opening_image",
    "image-close": "closing_image", "openPiece": "opening_piece", "definition-count": "definitions_number", "span-count": "spans_number",
}
LEMMAS = """block-length character-length described-from ending-after first-conflict found-closing good-label is-absent is-at
is-opening label-fits label-of line-ends line-length looked-up own-labels page-most reference-by row-by same-sort
space-end space-or-lf span-end span-numbers start-by tail-by taken-column whole-rows with-definitions written-by""".split()
OTHERWISE |= {word: word.replace("-", "_") + "_lem" for word in LEMMAS}
# Lemmas that already read like a function beside them.
BESIDE = {
    "link/proofs/PairRows": "pair_row", "note/proofs/Rows": "rows_in", "tail/proofs/Tails": "full_by",
    "text/proofs/Character": "good_length", "walk/proofs/Steps": "block_here",
}


def crate_called_target(root):
    """Turns the crate by port.py in a folder where it has another name."""
    if "⌜" not in (root / "crates/target/src/lib.rt").read_text():
        return
    with tempfile.TemporaryDirectory() as room:
        room = pathlib.Path(room)
        (room / "crates").mkdir()
        old = subprocess.check_output(["git", "archive", "HEAD", "crates/target", "crates/scan"], cwd=root)
        subprocess.run(["tar", "-x", "-C", room], input=old, check=True)
        (room / "crates/target").rename(room / "crates/zargetz")
        (room / "crates.txt").write_text("scan:\nzargetz: scan\n")
        turn(room / "crates/zargetz", r"\btarget\b", "zargetz")
        git = ["git", "-c", "user.name=x", "-c", "user.email=x@x"]
        for words in (["init", "-q"], ["add", "-A"], ["commit", "-qm", "as it was"]):
            subprocess.run(git + words, cwd=room, check=True)
        subprocess.run([sys.executable, PORT], cwd=room, check=True, stdout=subprocess.DEVNULL)
        turn(room / "crates/zargetz", r"\bzargetz\b", "target")
        for part in ("src", "specs", "proofs"):
            shutil.rmtree(root / "crates/target" / part)
            shutil.copytree(room / "crates/zargetz" / part, root / "crates/target" / part)


def turn(folder, old, new):
    for f in folder.rglob("*"):
        if f.suffix in (".rt", ".antt"):
            f.write_text(re.sub(old, new, f.read_text()))


def of_the_library(root):
    """The names that files import from elsewhere than this repository's crates."""
    names = set()
    own = {p.name for p in (root / "crates").iterdir()}
    line = re.compile(r"^\s*(?:ghost )?use ([^\s{;]+)\.\{([^}]*)\}", re.M)
    for f in texts(root):
        for path, items in line.findall(f.read_text()):
            parts = path.split(".")
            if parts[0] == "Rattle" and parts[1] in own:
                continue
            names |= {i.split(" as ")[0].strip() for i in items.split(",")}
    return names


def texts(root):
    return sorted(f for f in (root / "crates").rglob("*") if f.suffix in (".rt", ".antt") and "out" not in f.parts)


def lemmas_beside(root):
    for place, word in BESIDE.items():
        module = "Rattle." + place.replace("/", ".")
        for f in texts(root):
            text = f.read_text()
            named = re.search(rf"use {re.escape(module)}\.\{{[^}}]*\b{word}\b", text)
            if named or f == root / "crates" / (place + ".antt"):
                f.write_text(re.sub(rf"(?<![.\w'-]){word}(?![\w'-])", word + "_lem", text))


def respelled(word):
    if word in OTHERWISE:
        return OTHERWISE[word]
    word = word.replace("′", "'")
    word = re.sub(r"(?<=[A-Za-z0-9'?])·(?=[A-Za-z0-9])", "-", word)
    if word[0].isupper():
        if "-" not in word:
            return word
        return "".join(p[:1].upper() + p[1:] for p in word.split("-"))
    word = re.sub(r"(?<=[a-z0-9?'])-(?=[A-Za-z0-9])", "_", word)
    word = re.sub(r"(?<=[a-z0-9])([A-Z])", lambda m: "_" + m[1].lower(), word)
    word = re.sub(r"_([A-Z])(?=[a-z0-9]|$)", lambda m: "_" + m[1].lower(), word)
    return word


def ghost_parts(text):
    """The spans of Rust code that are antt: clauses, ghost imports and ghost items."""
    spans = []
    for m in re.finditer(r"^\s*ghost use [^;]*;", text, re.M):
        spans.append(m.span())
    for m in re.finditer(r"^\s*(?:requires|ensures|ghost|invariant|decreases)\b[^{\n]*\{", text, re.M):
        if m[0].strip().startswith("ghost use"):
            continue
        depth, i = 1, m.end()
        while depth:
            depth += {"{": 1, "}": -1}.get(text[i], 0)
            i += 1
        spans.append((m.end(), i - 1))
    return sorted(spans)


def turned(text, kept, seen=None):
    """The text with each word respelled but strings, and in comments only what stands in backticks."""

    def one(m):
        string, comment, operator, word = m.groups()
        if string is not None or operator is not None:
            return m[0]
        if comment is not None:
            return re.sub(r"`[^`]*`", lambda q: re.sub(WORD, lambda w: word_of(w[0]), q[0]), comment)
        return word_of(word)

    def word_of(word):
        if word in kept:
            return word
        new = respelled(word)
        if seen is not None:
            seen[word] = new
        return new

    return TOKEN.sub(one, text)


def file_turned(f, kept, seen=None):
    text = f.read_text()
    if f.suffix == ".antt":
        return turned(text, kept, seen)
    out, at = [], 0
    for start, end in ghost_parts(text):
        out += [text[at:start], turned(text[start:end], kept, seen)]
        at = end
    return "".join(out + [text[at:]])


def main():
    root = pathlib.Path(".")
    if not (root / "crates.txt").exists():
        sys.exit("tools/respell.py: run it at the top of the repository")
    crate_called_target(root)
    kept = of_the_library(root)
    if sys.argv[1:] != ["--clashes"]:
        lemmas_beside(root)
    if sys.argv[1:] == ["--clashes"]:
        return clashes(root, kept)
    for f in texts(root):
        new = file_turned(f, kept)
        if new != f.read_text():
            f.write_text(new)


def clashes(root, kept):
    for f in texts(root):
        seen = {}
        file_turned(f, kept, seen)
        by = collections.defaultdict(set)
        for old, new in seen.items():
            by[new].add(old)
        for k in kept:
            if k in by and k not in by[k] and re.search(r"(?<![\w'-])" + re.escape(k) + r"(?![\w'-])", f.read_text()):
                by[k].add(k + " (library)")
        for new, olds in sorted(by.items()):
            if len(olds) > 1:
                print(f"{f}: {new} <- {' | '.join(sorted(olds))}")


if __name__ == "__main__":
    main()
