#!/usr/bin/env python3
"""Every name that the pages cite exists, and every place that they link to.

Read are README.md and docs/*.md, outside blocks of code, but not docs/landings/, which is history. Held to the tree, or, on the pages of EARLIER below, to the
tree or to that of the commit THEN (where a clone has not that commit, the links of those pages alone are tried):
  `crate`/Path: `a`, `b`     a and b are declared in crates/crate/specs/Path.antt, or proofs/Path.antt, or (Path = src/..) in that file of code
  edit `crate`: `a`          crates/crate/must-fail/a.edit
  row P2: `a`                a is a case of crates/worked/specs/Cases.antt
  vector `f` "words"         f is a function of tools/vectors.py, and words name a case there
  `crate::module::item`      item is declared in that module of the code; also `crate::module`, `crate::item` of its lib.rt, `module::item`
  `crates/..`, `docs/..`     a path of the repository
  `a`                        any other single word: it stands somewhere in the tree as a whole word
In these and in docs/landings/ too:
  [words](path#anchor)       a path of the repository, from the page's folder on, and a heading of that page as GitHub names it; no link to another host is tried
In docs/BOX.md the blocks of C, joined, are examples/members.c behind its first comment, and those of Rust rust/monterculo/examples/members.rs.
A name or place that is not there is printed with its page and line, and the exit status is 1.
"""
import io
import pathlib
import re
import subprocess
import sys
import tarfile
import tempfile
import unicodedata
import urllib.parse

ROOT = pathlib.Path(__file__).resolve().parent.parent
WORD = re.compile(r"[^\s(){}\[\];,.\"'|:<>=&!*#/`@+]+")
missing = []


def declared(path):
    """The names that a file of definitions, proofs or code declares."""
    text = path.read_text(encoding="utf-8")
    if path.suffix == ".rt":
        return set(re.findall(r"^\s*(?:pub )?(?:extern \"C\" )?(?:fn|struct|enum|const) (\w+)", text, re.M))
    names = re.findall(r"^\s*(?:abbrev |unfoldable )?(?:pub )?(?:record |data )?([^\s:(){}]+)(?= [:({])", text, re.M)
    return set(names)


# Pages about an earlier commit, the last before the code was written in today's forms: what they name may be of then.
THEN = "2c412f7c3f0c3d711f70c71a6cca581c35fd35ed"
EARLIER = {ROOT / "docs" / page for page in ("PORT.md", "DESIGN-PASS.md", "LOOK-BACK.md")}


class Tree:
    """What the files below a folder declare and name."""

    def __init__(self, root):
        self.root = root
        tops = ("crates", "include", "rust", "tools", "examples", ".ci")
        self.files = [p for top in tops for p in (root / top).rglob("*") if p.is_file() and not {"target", "out"} & set(p.parts)]
        self.words = {"crates.txt"}
        for p in self.files:
            self.words.update(p.relative_to(root).parts)
            self.words.add(p.stem)
            if p.suffix in (".rt", ".antt", ".rs", ".c", ".h", ".py", ".edit", ".toml", "") and p.stat().st_size < 400000:
                self.words.update(WORD.findall(p.read_text(encoding="utf-8", errors="ignore")))
        self.cases = (root / "tools" / "vectors.py").read_text(encoding="utf-8")
        self.listing = "".join((root / "crates" / crate / "stdin").read_text(encoding="utf-8") for crate in ("vectors", "vectors_radio", "vectors_frames"))

    def files_of(self, crate, path):
        """The file that a citation's path names, or the files of a folder."""
        base = self.root / "crates" / crate
        if path.startswith("src/"):
            return sorted((base / "src").glob("*.rt")) if path == "src/" else [base / path]
        return [p for p in (base / "specs" / (path + ".antt"), base / "proofs" / (path + ".antt")) if p.exists()]


def tree_of(commit, folder):
    """The tree of a commit, laid out in a folder; none where the clone does not have it."""
    packed = subprocess.run(["git", "-C", str(ROOT), "archive", commit], capture_output=True)
    if packed.returncode != 0:
        print(f"commit {commit} is not in this clone: names of that time are not held")
        return None
    with tarfile.open(fileobj=io.BytesIO(packed.stdout)) as archive:
        archive.extractall(folder)
    return Tree(pathlib.Path(folder))


def miss(page, line, what):
    missing.append(f"{page}:{line}: {what}")


def names(text):
    return re.findall(r"`([^`]+)`", text)


def missed(tree, line):
    """What a line names that a tree has not: the name, and what is to be said of it."""
    for crate, path, rest in re.findall(r"`(\w+)`/([\w/.]+): ((?:`[^`]+`(?:, | and )?)+)", line):
        found = tree.files_of(crate, path)
        have = set().union(*(declared(f) for f in found)) if found and all(f.exists() for f in found) else None
        for name in names(rest):
            if have is None:
                yield (crate, path, name), f"no file `{crate}`/{path}"
            elif name not in have:
                yield (crate, path, name), f"`{name}` is not in `{crate}`/{path}"
    for crate, rest in re.findall(r"edit `(\w+)`: ((?:`[^`]+`(?:, | and )?)+)", line):
        for name in names(rest):
            if not (tree.root / "crates" / crate / "must-fail" / (name + ".edit")).exists():
                yield ("edit", crate, name), f"no edit `{crate}`: `{name}`"
    for name in re.findall(r"row P\d+: `(\w+)`", line):
        if name not in declared(tree.root / "crates" / "worked" / "specs" / "Cases.antt"):
            yield ("case", name), f"no case `{name}`"
    for function, rest in re.findall(r"vector `(\w+)` ((?:\"[^\"]+\"(?:, | and )?)+)", line):
        if f"def {function}" not in tree.cases:
            yield ("vectors", function), f"no vectors `{function}`"
        for said in re.findall(r"\"([^\"]+)\"", rest):
            if said not in tree.listing:
                yield ("vector", said), f"no vector \"{said}\""
    for span in names(line):
        if re.fullmatch(r"\w+(::\w+)+", span):
            parts = span.split("::")
            crate = tree.root / "crates" / parts[0] / "src"
            if not crate.exists():
                modules = [p for p in tree.files if p.suffix == ".rt" and p.stem == parts[0]]
            elif len(parts) == 2:
                modules = [crate / "lib.rt", crate / (parts[1] + ".rt")]
            else:
                modules = [crate / (parts[1] + ".rt")]
            if not any(p.exists() and (parts[-1] in declared(p) or len(parts) == 2 and p.stem == parts[1]) for p in modules):
                yield span, f"`{span}` is not declared"
        elif re.fullmatch(r"(crates|docs|include|rust|tools|examples|\.ci)/[\w./-]*", span):
            if not (tree.root / span).exists():
                yield span, f"no path {span}"
        elif re.fullmatch(r"[^\s`(){}\[\];,.\"'|:<>=&!*#/@+$]+", span) and span not in tree.words:
            yield span, f"`{span}` is nowhere"


def hold(page, trees):
    """Each line of a page to the trees: what none of them has is missing."""
    for number, line in prose(page):
        told = [dict(missed(tree, line)) for tree in trees]
        for name in set(told[0]).intersection(*told[1:]):
            miss(page.relative_to(ROOT), number, told[0][name])


def prose(page):
    """The lines of a page that are no code, with their numbers."""
    code = False
    for number, line in enumerate(page.read_text(encoding="utf-8").split("\n"), 1):
        if line.startswith("```"):
            code = not code
        elif not code and not line.startswith("    "):
            yield number, line


def anchor_of(heading):
    """GitHub's anchor of a heading: what is shown of it, in lower case, without punctuation, a hyphen for each space."""
    shown = re.sub(r"!\[[^\]]*\]\([^)]*\)", "", heading)
    shown = re.sub(r"\[([^\]]*)\]\([^)]*\)", r"\1", shown).strip().lower()
    kept = (c for c in shown if c in " -" or unicodedata.category(c)[0] in "LM" or unicodedata.category(c) in ("Nd", "Nl", "Pc"))
    return "".join(kept).replace(" ", "-")


def anchors(page, known={}):
    if page not in known:
        known[page] = found = set()
        for _, line in prose(page):
            heading = re.fullmatch(r" {0,3}#{1,6}\s+(.*?)(?:\s+#+)?\s*", line)
            if heading:
                name = first = anchor_of(heading[1])
                again = 0
                while name in found:
                    again += 1
                    name = f"{first}-{again}"
                found.add(name)
    return known[page]


def hold_links(page, number, line):
    bare = re.sub(r"`[^`]*`", "``", line)
    for link in re.findall(r"\]\(<?([^)>\s]*)", bare) + re.findall(r"^ {0,3}\[[^\]]+\]:\s*<?([^>\s]+)", bare):
        if re.match(r"[a-zA-Z][a-zA-Z0-9+.-]*:|//", link):
            continue
        path, _, anchor = urllib.parse.unquote(link).partition("#")
        place = (page.parent / path).resolve() if path else page
        if not place.exists() or ROOT not in (place, *place.parents):
            miss(page.relative_to(ROOT), number, f"the link {link} leads nowhere")
        elif anchor and (place.suffix != ".md" or anchor not in anchors(place)):
            miss(page.relative_to(ROOT), number, f"the link {link} names no heading of {place.relative_to(ROOT)}")


def hold_blocks(page, language, path):
    """The blocks of a page in a language are all of a file but the comment that it begins with."""
    told, file = page.read_text(encoding="utf-8"), (ROOT / path).read_text(encoding="utf-8")
    blocks = list(re.finditer(rf"^```{language}\n(.*?)^```$", told, re.M | re.S))
    for block in blocks:
        if block[1] not in file:
            miss(page.relative_to(ROOT), told.count("\n", 0, block.start()) + 1, f"the block is not in {path}")
    if file.partition("\n\n")[2] != "\n".join(block[1] for block in blocks):
        miss(page.relative_to(ROOT), 1, f"the blocks, joined, are not {path}")


now = Tree(ROOT)
pages = [ROOT / "README.md", *sorted((ROOT / "docs").glob("*.md"))]
with tempfile.TemporaryDirectory() as scratch:
    then = tree_of(THEN, scratch)
    for page in pages:
        if page not in EARLIER:
            hold(page, [now])
        elif then:
            hold(page, [now, then])
for page in pages + sorted((ROOT / "docs" / "landings").glob("*.md")):
    for number, line in prose(page):
        hold_links(page, number, line)
hold_blocks(ROOT / "docs" / "BOX.md", "c", "examples/members.c")
hold_blocks(ROOT / "docs" / "BOX.md", "rust", "rust/monterculo/examples/members.rs")
print("\n".join(missing) if missing else "every name that the pages cite exists, and every place that they link to")
sys.exit(1 if missing else 0)
