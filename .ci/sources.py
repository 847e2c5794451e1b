"""What the scripts of this folder share: readers of the sources in Rust and in antt."""
import difflib
import functools
import glob
import os
import pathlib
import re
import subprocess
import sys
from types import SimpleNamespace

TOP = os.path.dirname(os.path.dirname(os.path.realpath(__file__)))
os.chdir(TOP)  # so that all paths are those of the repository
RUST = sorted(glob.glob("crates/*/src/**/*.rt", recursive=True))  # all files of Rust, tests and programs too
LIBRARIES = [path for path in RUST if not re.search(r"/(tests|uses)", path)]  # and the other programs
FRONT = "futures_intrusive"
PUB = r"(?:pub(?:\([a-z]+\))? )?(?:unsafe )?"
# An item's docs, its text, which begins at a line's start and ends with a line's `}` or `;`, and its first word.
ITEM = re.compile(r"((?:^(?:///|#\[).*\n)*)"
                  rf"^({PUB}(impl|trait|struct|enum|type|fn)\b(?:.*[;}}]|(?:.*\n)+?(?:\}}.*|\S.*[;}}]))$)", flags=re.M)
BRACED = r"[^{}]*"  # what stands in braces, at most so deep in each other
for _ in range(9):
    BRACED = rf"(?:[^{{}}]|\{{{BRACED}\}})*"
NAME = r"[^\s(){}\[\];,:\"]+"
HEAD = re.compile(rf"\s*(?:abbrev |unfoldable )?(?:pub )?(?:(data|record) )?({NAME})")


def text_of(path):
    """Returns a file's text."""
    return pathlib.Path(path).read_text(encoding="utf-8")


def write(texts):
    """Writes these files anew, each with its text."""
    for path, text in texts.items():
        pathlib.Path(path).write_text(text, encoding="utf-8")


def end(summary, faults):
    """Prints faults, and how many they are behind a summary, and ends with the status that they give."""
    print(*faults, f"{summary}{len(faults)} faults", sep="\n")
    sys.exit(1 if faults else 0)


def renewed(page, new):
    """Writes a page anew; with --check returns how it differs from the sources instead."""
    if "--check" not in sys.argv:
        write({page: new})
        return []
    rows = list(difflib.unified_diff(text_of(page).split("\n"), new.split("\n"), n=0, lineterm=""))[2:]
    says = {"+": "lacks", "-": "has, unlike the sources,"}
    return [f'{page}: {says[row[0]]} the line "{row[1:]}"; run .ci/{os.path.basename(sys.argv[0])}'
            for row in rows if row[0] in says]


def rt(crate, *words):
    """Runs `rt` with these words in a crate's folder. Returns the exit status and what it printed."""
    pipes = {"stdin": subprocess.DEVNULL, "stdout": subprocess.PIPE, "stderr": subprocess.STDOUT}
    ran = subprocess.run(["rt", *words], cwd=crate, text=True, errors="replace", **pipes)
    return ran.returncode, ran.stdout


def rust_files(*crates):
    """Returns the files of Rust of these crates, in their order."""
    return [path for crate in crates for path in RUST if path.startswith(f"crates/{crate}/")]


def crates_under(crate):
    """Returns the crates of this repository that a crate stands on, in the order of crates.txt, and itself."""
    others = re.search(rf"^{crate}\b[^:\n]*:(.*)$", text_of("crates.txt"), flags=re.M)[1]
    return [name for name in [*others.split(), crate] if os.path.isdir(f"crates/{name}")]


def without_comments(text):
    """Returns a text of Rust without its comments."""
    return re.sub(r"//[^\n]*", "", text)


def without_generics(text):
    """Returns a text without what stands between angle brackets."""
    text, count = re.sub(r"[-=]>", "", text), 1
    while count:
        text, count = re.subn(r"<[^<>]*>", "", text)
    return text


class Function:
    """A function of Rust: its item, file and name, the text that begins with it, this deep; and its code, each chain of
    calls in one line, without attributes and the first lines of clauses."""

    def __init__(self, item, text, depth):
        self.item, self.path, self.text, self.depth = item, item.path, without_comments(text), depth
        self.is_public, self.name = text.startswith("pub "), re.match(rf"{PUB}fn (\w+)", text)[1]
        code = re.sub(r"^ *(?:ensures|requires|ghost|#).*", "", self.text, flags=re.M)
        self.body = re.sub(r"\s*\n\s*\.", ".", code)

    def contract(self):
        """Returns its signature, and its clauses: each one's first words with its text."""
        head = re.split(r"\n\s*(?:where|requires|ensures|\{)|;\n| \{", re.sub(rf"^{PUB}fn ", "", self.text))[0]
        signature = re.sub(r",? \)|,\)", ")", re.sub(r"\s+", " ", head).replace("( ", "(")).strip(" ;")
        clause = rf"^ {{{self.depth + 4}}}((?:requires|ensures)\*?(?: \w+)?) \{{({BRACED})\}}"
        return signature, re.findall(clause, self.text, flags=re.M)


class Item:
    """An item of Rust: its file and line, its docs and text, its first word, its name or that of its type, an impl's
    trait, and what a name of a type stands for."""

    def __init__(self, path, found):
        self.path, self.crate, self.line = path, path.split("/")[1], found.string.count("\n", 0, found.start(2)) + 1
        self.docs, self.text, self.word = found.groups()
        self.head = re.sub(r"\s+", " ", re.split(r"\bwhere\b|[{;]", without_comments(self.text))[0]).strip()
        self.is_public, self.target = self.head.startswith("pub "), self.head.partition(" = ")[2]
        name = r"[^\w(]*(?:\w+::)*(\w*)"
        found = re.search(rf"{self.word}(?:{name} for\b)?{name}", without_generics(self.head))
        self.trait, self.name = found.groups("")


def items(paths):
    """Returns the items of these files of Rust, and their functions: those that stand alone, and methods."""
    found, functions = [Item(path, it) for path in paths for it in ITEM.finditer(text_of(path))], []
    for item in found:
        depth = 0 if item.word == "fn" else 4
        texts = re.split(rf"^ {{{depth}}}(?={PUB}fn \w)", item.text, flags=re.M)[1:]
        functions += [Function(item, text, depth) for text in texts]
    return found, functions


def leaves(tree):
    """Yields the name that each leaf of a tree of imports brings in, and its path, with `::` before a definition."""
    tree = re.sub(r"\s+", " ", tree).replace(".{", "::{")
    while inner := re.search(r"([^\s,{}]*)\{([^{}]*)\}", tree):
        tree = tree.replace(inner[0], ", ".join(inner[1] + it.strip() for it in inner[2].split(",") if it.strip()))
    for leaf in filter(None, map(str.strip, tree.split(","))):
        path, _, other = leaf.partition(" as ")
        path = path.removesuffix("::self")
        yield other or re.split(r"::|\.", path)[-1], path


def imports(text, words=r"\s*(?:pub )?(?:ghost )?use"):
    """Returns the names that a text of Rust imports, in lines that begin with these words, each with its path."""
    found = re.findall(rf"^{words} ([^;]*);", without_comments(text), flags=re.M)
    return dict(leaf for tree in found for leaf in leaves(tree))


def front_door():
    """Returns the public items of `futures_intrusive`: each one's path there, with the path that it is taken from."""
    doors = {}
    for path in rust_files(FRONT):
        inside = path.split("/src/")[1].removesuffix(".rt").replace("/", "::")
        module = FRONT if inside == "lib" else f"{FRONT}::{inside}"
        for name, source in imports(text_of(path), "pub use").items():
            doors[f"{module}::{name}"] = source.replace("crate::", FRONT + "::", 1)
    return doors


def statements(text):
    """Returns the statements of a text of antt that begin as deep as the first, each with its lines up to the next."""
    text = "\n".join(line for line in text.split("\n") if line.strip())
    depth = re.match(" *", text)[0]
    return re.split(rf"\n(?={depth}[^\s)}}\]])", text) if text else []


class Antt:
    """A file of antt, or one of Rust, which imports from such files: its imports by name; its definitions, each with
    its text, its number of lines and why it is believed, if it is; and these by their and their constructors' names."""

    def __init__(self, path, imported=()):
        self.path, self.imports, self.definitions, self.named = path, dict(imported), [], {}

    def read(self, text, parameters=""):
        """Reads the statements of a file, or of a module with these parameters."""
        for statement in statements(re.sub(r'"[^"\n]*"|--[^\n]*', " ", text)):
            used = re.match(r"\s*(?:pub )?use\s+(.*)", statement, flags=re.S)
            kind, name = HEAD.match(statement).groups()
            before, _, inside = statement.partition(" where\n")
            if used:
                self.imports.update(leaves(used[1]))
            elif name == "module":
                self.read(inside, parameters + before)
            else:
                if name not in self.named:
                    self.named[name] = SimpleNamespace(file=self, name=name, text=parameters, size=0, why=None)
                    self.definitions.append(self.named[name])
                it = self.named[name]
                it.text, it.size = f"{it.text}\n{statement}", it.size + statement.count("\n") + 1
                self.named.update({HEAD.match(part)[2]: it for part in statements(inside) if kind == "data"})
        return self

    def meant(self, name, member=""):
        """Returns the definition that a name means here: None if that is elsewhere, False if there is none."""
        base, _, imported = self.imports.get(name, "").partition("::")
        if not base or not (imported or member):
            return self.named.get(name)
        found = re.fullmatch(r"Rattle\.(\w+)\.((?:specs|proofs)\.(?!declared\.|contracts\.).*)", base)
        if not found or not os.path.isdir(f"crates/{found[1]}"):
            return None
        path = f"crates/{found[1]}/" + found[2].replace(".", "/")
        file = antt(path) or antt(os.path.dirname(path))  # a constructor's path ends in its type
        return file and file.meant(imported or member) or False

    def names(self, text):
        """Yields the names in a text of this file, but for the labels of arguments, each with the definition meant."""
        for word in re.findall(NAME, re.sub(rf"(?<=[{{;])\s*{NAME}\s*=(?![=\w])", " ", text)):
            yield word, self.meant(*word.split(".")[:2])


@functools.cache
def antt(path):
    """Returns the file of antt of this path and name, or None if there is none."""
    return Antt(f"{path}.antt").read(text_of(f"{path}.antt")) if os.path.isfile(f"{path}.antt") else None
