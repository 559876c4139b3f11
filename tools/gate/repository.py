"""What the Python tools share: the repository's crates, the kit, the functions of a source file, and edits.

An edit (crates/NAME/must-fail, crates/NAME/wrong, oracle/plant) has rt's own format: lines 'file: ', 'old: ' and 'new: ', several pairs
allowed, each old text on one line and in its file once when the pairs before it are done; 'crate: ' if the folder is not that of the
crate, 'function: ' if a constant is edited and the function that must be refused is named. Every other line is a comment.
"""
import pathlib
import re
import shutil
import subprocess


def root():
    """The repository's folder: the nearest one above this file that has crates.txt."""
    return next(folder for folder in pathlib.Path(__file__).resolve().parents if (folder / "crates.txt").is_file())


ROOT = root()
CRATES = ROOT / "crates"
HEAD = r"(?:pub(?:\(crate\))? )?(?:extern \"C\" )?fn "  # how a function begins
IMPL = r"^impl(?:<[^>]*>)? (?:(?:\w+::)*(\w+)(?:<[^>]*>)? for )?(\w+)"  # how an impl begins: the trait, if it is of one, and the type


def crates():
    """The crates of crates.txt in its order: name to the names of the crates that it uses directly."""
    return {name: uses for name, _, uses in listed()}


def listed():
    """The lines of crates.txt: a crate's name, the words after it, such as `staticlib`, and the names of the crates that it uses directly."""
    for line in (ROOT / "crates.txt").read_text().splitlines():
        head, mark, rest = line.partition("#")[0].partition(":")
        if mark:
            name, *words = head.split()
            yield name, words, rest.split()


def with_below(names):
    """Some crates and all that are below them."""
    every = crates()
    found = set(names) & set(every)
    while more := {below for name in found for below in every[name]} & set(every) - found:
        found |= more
    return found


def copy_crates(room, names):
    """Copies to a folder what rt reads of some crates and those below them, but for edits. It is a repository of these crates alone, so a plain
    `rt ci` there tries only them."""
    wanted = with_below(names)
    lines = (ROOT / "crates.txt").read_text().splitlines(keepends=True)
    (room / "crates.txt").write_text("".join(line for line in lines if not line.partition("#")[0].strip() or line.split()[0].rstrip(":") in wanted))
    if (ROOT / "HANDLES").exists():
        shutil.copy(ROOT / "HANDLES", room)
    others = {"out", "wrong", "must-fail"}
    for name in wanted:
        shutil.copytree(CRATES / name, room / "crates" / name, ignore=lambda folder, inside: others & set(inside) if pathlib.Path(folder).parent == CRATES else ())


def is_static(name):
    """Whether a crate is a static library, which hands the functions of another crate to programs of another language."""
    return any(name == one and "staticlib" in words for one, words, _ in listed())


def is_library(name):
    """Whether a crate is a library (the others are programs)."""
    return (CRATES / name / "src" / "lib.rt").exists()


def sources(*suffixes):
    """The sources of all crates, in a fixed order; without what rt makes in crates/NAME/out."""
    return sorted(path for path in CRATES.rglob("*") if path.suffix in suffixes and "out" not in path.relative_to(CRATES).parts)


def has_code(name):
    """Whether a crate has a function; one without has only definitions and theorems."""
    return any(re.search(rf"(?m)^ *{HEAD}", path.read_text()) for path in (CRATES / name / "src").rglob("*.rt"))


class Kit:
    """The kit's folder, which `rt doc` names, and what is in it."""

    def __init__(self):
        guide = subprocess.run(["rt", "doc"], capture_output=True, text=True, check=True).stdout.strip()
        self.home = pathlib.Path(guide).parent
        self.toolchain = self.home / "toolchain"


class BadEdit(Exception):
    """An edit that cannot be tried, or that shows nothing."""


class Edit:
    """An edit: its crate, its label, its words, and its replacements (file, old text, new text)."""

    def __init__(self, path):
        self.path, self.crate, self.label = path, path.parent.parent.name, path.stem
        self.words, self.pairs, self.function = [], [], None
        file, old = None, None
        for line in path.read_text().splitlines():
            key, mark, value = line.partition(":")
            value = value.removeprefix(" ")
            if mark and key == "crate":
                self.crate = value
            elif mark and key == "function":
                self.function = value
            elif mark and key == "file":
                file = value
            elif mark and key == "old":
                old = value
            elif mark and key == "new":
                self.pairs.append((file, old, value))
            elif line.strip():
                self.words.append(line.strip())

    @property
    def name(self):
        return f"{self.crate}/{self.label}"


def edits(name):
    """The edits of a crate: those that rt tries, then the others."""
    return [Edit(path) for folder in ("must-fail", "wrong") for path in sorted((CRATES / name / folder).glob("*.edit"))]


def holder(found):
    """An impl as the prover names it: by its type, then its trait if it is of one."""
    return found[2] + (found[1] or "")


def function_at(crate, file, before):
    """The function in which the text before a place ends, as the prover names it: a method by its type. None outside of functions."""
    named = re.findall(rf"^( *){HEAD}(\w+)", before, re.M)
    if not file.startswith("src/") or not named:
        return None
    indent, name = named[-1]
    if indent:
        return "::".join([crate, holder(list(re.finditer(IMPL, before, re.M))[-1]), name])
    modules = [] if file == "src/lib.rt" else file.removeprefix("src/").removesuffix(".rt").split("/")
    return "::".join([crate, *modules, name])


def part_at(text, at):
    """What a place of a text is in: a 'body', a 'constant', or something else."""
    before = text[: text.find("\n", at)]
    items = list(re.finditer(rf"^( *)(?:{HEAD}|(?:pub(?:\(crate\))? )?(const|struct|enum|type|impl|mod|use)\b|ghost use\b|#)", before, re.M))
    if not items:
        return "the head of the file"
    last = items[-1]
    if last.group(2):
        return "constant" if last.group(2) == "const" else f"`{last.group(2)}`"
    if not re.match(rf" *{HEAD}", last.group(0)):
        return "a ghost use or an attribute"
    opened = re.search(rf"^{last.group(1)}(?:{{|[^\n]*\) (?:-> [^\n]* )?{{)$", text[last.start() :], re.M)
    return "body" if opened and last.start() + opened.end() <= at else "the signature or contract of a function"


def constant_at(text, at):
    """The name of the constant that a place of a text is in."""
    return re.findall(r"\bconst (\w+)", text[: text.find("\n", at)])[-1]


# how a definition, a record, a field or a statement begins
DEFINED = re.compile(r"^ *(?:unfoldable |abbrev )?pub (?:record |data )?(?!mod )(\S+)(?: [({].*)? : ", re.M)


def definition_at(name, file, text, at):
    """In a crate without code, the definition of specs/ that has a place of a file, or the statement of proofs/ if the crate has
    no specs/. None elsewhere: in a comment, an import, a proof or another file."""
    part = "specs" if (CRATES / name / "specs").is_dir() else "proofs"
    line = text[text.rfind("\n", 0, at) + 1 : text.find("\n", at)]
    heads = [found for found in DEFINED.finditer(text) if found.start() <= at]
    if not re.fullmatch(rf"{part}/\w+\.antt", str(file)) or not heads or re.match(r" *(?:--|use |pub mod |unfolding )", line):
        return None
    own = heads[-1][1]
    if part == "proofs" and re.search(rf"^{re.escape(own)} ", text[heads[-1].start() : at + len(own) + 1], re.M):
        return None  # after the statement, in its proof
    return own
