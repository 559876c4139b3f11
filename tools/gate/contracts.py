"""Reads the text of Rattle sources: their functions with contract and body, what they import, and the theorems of a proof file.

It reads what rt fmt lays out and stops (Unread) at what it does not know, so that nothing is passed over in silence.
"""
import functools
import re

import repository
from reports import fault


class Unread(Exception):
    """A text that this module does not read."""


# a token of a contract or statement: a bracket or a comma, or the text between spaces
TOKEN = re.compile(r"\[\]|[()\[\]{},]|[^\s()\[\]{},]+")
# how a function begins: its visibility, the words before fn, its name
FUNCTION = re.compile(r'^( *)(pub(?:\([^)]*\))? )?((?:const |unsafe |extern "[^"]*" )*)fn (\w+)', re.M)
NUMBERS = {"u8", "u16", "u32", "u64", "usize", "i32", "i64"}
RESERVED = {"record", "ruleset", "data", "open", "abbrev", "unfold", "where", "with"}  # words of the logic: as a name they are written in «»


def tokens(text):
    return TOKEN.findall(text)


def spelled(words):
    """Tokens as text, with the spaces that a reader expects."""
    text = re.sub(r"([)\]}]) (?=\.[^\W\d])", r"\1", " ".join(words))
    return re.sub(r" ([)\]},])", r"\1", re.sub(r"([(\[{]) ", r"\1", text))


def blanked(text):
    """A source with its comments and literals as spaces, so that only brackets and words of code are left. Places do not change."""
    literal = r'//[^\n]*|"(?:\\.|[^"\\])*"|\'(?:\\.|[^\'\\])\''
    return re.sub(literal, lambda m: m[0] if m[0] == '"C"' else re.sub(r"[^\n]", " ", m[0]), text)


def closing(text, at):
    """The place after the bracket that closes the one at a place."""
    depth = 0
    for place in range(at, len(text)):
        depth += (text[place] in "([{") - (text[place] in ")]}")
        if depth == 0:
            return place + 1
    raise Unread(fault("a bracket that is never closed"))


class Function:
    """A function: its parameters (name, type), the type of its answer, its contract (word, text), its body, and the words above it."""

    def __init__(self, source, head, holder):
        code, at = source.code, past_generics(source.code, head.end())
        self.source, self.name, self.holder = source, head[4], holder
        self.public = head[2] == "pub " or "extern" in head[3]
        end = closing(code, at)
        self.parameters = [parameter(words, holder) for words in split_at_commas(code[at + 1:end - 1])]
        given = re.compile(r"\s*(?:->\s*((?:\[[^\]]*\]|[^{;\[])+?))?\s*(?=\{|;|requires\b|ensures\b|$)").match(code, end)
        clause = re.compile(r"\s*(requires|ensures)(?: (\w+))?\s*(?=\{)")
        if not given:
            raise Unread(fault(f"{self.name}: the text after its parameters"))
        self.answer, at, self.clauses = given[1] and given[1].strip(), given.end(), []
        while found := clause.match(code, at):
            at = closing(code, found.end())
            self.clauses.append((found[1], source.text[found.end() + 1:at - 1].strip()))
        begin = re.compile(r"\s*").match(code, at).end()
        if code[begin:begin + 1] != "{":
            raise Unread(fault(f"{self.name}: the text between its contract and its body"))
        # what a trait's method promises stands in a law of its impl
        self.promised = any(word == "ensures" for word, _ in self.clauses) or self.name in source.laws.get(holder, ())
        self.body = (begin, closing(code, begin))
        self.words = words_above(source.text[:head.start()])

    @property
    def path(self):
        """The name within the crate: after its type or its modules."""
        return "::".join([*([self.holder] if self.holder else self.source.modules), self.name])


class Source:
    """A source file of a crate: its text, and what it declares and imports. A method's holder is the type of its impl."""

    def __init__(self, crate, file, text):
        self.crate, self.file, self.text, self.code = crate, file, text, blanked(text)
        inner = file.removeprefix("src/").removesuffix(".rt")
        self.modules = [] if inner in ("lib", "main") else inner.split("/")
        if re.search(r"\b(trait|macro_rules)\b", self.code):
            raise Unread(fault(f"{crate}/{file} has a trait or a macro"))
        impls = list(re.finditer(repository.IMPL + r"(?:<[^>]*>)? (?=\{)", self.code, re.M))
        self.impls = [(repository.holder(found), found.end(), closing(self.code, found.end())) for found in impls]
        self.of_traits = {repository.holder(found) for found in impls if found[1]}
        # the methods of a trait's impl with a law there, as `ghost next_gives = { NextNode };` is that of `next`
        self.laws = {name: set(re.findall(r"^ *ghost (\w+)_gives = \{", self.code[begin:end], re.M)) for name, begin, end in self.impls if name in self.of_traits}
        self.functions = [Function(self, head, self.holder_at(head.start())) for head in FUNCTION.finditer(self.code)]
        if len(self.functions) != len(re.findall(r"\bfn\s+\w", self.code)):
            raise Unread(fault(f"{crate}/{file} has a function that does not begin its line as rt fmt has it"))
        self.ghosts = imports(re.findall(r"^ghost use ([^;]+);", self.code, re.M))
        trees = re.findall(r"^(?:pub )?use ([^;]+);", self.code, re.M)
        self.uses = {name: path for tree in trees for name, path in paths_of(tree)}

    def holder_at(self, place):
        return next((name for name, begin, end in self.impls if begin < place < end), None)

    def type_module(self, name):
        """The module of the logic in which a type of this file is declared."""
        crate, *inner = self.uses.get(name, ["crate", *self.modules])
        return ".".join([f"Rattle.{self.crate if crate == 'crate' else crate}.specs.declared", *inner, name])


def past_generics(code, at):
    """The place of the bracket that opens a function's parameters, after its type parameters."""
    at = re.compile(r"\s*").match(code, at).end()
    depth = 0
    while code[at:at + 1] != "(" or depth:
        depth += (code[at] == "<") - (code[at] == ">" and code[at - 1] != "-")
        at += 1
    return at


def paths_of(tree, above=()):
    """What a `use` of code brings: each name with the modules that it is in, the crate first."""
    path, opened, inner = tree.strip().partition("{")
    *modules, last = [word.strip() for word in path.split("::")]
    if not opened:
        there, _, here = last.partition(" as ")
        return [((here or there).strip(), [*above, *modules])]
    return [pair for part in split_at_commas(inner.rpartition("}")[0]) for pair in paths_of(part, [*above, *modules])]


def split_at_commas(text):
    parts, depth = [""], 0
    for letter in text:
        depth += (letter in "([{<") - (letter in ")]}>")
        if letter == "," and depth == 0:
            parts.append("")
        else:
            parts[-1] += letter
    return [part.strip() for part in parts if part.strip()]


def parameter(words, holder):
    """A parameter's name and type."""
    if words in ("self", "&self", "&mut self"):
        return "self", words.replace("self", holder)
    name, mark, kind = words.partition(":")
    if not mark or not re.fullmatch(r"(?:mut )?\w+", name.strip()):
        raise Unread(fault(f"a parameter '{words}'"))
    return name.strip().removeprefix("mut "), kind.strip()


def words_above(before):
    """The comment directly above a place, as one sentence; attributes may be between them."""
    words = []
    for line in reversed(before.splitlines()):
        line = line.strip()
        if line.startswith("//"):
            words.insert(0, line[2:].strip())
        elif not line.startswith("#["):
            break
    return " ".join(words)


def imports(clauses):
    """The names that 'use' clauses bring: name to (module, its name there)."""
    found = {}
    for clause in clauses:
        module, mark, listed = clause.strip().partition(".{")
        if mark:
            for entry in listed.rstrip("}").split(","):
                there, _, here = entry.strip().partition(" as ")
                found[(here or there).strip()] = (module, there.strip())
    return found


kit = functools.cache(repository.Kit)


@functools.cache
def passed_on(module):
    """The names that a module of the kit passes on, each with where it takes it from; none of another module."""
    crate, *rest = module.removeprefix("Rattle.").split(".")
    if not module.startswith("Rattle.") or (repository.CRATES / crate).is_dir():
        return {}
    path = kit().home.joinpath("rlibs", f"{crate}.rlib", "lang", "antt", *rest).with_suffix(".antt")
    return imports(re.findall(r"^pub use (.+)$", path.read_text() if path.is_file() else "", re.M))


def home_of(module, name):
    """Where a name is defined that a module of the kit passes on, as Rattle.std.specs.Prelude does; else the module itself with the name."""
    found = passed_on(module).get(name)
    return home_of(*found) if found else (module, name)


def logic_type(kind):
    """A type of the source as the logic writes it."""
    kind = re.sub(r"^&(?:'\w+ )?(?:mut )?", "", kind)
    if kind == "()":
        return "Unit {0}"
    if kind.startswith("["):
        return f"List {in_brackets(kind[1:-1].partition(';')[0].strip())}"
    if kind.startswith("("):
        return " × ".join(in_brackets(part) for part in split_at_commas(kind[1:-1]))
    if made := re.fullmatch(r"(Option|Result)<(.+)>", kind):
        return " ".join([made[1], *(in_brackets(part) for part in split_at_commas(made[2]))])
    if kind in NUMBERS:
        return "ℕ"
    if not re.fullmatch(r"(?:\w+::)*\w+", kind):
        raise Unread(fault(f"the type {kind}"))
    return "Bool" if kind == "bool" else kind.rpartition("::")[2]


def in_brackets(kind):
    """A type of the source as the logic writes it within another type."""
    inner = logic_type(kind)
    return f"({inner})" if " " in inner else inner


def quoted(name):
    """A name of the source as the logic writes it."""
    return f"«{name}»" if name in RESERVED else name


# a name with what it is at: `b.now` of a `&`, `b.old` and `b.new` of a `&mut`
STANDS = re.compile(r"(?<![^\s(,\[{])([^\W\d]\w*|«\w+»)(?:\.entry\.now|\.(now|old|new))(?![\w'])")
RESULT = re.compile(r"(?<![^\s(,\[{])result(?:\.now)?(?![\w'])")


def said(clause, answer, exit_of):
    """What an 'ensures' says about an answer, as tokens: the parameter behind a reference by its name, a `&mut` at exit as given by exit_of, the answer
    by the given name."""
    if "⌜" in clause:
        raise Unread(fault(f"the clause '{clause}' is no fact of an answer"))
    text = RESULT.sub(answer, clause)
    if any({"now", "old", "new", "entry", "exit"} & set(word.split(".")[1:]) for word in tokens(STANDS.sub("", text))):
        raise Unread(fault(f"the clause '{clause}' speaks of a parameter's value in another way"))
    return tokens(STANDS.sub(lambda m: exit_of(m[1]) if m[2] == "new" else m[1], text))


class ProofFile:
    """A file of the logic without its comments: what it imports, what it defines, its public statements, and its records' fields."""

    def __init__(self, text):
        self.bare = re.sub(r"(?m)(^|\s)--(\s.*)?$", "", text)
        self.imports = imports(re.findall(r"^use (.+)$", self.bare, re.M))
        self.defined = set(re.findall(r"^(?:(?:pub|abbrev|unfoldable|record|data) )*(?!use |module )(\S+) ", self.bare, re.M))
        self.statements = {name: tokens(words) for name, words in re.findall(r"^pub (\S+) :((?:.*\n)(?:[ \t].*\n|\n)*)", self.bare, re.M)}

    def record(self, name):
        """The parameters of a record and its fields, each as tokens; None where there is no such record."""
        found = re.search(rf"^(?:pub )?record {re.escape(name)} (.*?) : Type \d+ where\n((?:[ \t].*\n|\n)*)", self.bare + "\n", re.M)
        if not found:
            return None
        parameters = [name for group in re.findall(r"[({]([^:()]+):", found[1]) for name in group.split()]
        return parameters, [tokens(field) for field in re.findall(r"^  (?:pub )?\S+ : (.*)$", found[2], re.M)]
