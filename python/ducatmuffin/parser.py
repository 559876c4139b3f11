"""The tree of a Starlark script, by recursive descent over the tokens of the module `lexer`. No part of this is proved.

    parse(script) -> the top-level statements, as nodes        raises NotStarlark or TooDeep

The lists of parameters and arguments and the left side of an assignment are as loose as a table is: every order of marks and names, and every
expression as a target, so that the proved checker judges them (10 to 19, 20 to 24, 30 to 33). Everything else is as strict as the crate.

A node has a kind of docs/kinds.tsv. Its span begins with its first token and ends with its last; parentheses have no node, and belong to
the span of the node around them.
"""
import gc

from .fstring import parts_of
from .lexer import (BANG, BYTES, DEDENT, END, ERROR, FIELD, FIELD_END, FLOAT, FSTRING, FSTRING_END, INDENT, INT, NAME, NEWLINE, STRING, NotStarlark,
                    tokens)
from .numbers import KIND
from .output import shown

(STATEMENTS, DEF, FOR, IF, IF_ELSE, BREAK, CONTINUE, RETURN, LOAD, OTHER, ASSIGN, MODIFY) = (KIND[word] for word in (
    "Statements", "Def", "For", "If", "IfElse", "Break", "Continue", "Return", "Load", "OtherSimple", "Assign", "AssignModify"))
(TUPLE, DOT, CALL, INDEX, INDEX2, SLICE, IDENTIFIER, LAMBDA, NOT, OP, IF_EXPR, LIST, DICT, LIST_COMP, DICT_COMP, F_STRING) = (KIND[word] for word in (
    "Tuple", "Dot", "Call", "Index", "Index2", "Slice", "Identifier", "Lambda", "Not", "Op", "IfExpr", "List", "Dict", "ListComprehension",
    "DictComprehension", "FString"))
(NORMAL, NO_ARGS, SLASH, ARGS_PARAM, KWARGS_PARAM, POSITIONAL, NAMED, ARGS_ARG, KWARGS_ARG) = (KIND[word] for word in (
    "Normal", "NoArgs", "Slash", "ArgsParam", "KwArgsParam", "Positional", "Named", "ArgsArg", "KwArgsArg"))

LEAVES = {INT: KIND["Int"], FLOAT: KIND["Float"], STRING: KIND["String"], BYTES: KIND["Bytes"], "...": KIND["Ellipsis"]}
WORDS = {"break": BREAK, "continue": CONTINUE, "pass": OTHER}
UNARY = {"-": KIND["Minus"], "+": KIND["Plus"], "~": KIND["BitNot"]}
AUGMENTED = frozenset("+= -= *= /= //= %= &= |= ^= <<= >>=".split())
# how strongly an operator binds. `not` before an operand binds between `and` and the comparisons; as an operator it begins `not in`
OR, AND, NEGATION, COMPARISON, BIT_OR = 1, 2, 3, 4, 5
BINDS = {"or": OR, "and": AND, **dict.fromkeys(("==", "!=", "<", ">", "<=", ">=", "in", "not"), COMPARISON), "|": BIT_OR, "^": 6, "&": 7,
         "<<": 8, ">>": 8, "+": 9, "-": 9, "*": 10, "/": 10, "%": 10, "//": 10}
# what can follow a list of expressions without parentheses, so that a comma before it ends the list
AFTER_LIST = frozenset([NEWLINE, ";", "=", ":", ")", "in", *AUGMENTED])

LEVELS = 200  # of expressions and blocks in each other; a table has 64 levels of nodes, and each takes at most two of these
FIELDS = "a field of an f-string is {expression}, {expression!s} or {expression!r}"
NO_GENERATOR = "Starlark has no generators: use a list comprehension"
ONE_OR_TWO = "an index is one expression, two, or a slice"


class TooDeep(Exception):
    """A script that is nested too deeply for this parser, and where."""

    def __init__(self, begin):
        super().__init__(begin)
        self.begin, self.message = begin, f"nested too deeply: this parser follows {LEVELS} levels of expressions and blocks in each other"


class Node:
    """A statement, expression, parameter or argument. A comprehension also has `targets`, those of its children that follow a `for`, and an f-string
    `parts`, as in the module `fstring`."""

    __slots__ = ("kind", "begin", "end", "children", "detail", "name", "targets", "parts")

    def __init__(self, kind, begin, end, children=(), detail=0, name=b""):
        self.kind, self.begin, self.end, self.children, self.detail, self.name = kind, begin, end, children, detail, name


def parse(script):
    """The top-level statements of a script, which is UTF-8. The garbage collector is paused meanwhile: nodes have no cycles, and it would visit all
    of them again and again, so that a line of a long script would cost more than twice one of a short script."""
    collects = gc.isenabled()
    gc.disable()
    try:
        return Parser(tokens(script)).file()
    finally:
        if collects:
            gc.enable()


def joined(statements):
    """Statements as one: a single one is itself, as in the crate."""
    if len(statements) == 1:
        return statements[0]
    if not statements:
        return Node(STATEMENTS, 0, 0)
    return Node(STATEMENTS, statements[0].begin, statements[-1].end, statements)


class Parser:
    """Reads tokens one after the other. `kind` and `begin` are those of the next token, `ended` is the end of the last one, `closed` the end of the
    last line of statements: a compound statement ends there."""

    def __init__(self, found):
        self.tokens, self.script, self.kinds, self.begins, self.ends = found, found.script, found.kinds, found.begins, found.ends
        self.at, self.kind, self.begin, self.ended, self.closed, self.level = 0, found.kinds[0], found.begins[0], 0, 0, 0

    def advance(self):
        at = self.at
        self.ended = self.ends[at]
        self.at = at = at + 1
        self.kind, self.begin = self.kinds[at], self.begins[at]

    def expect(self, kind):
        if self.kind != kind:
            raise self.unexpected(WANTED.get(kind) or f"`{kind}`")
        self.advance()

    def take_name(self):
        """The bytes of a name, which comes next."""
        begin = self.begin
        self.expect(NAME)
        return self.script[begin:self.ended]

    def deeper(self):
        self.level += 1
        if self.level > LEVELS:
            raise TooDeep(self.begin)

    # ---- statements

    def file(self):
        statements = []
        while self.kind != END:
            if self.kind == NEWLINE:
                self.advance()
            else:
                self.statement(statements)
        return statements

    def statement(self, into):
        """A compound statement, or the simple statements of a line."""
        if self.kind == "def":
            into.append(self.definition())
        elif self.kind == "if":
            into.append(self.if_statement())
        elif self.kind == "for":
            into.append(self.for_statement())
        else:
            self.simple_line(into)

    def block(self):
        """The statements after a colon, as one."""
        self.expect(":")
        self.deeper()
        statements = []
        if self.kind == NEWLINE:
            while self.kind == NEWLINE:
                self.advance()
            self.expect(INDENT)
            while self.kind != DEDENT:
                if self.kind == NEWLINE:
                    self.advance()
                else:
                    self.statement(statements)
            self.advance()
        else:
            self.simple_line(statements)
        self.level -= 1
        return joined(statements)

    def definition(self):
        begin = self.begin
        self.advance()
        self.take_name()
        self.expect("(")
        children, detail = self.parameters(")", True), 0
        self.expect(")")
        if self.kind == "->":
            self.advance()
            children.append(self.expression())
            detail = 1
        children.append(self.block())
        return Node(DEF, begin, self.closed, children, detail)

    def if_statement(self):
        """`elif` is an IfElse in an IfElse."""
        parts, otherwise = [], None
        while True:
            begin = self.begin
            self.advance()
            condition = self.expression()
            parts.append((begin, [condition, self.block()]))
            if self.kind != "elif":
                break
        if self.kind == "else":
            self.advance()
            otherwise = self.block()
        for begin, children in reversed(parts):
            if otherwise:
                children.append(otherwise)
            otherwise = Node(IF_ELSE if len(children) == 3 else IF, begin, self.closed, children)
        return otherwise

    def for_statement(self):
        begin = self.begin
        self.advance()
        target = self.targets()
        self.expect("in")
        children = [target, self.expressions(), self.block()]
        return Node(FOR, begin, self.closed, children)

    def simple_line(self, into):
        into.append(self.simple())
        while self.kind == ";":
            self.advance()
            if self.kind == NEWLINE:
                break
            into.append(self.simple())
        if self.kind == "=":
            raise self.unexpected(WANTED[NEWLINE], "an assignment has one `=`")
        self.closed = self.ended
        self.expect(NEWLINE)

    def simple(self):
        kind, begin = self.kind, self.begin
        if kind in WORDS:
            self.advance()
            return Node(WORDS[kind], begin, self.ended)
        if kind == "return":
            self.advance()
            children = () if self.kind in (NEWLINE, ";") else [self.expressions()]
            return Node(RETURN, begin, self.ended, children)
        if kind == "load":
            return self.load()
        return self.assignment()

    def load(self):
        """`load` with its strings, which a table does not have."""
        begin, names = self.begin, 0
        self.advance()
        self.expect("(")
        self.load_string()
        while self.kind == ",":
            self.advance()
            if self.kind == ")":
                break
            if self.kind == NAME and self.kinds[self.at + 1] == "=":
                self.advance()
                self.advance()
            self.load_string()
            names += 1
        self.expect(")")
        if not names:
            raise NotStarlark("a load statement needs a file and at least one name", begin, self.ended)
        return Node(LOAD, begin, self.ended)

    def load_string(self):
        if self.kind != STRING:
            raise self.unexpected("a string", "the arguments of `load` are strings")
        self.advance()

    def assignment(self):
        """An assignment, or an expression as a statement."""
        begin = self.begin
        children, detail = [self.expressions()], 0
        if self.kind == ":":
            self.advance()
            children.append(self.expression())
            detail = 1
            if self.kind != "=" and self.kind not in AUGMENTED:
                raise self.unexpected("`=`", "a name with a type needs a value")
        if self.kind == "=" or self.kind in AUGMENTED:
            kind = ASSIGN if self.kind == "=" else MODIFY
            self.advance()
            children.append(self.expressions())
            return Node(kind, begin, self.ended, children, detail)
        return Node(OTHER, begin, self.ended, children)

    # ---- parameters and arguments: in any order

    def parameters(self, close, typed):
        """The parameters of a def or a lambda, to the closing token."""
        found = []
        while self.kind != close:
            found.append(self.parameter(typed))
            if self.kind != ",":
                break
            self.advance()
        return found

    def parameter(self, typed):
        begin, stars = self.begin, self.kind
        if stars == "/":
            self.advance()
            return Node(SLASH, begin, self.ended)
        if stars in ("*", "**"):
            self.advance()
            if stars == "*" and self.kind != NAME:
                return Node(NO_ARGS, begin, self.ended)
        name, children, detail = self.take_name(), [], 0
        if typed and self.kind == ":":
            self.advance()
            children.append(self.expression())
            detail = 1
        if stars in ("*", "**"):
            return Node(ARGS_PARAM if stars == "*" else KWARGS_PARAM, begin, self.ended, children, detail, name)
        if self.kind == "=":
            self.advance()
            children.append(self.expression())
            detail += 2
        return Node(NORMAL, begin, self.ended, children, detail, name)

    def arguments(self, callee, begin):
        """The call of a callee that begins at `begin`."""
        children = [callee]
        self.advance()
        while self.kind != ")":
            children.append(self.argument())
            if self.kind != ",":
                break
            self.advance()
        self.expect(")")
        return Node(CALL, begin, self.ended, children)

    def argument(self):
        begin, kind, name = self.begin, POSITIONAL, b""
        if self.kind == "*" or self.kind == "**":
            kind = ARGS_ARG if self.kind == "*" else KWARGS_ARG
            self.advance()
        elif self.kind == NAME and self.kinds[self.at + 1] == "=":
            kind, name = NAMED, self.take_name()
            self.advance()
        value = self.expression()
        if self.kind == "=":
            raise self.unexpected("`,` or `)`", "before the `=` of an argument must be a name")
        if self.kind == "for":
            raise self.unexpected("`,` or `)`", NO_GENERATOR)
        return Node(kind, begin, self.ended, [value], 0, name)

    # ---- lists of expressions without parentheses

    def expressions(self):
        """One expression, or a tuple."""
        return self.list_of(self.expression)

    def targets(self):
        """The targets between `for` and `in`."""
        return self.list_of(self.target)

    def target(self):
        return self.operation(BIT_OR)

    def list_of(self, one):
        begin = self.begin
        found = one()
        if self.kind != ",":
            return found
        children = [found]
        while self.kind == ",":
            comma = self.begin
            self.advance()
            if self.kind in AFTER_LIST:
                raise NotStarlark("a tuple without parentheses cannot end with a comma", comma)
            children.append(one())
        return Node(TUPLE, begin, self.ended, children)

    # ---- expressions

    def expression(self):
        self.deeper()
        begin = self.begin
        if self.kind == "lambda":
            self.advance()
            children = self.parameters(":", False)
            self.expect(":")
            children.append(self.expression())
            found = Node(LAMBDA, begin, self.ended, children)
        else:
            found = self.operation(OR)
            if self.kind == "if":
                self.advance()
                condition = self.operation(OR)
                self.expect("else")
                otherwise = self.expression()
                found = Node(IF_EXPR, begin, self.ended, [condition, found, otherwise])
        self.level -= 1
        return found

    def operation(self, least):
        """Operands and operators that bind as strongly as `least` or more strongly."""
        self.deeper()
        begin = self.begin
        if self.kind == "not" and least <= NEGATION:
            found = self.negation()
        elif self.kind in UNARY:
            found = self.unary()
        else:
            found = self.primary()
        binds = BINDS.get(self.kind, 0)
        while binds >= least:
            detail = int(self.kind == "|")
            if self.kind == "not":
                self.advance()
                if self.kind != "in":
                    raise self.unexpected("`in`")
            self.advance()
            right = self.operation(binds + 1)
            found = Node(OP, begin, self.ended, [found, right], detail)
            last, binds = binds, BINDS.get(self.kind, 0)
            if last == binds == COMPARISON:
                raise self.unexpected("", "comparisons cannot be chained: use `and` or parentheses")
        self.level -= 1
        return found

    def negation(self):
        """`not` before a comparison, any number of times."""
        begins = []
        while self.kind == "not":
            begins.append(self.begin)
            self.advance()
        found = self.operation(COMPARISON)
        for begin in reversed(begins):
            found = Node(NOT, begin, self.ended, [found])
        return found

    def unary(self):
        """`-`, `+` and `~`, any number of times."""
        before = []
        while self.kind in UNARY:
            before.append((UNARY[self.kind], self.begin))
            self.advance()
        found = self.primary()
        for kind, begin in reversed(before):
            found = Node(kind, begin, self.ended, [found])
        return found

    def primary(self):
        """An operand with the calls, indices and fields after it."""
        kind, begin = self.kind, self.begin
        if kind == NAME:
            self.advance()
            found = Node(IDENTIFIER, begin, self.ended, (), 0, self.script[begin:self.ended])
        elif kind in LEAVES:
            self.advance()
            found = Node(LEAVES[kind], begin, self.ended)
        elif kind == "(":
            found = self.parenthesized()
        elif kind == "[":
            found = self.list()
        elif kind == "{":
            found = self.dict()
        elif kind == FSTRING:
            found = self.f_string()
        else:
            raise self.unexpected()
        while True:
            kind = self.kind
            if kind == "(":
                found = self.arguments(found, begin)
            elif kind == ".":
                self.advance()
                name = self.take_name()
                found = Node(DOT, begin, self.ended, [found], 0, name)
            elif kind == "[":
                found = self.index(found, begin)
            else:
                return found

    def parenthesized(self):
        """An expression in parentheses, which is itself, or a tuple."""
        begin, children = self.begin, []
        self.advance()
        while self.kind != ")":
            children.append(self.expression())
            if self.kind == "for":
                raise self.unexpected("`,` or `)`", NO_GENERATOR)
            if self.kind != ",":
                self.expect(")")
                return children[0] if len(children) == 1 else Node(TUPLE, begin, self.ended, children)
            self.advance()
        self.advance()
        return Node(TUPLE, begin, self.ended, children)

    def list(self):
        begin, children = self.begin, []
        self.advance()
        while self.kind != "]":
            children.append(self.expression())
            if self.kind == "for" and len(children) == 1:
                return self.comprehension(LIST_COMP, "]", begin, children)
            if self.kind != ",":
                break
            self.advance()
        self.expect("]")
        return Node(LIST, begin, self.ended, children)

    def dict(self):
        begin, children = self.begin, []
        self.advance()
        while self.kind != "}":
            children.append(self.expression())
            if self.kind != ":":
                raise self.unexpected("`:`", "Starlark has no sets in braces")
            self.advance()
            children.append(self.expression())
            if self.kind == "for" and len(children) == 2:
                return self.comprehension(DICT_COMP, "}", begin, children)
            if self.kind != ",":
                break
            self.advance()
        self.expect("}")
        return Node(DICT, begin, self.ended, children)

    def comprehension(self, kind, close, begin, children):
        """The clauses: target and operand of each `for`, the condition of each `if`."""
        targets = []
        while self.kind in ("for", "if"):
            clause = self.kind
            self.advance()
            if clause == "for":
                targets.append(self.targets())
                children.append(targets[-1])
                self.expect("in")
            children.append(self.operation(OR))
        self.expect(close)
        found = Node(kind, begin, self.ended, children)
        found.targets = targets
        return found

    def index(self, of, begin):
        """`x[i]`, `x[i, j]`, or a slice, of which the parts that are written are children."""
        children, kind = [of], INDEX
        self.advance()
        if self.kind != ":":
            children.append(self.expression())
        if self.kind == ",":
            self.advance()
            kind = INDEX2
            if self.kind == "]":
                raise self.unexpected("an expression", ONE_OR_TWO)
            children.append(self.expression())
        elif self.kind == ":":
            kind = SLICE
            self.slice_part(children)
            if self.kind == ":":
                self.slice_part(children)
        if self.kind != "]":
            raise self.unexpected("`]`", ONE_OR_TWO)
        self.advance()
        return Node(kind, begin, self.ended, children)

    def slice_part(self, children):
        self.advance()
        if self.kind not in (":", "]"):
            children.append(self.expression())

    def f_string(self):
        begin, children, conversions = self.begin, [], []
        self.advance()
        while self.kind == FIELD:
            self.advance()
            if self.kind == FIELD_END:
                raise NotStarlark(FIELDS, self.begin)
            children.append(self.expression())
            conversions.append(self.conversion())
            if self.kind != FIELD_END:
                raise self.unexpected("`}`", FIELDS)
            self.advance()
        self.expect(FSTRING_END)
        found, written = Node(F_STRING, begin, self.ended, children), self.tokens.fstrings[begin]
        found.parts = parts_of(written.texts, conversions, written.quote, written.raw)
        return found

    def conversion(self):
        """The letter after the `!` of a field, or None."""
        if self.kind != BANG:
            return None
        self.advance()
        letter = self.script[self.begin:self.ends[self.at]] if self.kind == NAME else None
        if letter not in (b"r", b"s"):
            raise NotStarlark(FIELDS, self.begin)
        self.advance()
        return letter

    # ---- errors

    def unexpected(self, wanted="", note=""):
        """The error of the next token: what is wanted in its place, and a note."""
        kind, begin, end = self.kind, self.begin, self.ends[self.at]
        if kind == ERROR:
            return self.tokens.error
        said = DESCRIBED.get(kind) or f"`{short(self.script[begin:end])}`"
        if begin == len(self.script):
            said, note = "end of script", self.unclosed() or note
        said = f"expected {wanted}, found {said}" if wanted else f"unexpected {said}"
        note = self.beside(kind, begin, end) or note or HINTS.get(kind)
        return NotStarlark(f"{said}: {note}" if note else said, begin, end)

    def unclosed(self):
        """The innermost bracket that is open at the end."""
        if not self.tokens.opened:
            return ""
        at = self.tokens.opened[-1]
        return f"the `{chr(self.script[at])}` of line {self.script.count(10, 0, at) + 1} is not closed"

    def beside(self, kind, begin, end):
        """What the writer may have meant, by the tokens before and after."""
        last, close = self.kinds[self.at - 1] if self.at else None, begin == self.ended
        if kind in (STRING, BYTES, FSTRING):
            if last in (STRING, BYTES, FSTRING_END):
                return "strings side by side are not joined: use `+`"
            if last == NAME and close:
                return "a string can have the prefixes r, b, br, rb, f and fr"
        if last in (INT, FLOAT) and kind in (NAME, INT, FLOAT) and close:
            return "Starlark has no number of this form"
        if self.script[begin:begin + 2] == b":=" or self.script[begin - 1:end] == b":=":
            return "Starlark has no `:=`"
        return None


def short(text):
    """The first characters of the first line of a token."""
    first, more, _ = text.partition(b"\n")
    said = shown(first)
    return said[:LONGEST - 1] + "…" if more or len(said) > LONGEST else said


LONGEST = 40  # characters of a token in a message
DESCRIBED = {NEWLINE: "end of line", INDENT: "indentation", DEDENT: "end of block", END: "end of script", FIELD_END: "end of field",
             FSTRING_END: "end of f-string"}
WANTED = {NEWLINE: "end of statement", INDENT: "an indented block", NAME: "a name", FSTRING_END: "end of f-string"}
HINTS = {"*": "`*` before an expression is allowed only in the arguments of a call", "**": "`**` is allowed only before parameters and arguments",
         "load": "`load` begins a statement, and cannot be a name"}
