"""ducat rule NUMBER: what a number means, its rule, where the rule comes from, which jobs give the number, and an example that gives it.

The example is a script or, where no script gives the number, a table in text form, a format text, words of parts or commands. docs/RULES.md is
made from these lists (tools/gate/numbers.py --write).
"""
from typing import NamedTuple, Tuple

from .numbers import GIVEN, NUMBERS, WORDS
from .output import Failed

CHECK, BIND, PAIR, WRITE, PARAMS, RESCUE = "check", "bind", "pair", "write", "params", "rescue"
READ_TEXT, WRITE_TEXT, COMMANDS, STEP = "fstring_read", "fstring_write_words", "commands", "figures_step"
# what gives the number, in words; {} is the dialect's option
HOW = {CHECK: "`ducat check{} FILE`", BIND: "`ducat bind{} FILE`", PAIR: "`ducat bind FILE --call 0 --def 0`", WRITE: "its records and names, given to `ducat write`",
       PARAMS: "the job params of node 0, with a buffer of 0 bytes", RESCUE: "`ducat rescue FILE -o OUT`", READ_TEXT: "the function `fstring_read` of the library",
       WRITE_TEXT: "the function `fstring_write_words` of the library, with no text bytes", COMMANDS: "the last of them gives it",
       STEP: "the function `figures_step` of the library, where 4,294,967,295 files are counted"}
FORMS = {READ_TEXT: "a format text", WRITE_TEXT: "words of parts", COMMANDS: "commands"}


class Example(NamedTuple):
    """A script, or the text form of a table, and what gives the number. `then` are bytes of the table file that are changed, each with the sum of its
    block; `more` are bytes after its last block."""
    text: str
    how: str = CHECK
    dialect: str = "all"
    script: bool = True
    then: Tuple[Tuple[int, int], ...] = ()
    more: int = 0

    def words(self):
        """What the example is."""
        form = FORMS.get(self.how) or ("a script" if self.script else "a table in text form")
        after = [f"byte {at} of the file changed to {value}, and the sum of its block made right" for at, value in self.then]
        after += [f"{self.more} byte after its last block"] if self.more else []
        how = HOW[self.how].format(f" --dialect {self.dialect}" if self.script else "")
        return "".join([form, *(f", {what}" for what in after), f"; {how}"])


def script(text, dialect="all", how=CHECK):
    return Example(text, how, dialect)


def table(text, how=CHECK, then=(), more=0):
    return Example(text, how, "", False, then, more)


def commands(*lines):
    """Commands of `ducat book`, over an empty zone book and an empty line book of one block."""
    front = ("ducat book new 1 -o zones.book", "ducat book new 1 -o line.book")
    return Example("\n".join((*front, *(f"ducat book {line}" for line in lines))), COMMANDS, "", False)


EXAMPLES = {
    1: table("(Statements ^2100<(Break)>)", WRITE),
    2: table("(Statements ^700<(OtherSimple (Identifier twelve_bytes))>)", WRITE),
    3: table("(Assign (Identifier x))"),
    4: table("(OtherSimple ^64<(Not >(Int)^64<)>)"),
    5: script("pass", "111003100"),
    6: table("(Break)", PAIR),
    7: table("(Def (Normal a) (Break))", PARAMS),
    10: script("def f(/, a): pass"),
    11: script("def f(a, a): pass"),
    12: script("def f(**k, a): pass"),
    13: script("def f(a=1, b): pass"),
    14: script("def f(*a, *b): pass"),
    15: script("def f(a, /, b, /): pass"),
    16: script("def f(**a, **b): pass"),
    17: script("def f(a, *): pass"),
    18: script("def f(*, **a): pass"),
    19: script(f"def f({', '.join(f'p{i}' for i in range(1, 50))}): pass"),
    20: script("f(a=1, 2)"),
    21: script("f(*a, b=1)"),
    22: script("f(a=1, a=2)"),
    23: script("f(*a, *b)"),
    24: script("f(**a, **b)"),
    30: script("f() = 1"),
    31: script("a, b += 1"),
    32: script("a: int += 1"),
    33: script("(a, b): int = 1"),
    40: script("x: 1 = 2"),
    41: script("x: [] = 1"),
    42: script("x: f().a = 1"),
    43: script("x: f()[a, b] = 1"),
    44: script("x: a.type = 1"),
    45: script("x: int = 1", "standard"),
    50: script("def f(a, *, b): pass", "standard"),
    51: script("def f(a, /): pass", "standard"),
    52: script("def f(): pass", "000000000"),
    53: script("for x in y: pass", "standard"),
    54: script("if x: pass", "standard"),
    55: script("break"),
    56: script("continue"),
    57: script("return"),
    58: script('def f(): load("a.star", "a")'),
    59: script('load("a.star", "a")', "000000000"),
    60: script("x = ...", "standard"),
    61: script("x = lambda: 1", "000000000"),
    62: script('x = f"{a}"', "extended"),
    63: Example("a{", READ_TEXT, "", False),
    64: Example("4 0", WRITE_TEXT, "", False),
    70: table("cut: 1000\n(Break)"),
    71: table("(Break)", then=((512, 2),)),
    72: table("change: 516 7\n(Break)"),
    73: table("(Break)", then=((514, 23),)),
    74: table("(Break)", then=((4, 0),)),
    75: table("(Break)", more=1),
    76: table("(Break)", STEP),
    80: script("def f(a): pass\nf(*a)", how=BIND),
    81: script("def f(a): pass\nf(1, 2)", how=BIND),
    82: script("def f(a, /): pass\nf(a=1)", how=BIND),
    83: script("def f(a): pass\nf(1, a=2)", how=BIND),
    84: script("def f(a): pass\nf()", how=BIND),
    90: table("cut: 500\n(Break)", RESCUE),
    91: table("cut: 600\n(Break)", RESCUE),
    95: commands("add zones.book line.book 7 0 extended"),
    96: commands("add zones.book line.book 7 1 extended", "add zones.book line.book 7 1 standard"),
    97: commands("lookup zones.book line.book 7 1"),
    98: commands(*(f"add zones.book line.book 7 {setting} extended" for setting in range(1, 23))),
}


CRATE = "starlark_syntax 0.14.2"


class Source(NamedTuple):
    """Where a rule comes from: a line of the crate's file, which has the words; or, with line 0, a section of a document of this repository."""
    file: str
    line: int
    words: str

    def __str__(self):
        return f"{self.file}, line {self.line}: {self.words}" if self.line else f"{self.file}, {self.words}"


class Rule(NamedTuple):
    """What gives a number, in sentences, and where the rule comes from."""
    text: str
    source: Source


def of_crate(name):
    """Rules of a file of the crate."""
    return lambda line, words, text: Rule(text, Source(name, line, words))


def of_document(name, section):
    """Rules that the crate does not have."""
    return lambda text: Rule(text, Source(name, 0, section))


PARAMETERS_OF, CALLS, TARGETS, TYPES, MODULE = map(of_crate, ("def.rs", "call.rs", "grammar_util.rs", "type_expr.rs", "validate.rs"))
SOUND, DIALECT, FILE, TEXTS, BOOKS, FIGURES = (of_document("docs/FORMAT.md", section) for section in (
    "A sound table", "The dialect", "A table file", "Format texts", "Books", "Figures"))
HEADER = of_document("include/starlark.h", "the function of the job")
BINDING, RESCUED = of_document("docs/COMMANDS.md", "Which argument reaches which parameter"), of_document("docs/COMMANDS.md", "Rescue a cut file")

RULES = {
    1: SOUND("A table has 1 to 2,100 records of 24 bytes each. The length is checked first."),
    2: SOUND("There are at most 8,064 name bytes. Their number is checked after 1."),
    3: SOUND("Each record has valid fields, and its children fill it in the number and order that its kind takes. The first record that breaks this is reported."),
    4: SOUND("The root has depth 1. A statement or an expression is one deeper than its parent; a parameter or an argument has the depth of its parent. "
             "The first node with a depth of more than 64 is reported."),
    5: DIALECT("A dialect is nine bytes: `enable_types` is 0, 1 or 2, each other byte is 0 or 1. No bytes mean Extended. The edition is 1 or 2, and a file has one only after a dialect."),
    6: HEADER("A job on a node takes a node of the table: parameters a Def or Lambda, a call a Call, an assignment an Assign or AssignModify, a target or a type an expression, "
              "a binding a Call and a Def."),
    7: HEADER("A buffer for the answer has the length that the job states. A list of errors is never too short: the errors that fit are stored."),
    10: PARAMETERS_OF(164, "`/` cannot be first parameter", "A list does not begin with `/`. Of the rules 10 to 18 this one is checked first. Reported at the `/`."),
    11: PARAMETERS_OF(118, "duplicated parameter name", "Two parameters of a list have different names. Checked for each parameter before the rule of its kind, "
                      "so `(**k, k)` is 11 and not 12. Reported at the later one."),
    12: PARAMETERS_OF(198, "Parameter after kwargs", "An ordinary parameter comes before `**kwargs`. Reported at the parameter."),
    13: PARAMETERS_OF(207, "positional parameter after non positional", "Before a star, each parameter after one with a default has a default too. A `/` does not end this rule, "
                      "a star does. Reported at the parameter without a default."),
    14: PARAMETERS_OF(239, "Args parameter after another args or kwargs parameter", "A list has at most one `*` or `*args`, and it comes before `**kwargs`. Reported at the later star."),
    15: PARAMETERS_OF(257, "Multiple `/` in parameters", "A list has at most one `/`, and it comes before every star and `**kwargs`. Reported at the `/`."),
    16: PARAMETERS_OF(293, "Multiple kwargs dictionary in parameters", "A list has at most one `**kwargs`. Reported at the second."),
    17: PARAMETERS_OF(322, "`*` parameter must not be last", "Something follows a bare `*`. Checked after 10 to 16 for the whole list. Reported at the `*`."),
    18: PARAMETERS_OF(335, "`*` must be followed by named parameter", "An ordinary parameter follows a bare `*`. Checked after 10 to 16 for the whole list, so `(*, **k, x)` is 12. "
                      "Reported at the entry after the `*`."),
    19: SOUND("A parameter list has at most 48 entries, with `*` and `/`. The crate has no such limit. Checked before 10 to 18. Reported at the def or lambda."),
    20: CALLS(60, "positional argument after non positional", "All positional arguments come first. Reported at the argument."),
    21: CALLS(67, "named argument after *args or **kwargs", "Named arguments come before `*` and `**`. Checked before 22. Reported at the argument."),
    22: CALLS(70, "repeated named argument", "Two named arguments have different names. Reported at the later name."),
    23: CALLS(78, "Args array after another args or kwargs", "A call has at most one `*` argument, and it comes before `**`. Reported at the argument."),
    24: CALLS(93, "Multiple kwargs dictionary in arguments", "A call has at most one `**` argument. Reported at the second."),
    30: TARGETS(90, "GrammarUtilError::InvalidLhs", "A target is `a`, `a.b` or `a[b]`, or a tuple or list of targets, which may be empty. It is the left side of an assignment, "
                "or the variable of a `for`. The first part that is not a target is reported, from the left."),
    31: TARGETS(111, "GrammarUtilError::InvalidModifyLhs", "The left side of `+=` and the like is not a tuple or list. Checked before 30. Reported at the left side."),
    32: TARGETS(122, "GrammarUtilError::TypeAnnotationOnAssignOp", "`+=` and the like have no type. Checked after 30. Reported at the type."),
    33: TARGETS(124, "GrammarUtilError::TypeAnnotationOnTupleAssign", "An assignment to a tuple or list has no type. Checked after 30. Reported at the type."),
    40: TYPES(168, "TypeExprUnpackError::InvalidType", "A type is `...`, a path `a` or `a.b`, `a[T]`, `a.b[T, T]`, a tuple of types, `T | T`, or a list of two or more types. "
              "In `a.b[T, T]` each of the two may also be a list. The first part that is none of these is reported."),
    41: TYPES(250, "TypeExprUnpackError::EmptyListInType", "A list that is read as a type is not empty. Reported at the list."),
    42: TYPES(128, "TypeExprUnpackError::DotInType", "In a type, what is before a dot is an identifier or another such path. Reported at what is before the dot."),
    43: TYPES(137, "TypeExprUnpackError::ExpectingPath", "In `a[T, T]` what is before the brackets is a path. Reported there."),
    44: TYPES(115, "TypeExprUnpackError::DotTypeBan", "In edition 1 a path with a dot does not end in `type`. Edition 2 allows it. Reported at the first identifier of the path."),
    45: TARGETS(239, "DialectError::Types", "There are types only where the dialect has `enable_types`. Checked before 40 to 44. Reported at the type."),
    50: MODULE(73, "* keyword-only-arguments is not allowed in this dialect", "A bare `*` needs `enable_keyword_only_arguments`. Reported at the `*`."),
    51: MODULE(83, "/ positional-only-arguments is not allowed in this dialect", "A `/` needs `enable_positional_only_arguments`. Reported at the `/`."),
    52: MODULE(109, "`def` is not allowed in this dialect", "`def` needs `enable_def`. Its parameters and body are still checked. Reported at the def."),
    53: MODULE(116, "`for` cannot be used outside `def` in this dialect", "`for` at top level needs `enable_top_level_stmt`. The statements in its body are then not checked. Reported at the for."),
    54: MODULE(123, "`if` cannot be used outside `def` in this dialect", "`if` at top level needs `enable_top_level_stmt`. The statements in its bodies are then not checked. Reported at the if."),
    55: MODULE(130, "`break` cannot be used outside of a `for` loop", "`break` is in the body of a `for`. A `for` around a `def` does not count: the body of the `def` needs its own loop. Reported at the break."),
    56: MODULE(133, "`continue` cannot be used outside of a `for` loop", "`continue` is in the body of a `for`, as in 55. Reported at the continue."),
    57: MODULE(136, "`return` cannot be used outside of a `def` function", "`return` is in the body of a `def`. Reported at the return."),
    58: MODULE(140, "`load` must only occur at the top of a module", "`load` is at top level: not in a `def`, `for` or `if`. Reported at the load."),
    59: MODULE(143, "`load` is not allowed in this dialect", "`load` needs `enable_load`. Checked after 58, and both are reported. Reported at the load."),
    60: MODULE(156, "`...` is not allowed in this dialect", "`...` needs `enable_types`. Reported at the dots."),
    61: MODULE(161, "`lambda` is not allowed in this dialect", "`lambda` needs `enable_lambda`. Its parameters are still checked. Reported at the lambda."),
    62: TARGETS(185, "Your Starlark dialect must enable f-strings to use them", "An f-string needs `enable_f_strings`. In a script it is an error, at the f-string. "
                "The function `fstring_write` gives it as a notice, and still writes the format text."),
    63: TEXTS("Each brace of a format text begins `{{`, `}}`, `{}` or `{!r}`. The position of the first one that does not is given."),
    64: TEXTS("Parts are pairs of words: 0 and a length, or 1, 2 or 3 and 0. The lengths add up to the number of text bytes."),
    70: FILE("Each block has 512 bytes. The blocks are read in order, and 70 to 73 are checked for each."),
    71: FILE("Block n has the number n. Checked after 72."),
    72: FILE("The sum of a block is that of its bytes, each times its place. Checked after 70. One changed byte in an accepted file always gives 72."),
    73: FILE("A block states the number of bytes that it uses, and all bytes after them are 0. Checked after 71."),
    74: FILE("Block 0 counts 1 to 2,100 nodes and at most 8,064 name bytes. Checked after block 0."),
    75: FILE("The file ends with its last block. Checked after the last block."),
    76: FIGURES("An input of joined table files has at most 4,294,967,295 files. Checked before each file."),
    80: BINDING("A call with `*` or `**` is not bound: its values are known only when it runs. Checked after 10 to 24. Reported at the first such argument."),
    81: BINDING("Positional arguments fill the parameters that may be filled by position, in order; the rest goes to `*args`. Without `*args`, the first that is left over is reported."),
    82: BINDING("A named argument fills the parameter of its name, unless that can be filled only by position; otherwise it goes to `**kwargs`. Without `**kwargs` the argument is reported."),
    83: BINDING("A parameter is filled once. The named argument that fills it again is reported."),
    84: BINDING("After all arguments, each ordinary parameter has an argument or a default. The first that has neither is reported."),
    90: RESCUED("Block 0, with its dialect and edition, and the name blocks must be intact."),
    91: RESCUED("At least one child of the root must be intact, with all records below it."),
    95: BOOKS("A book has 1 to 100 blocks of 512 bytes. An entry has a zone of at most 65,535 (0 only in a line book), a setting from 1 on and nine dialect bytes."),
    96: BOOKS("A book has at most one entry for a zone and a setting."),
    97: BOOKS("A lookup takes the zone's entry with the highest setting that is not above the given one, otherwise the line book's. A removal needs an entry of exactly that zone and setting."),
    98: BOOKS("An addition needs an empty place in the book of the entry."),
}


def of(word):
    """The number that a word names: itself, or its name of docs/numbers.tsv."""
    named = {name: number for number, name in NUMBERS.items()}
    number = int(word) if word.isascii() and word.isdigit() and len(word) < 5 else named.get(word.upper())
    if number not in WORDS:
        raise Failed(f"there is no number {word}: docs/numbers.tsv has all, from {min(WORDS)} to {max(WORDS)}")
    return number


def lines(number):
    example = EXAMPLES[number]
    return [f"{number} {NUMBERS[number]}", f"meaning: {WORDS[number]}", f"rule: {RULES[number].text}", f"from: {RULES[number].source}",
            f"given by: {GIVEN[number]}", f"example: {example.words()}",
            *(f"    {line}" for line in example.text.split("\n"))]


def in_json(number):
    example = EXAMPLES[number]
    return {"number": number, "name": NUMBERS[number], "words": WORDS[number], "rule": RULES[number].text, "source": RULES[number].source._asdict(),
            "given_by": GIVEN[number].split(", "),
            "example": {"kind": FORMS.get(example.how) or ("script" if example.script else "text"), "words": example.words(), "text": example.text}}
