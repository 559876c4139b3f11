"""The module `export`: the samples' scripts, each kind of record, each syntax error with its place, the limits, and that every table is sound.

The 57 trees, 99 refusals and 7 limits are those of the previous exporter, which used Python's own parser. Three of the refusals are now tables,
which the checker judges; three are now limits.
"""
import ast
import glob
import os
import sysconfig
import textwrap
import unittest

import support
from ducatmuffin import export, numbers
from ducatmuffin import table as tables
from ducatmuffin.parser import FIELDS, joined

# a sample whose text is not a tree of its script, so that it can be refused with 3
UNSOUND_SAMPLE = "unsound"

# A script, and its tree in the text form. A node without a quote has the whole script at the root, otherwise its own name, or the quote of
# the expression below it.
TREES = [
    ("pass", "(OtherSimple)"),
    ("x", "(OtherSimple (Identifier x))"),
    ("pass; break\ncontinue\n", "(Statements `pass…continue` (OtherSimple `pass`) (Break `break`) (Continue `continue`))"),
    ("return", "(Return)"),
    ("return (1)", "(Return (Int `1`))"),
    ('load("f.star", "x", y="z")', "(Load)"),
    ('if a:\n  load("f", "x")', '(If (Identifier a) (Load `load("f", "x")`))'),
    ("if a: b\nelif c: d\nelse:\n  e", "(IfElse (Identifier a) (OtherSimple (Identifier b))"
     " (IfElse `elif…  e` (Identifier c) (OtherSimple (Identifier d)) (OtherSimple span=26-27 (Identifier e))))"),
    ("for a, b in c:\n  pass\n  break", "(For (Tuple `a, b` (Identifier a) (Identifier b)) (Identifier c)"
     " (Statements `pass…break` (OtherSimple `pass`) (Break `break`)))"),
    ("(a, [b]) = 1, 2", "(Assign (Tuple `(a, [b])` (Identifier a) (List `[b]` (Identifier b))) (Tuple `1, 2` (Int `1`) (Int `2`)))"),
    ("a.b = c[0]", "(Assign (Dot b `a.b` (Identifier a)) (Index `c[0]` (Identifier c) (Int `0`)))"),
    ("x: list[int] = (0)", "(Assign:1 (Identifier x) (Index `list[int]` (Identifier list) (Identifier int)) (Int `0`))"),
    ("x |= 1", "(AssignModify (Identifier x) (Int `1`))"),
    # parameters
    ("def f(): pass", "(Def (OtherSimple `pass`))"),
    ("def f(a: (x) = (1), /, b: y=2, *, c, d=3, **k: z) -> a | b: pass",
     "(Def:1 (Normal:3 a `a: (x) = (1)` (Identifier x) (Int `1`)) (Slash `/`) (Normal:3 b `b: y=2` (Identifier y) (Int `2`)) (NoArgs `*`)"
     " (Normal c) (Normal:2 d `d=3` (Int `3`)) (KwArgsParam:1 k `**k: z` (Identifier z)) (Op:1 `a | b` (Identifier a) (Identifier b))"
     " (OtherSimple `pass`))"),
    ("def f(*a: x, b, ** k): pass",
     "(Def (ArgsParam:1 a `*a: x` (Identifier x)) (Normal b) (KwArgsParam k `** k`) (OtherSimple `pass`))"),
    ("def f(a='/', # a / here, and ,\n  / , # * there\n  b=',*', * # *\n  , c): pass",
     "(Def (Normal:2 a `a='/'` (String `'/'`)) (Slash span=33-34) (Normal:2 b `b=',*'` (String `',*'`)) (NoArgs span=57-58)"
     " (Normal c span=67-68) (OtherSimple `pass`))"),
    ("x = lambda: 0", "(Assign (Identifier x) (Lambda `lambda: 0` (Int `0`)))"),
    ("x = lambda b, c=(1), /, *, d, **k: e", "(Assign (Identifier x) (Lambda `lambda…e` (Normal b span=11-12) (Normal:2 c `c=(1)` (Int `1`))"
     " (Slash `/`) (NoArgs `*`) (Normal d) (KwArgsParam k `**k`) (Identifier e)))"),
    ("x = lambda *y, z: y", "(Assign (Identifier x) (Lambda `lambda *y, z: y` (ArgsParam y `*y`) (Normal z) (Identifier y)))"),
    # arguments
    ("f(a, (b), c=(1), *(d), **e)", "(OtherSimple (Call `f(…**e)` (Identifier f) (Positional (Identifier a)) (Positional `(b)` (Identifier b))"
     " (Named c `c=(1)` (Int `1`)) (ArgsArg `*(d)` (Identifier d)) (KwArgsArg `**e` (Identifier e))))"),
    ("f(*a, b=1, *c)", "(OtherSimple (Call `f(…c)` (Identifier f) (ArgsArg `*a` (Identifier a)) (Named b `b=1` (Int `1`))"
     " (ArgsArg `*c` (Identifier c))))"),
    ("f((a))", "(OtherSimple (Call `f((a))` (Identifier f) (Positional `(a)` (Identifier a))))"),
    ("(f)(((a)), (b, c))", "(OtherSimple (Call `(f)…c))` (Identifier f) (Positional `((a))` (Identifier a))"
     " (Positional (Tuple `(b, c)` (Identifier b) (Identifier c)))))"),
    ("f(lambda a, b: c, d)",
     "(OtherSimple (Call `f(…)` (Identifier f) (Positional (Lambda span=2-16 (Normal a span=9-10) (Normal b) (Identifier c)))"
     " (Positional (Identifier d))))"),
    # indices
    ("a[b, c]", "(OtherSimple (Index2 `a[b, c]` (Identifier a) (Identifier b) (Identifier c)))"),
    ("a[(b), c]", "(OtherSimple (Index2 `a[(b), c]` (Identifier a) (Identifier b) (Identifier c)))"),
    ("a[(b, c)]", "(OtherSimple (Index `a[(b, c)]` (Identifier a) (Tuple `(b, c)` (Identifier b) (Identifier c))))"),
    ("a[:]", "(OtherSimple (Slice `a[:]` (Identifier a)))"),
    ("a[1:]", "(OtherSimple (Slice `a[1:]` (Identifier a) (Int `1`)))"),
    ("a[1:2:3]", "(OtherSimple (Slice `a[1:2:3]` (Identifier a) (Int `1`) (Int `2`) (Int `3`)))"),
    ("a[::b] = 1", "(Assign (Slice `a[::b]` (Identifier a) (Identifier b)) (Int `1`))"),
    # other expressions
    ("(), [], {}", "(OtherSimple (Tuple `(), [], {}` (Tuple `()`) (List `[]`) (Dict `{}`)))"),
    ("(1,)", "(OtherSimple (Tuple `(1,)` (Int `1`)))"),
    ("{1: a, 'b': 2.5}", "(OtherSimple (Dict `{1…}` (Int `1`) (Identifier a) (String `'b'`) (Float `2.5`)))"),
    ("[a for b, c in d if e if g for h in i]", "(OtherSimple (ListComprehension `[a…i]` (Identifier a span=1-2) (Tuple `b, c` (Identifier b)"
     " (Identifier c)) (Identifier d) (Identifier e) (Identifier g) (Identifier h) (Identifier i span=36-37)))"),
    ("{a: b for c in d}", "(OtherSimple (DictComprehension `{a…d}` (Identifier a) (Identifier b) (Identifier c) (Identifier d)))"),
    ("not a, -1, +1, ~1", "(OtherSimple (Tuple `not…~1` (Not `not a` (Identifier a)) (Minus `-1` (Int `1`)) (Plus `+1` (Int `1`))"
     " (BitNot `~1` (Int `1`))))"),
    ("b and (c) and e", "(OtherSimple (Op `b and (c) and e` (Op `b and (c)` (Identifier b) (Identifier c)) (Identifier e)))"),
    ("a or b", "(OtherSimple (Op `a or b` (Identifier a) (Identifier b)))"),
    ("a not in b", "(OtherSimple (Op `a not in b` (Identifier a) (Identifier b)))"),
    ("(a | b) | c", "(OtherSimple (Op:1 `(a | b) | c` (Op:1 `a | b` (Identifier a) (Identifier b)) (Identifier c)))"),
    ("a ^ b", "(OtherSimple (Op `a ^ b` (Identifier a) (Identifier b)))"),
    ("a if b else c", "(OtherSimple (IfExpr `a if b else c` (Identifier b) (Identifier a span=0-1) (Identifier c)))"),
    ("None, True, False", "(OtherSimple (Tuple `None…False` (Identifier None) (Identifier True) (Identifier False)))"),
    ("x(..., b'a', rb'b', br'b')", "(OtherSimple (Call `x…)` (Identifier x) (Positional (Ellipsis `...`)) (Positional (Bytes `b'a'`))"
     " (Positional (Bytes `rb'b'`)) (Positional (Bytes `br'b'`))))"),
    ("[r'c', 0x1F, 0b1, 0o7, 0, 1e5, .5, 5.]", "(OtherSimple (List `[r…]` (String `r'c'`) (Int `0x1F`) (Int `0b1`) (Int `0o7`) (Int span=23-24)"
     " (Float `1e5`) (Float `.5`) (Float `5.`)))"),
    ("match(type, case)",
     "(OtherSimple (Call `match(type, case)` (Identifier match) (Positional (Identifier type)) (Positional (Identifier case))))"),
    # f-strings
    ("f'é{a} {{b}} {c.d!r}'", "(OtherSimple (FString `f'…r}'` (Identifier a) (Dot d `c.d` (Identifier c))))"),
    ("fr'' + f'{a != b}{\"}\"!s}'", "(OtherSimple (Op `fr…s}'` (FString `fr''`) (FString `f'…s}'` (Op `a != b` (Identifier a) (Identifier b))"
     " (String `\"}\"`))))"),
    ('f"""\n{a[\n"}"]}{ {1: 2} }{f\'{b}\'}"""', '(OtherSimple (FString span=0-35 (Index `a[\n"}"]` (Identifier a) (String `"}"`))'
     " (Dict `{1: 2}` (Int `1`) (Int `2`)) (FString `f'{b}'` (Identifier b))))"),
    # bytes that are not ASCII, ends of lines, blanks
    ("x = 'é', y", "(Assign (Identifier x) (Tuple `'é', y` (String `'é'`) (Identifier y)))"),
    ("# é\r\nif a:\r\n  b\r\n  c",
     "(If `if…  c` (Identifier a) (Statements `b\r\n  c` (OtherSimple (Identifier b)) (OtherSimple (Identifier c))))"),
    ("\ufeff# -*- coding: latin-1 -*-\nx = 'é'", "(Assign `x = 'é'` (Identifier x) (String `'é'`))"),
    ("", "(Statements span=0-0)"),
    ("# nothing\n\n", "(Statements span=0-0)"),
    ("x = \\\n  1\n\t\n'\t\f' # \t\f", "(Statements `x…'\t\f'` (Assign `x…1` (Identifier x) (Int `1`)) (OtherSimple (String `'\t\f'`)))"),
]

# trees of scripts that the exporter before this one did not have, and of a `;` at the end of a block, which belongs to the statement around it
MORE_TREES = [
    ("if a:\n  if b: c;\n  # d", "(If span=0-16 (Identifier a) (If span=8-16 (Identifier b) (OtherSimple (Identifier c))))"),
    ("if a: b;\nelif c: d;", "(IfElse (Identifier a) (OtherSimple (Identifier b)) (If `elif c: d;` (Identifier c) (OtherSimple (Identifier d))))"),
    ("for a in b: c; d;", "(For (Identifier a) (Identifier b) (Statements `c; d` (OtherSimple (Identifier c)) (OtherSimple (Identifier d))))"),
    ("a: t += b", "(AssignModify:1 (Identifier a) (Identifier t) (Identifier b))"),
    ("f(a=1, b)", "(OtherSimple (Call `f(a=1, b)` (Identifier f) (Named a `a=1` (Int `1`)) (Positional (Identifier b))))"),
    ("lambda *, /, **k, n=1: e", "(OtherSimple (Lambda `lambda…: e` (NoArgs `*`) (Slash `/`) (KwArgsParam k `**k`) (Normal:2 n `n=1` (Int `1`))"
     " (Identifier e)))"),
    ("not not a", "(OtherSimple (Not `not not a` (Not `not a` (Identifier a))))"),
    ("- ~ a", "(OtherSimple (Minus `- ~ a` (BitNot `~ a` (Identifier a))))"),
    ("f'{f'{a}'!r}'", "(OtherSimple (FString `f'{f'{a}'!r}'` (FString `f'{a}'` (Identifier a))))"),
    ("b'é'", "(OtherSimple (Bytes `b'é'`))"),
    ("def f(*, a: (t), b=(1)): pass", "(Def (NoArgs `*`) (Normal:1 a `a: (t)` (Identifier t)) (Normal:2 b `b=(1)` (Int `1`)) (OtherSimple `pass`))"),
]

# a script, and where and why it is not Starlark: line:column and the message
REFUSALS = [
    ("while a: pass", "1:1", "`while` is a reserved word"), ("class A: pass", "1:1", "`class` is a reserved word"),
    ("import a", "1:1", "`import` is a reserved word"), ("from a import b", "1:1", "`from` is a reserved word"),
    ("x\ntry: a\nexcept: b", "2:1", "`try` is a reserved word"), ("with a: pass", "1:1", "`with` is a reserved word"),
    ("@a\ndef f(): pass", "1:1", "Starlark has no `@` outside strings and comments"),
    ("async def f(): pass", "1:1", "`async` is a reserved word"), ("async def f():\n  await x", "1:1", "`async` is a reserved word"),
    ("del a", "1:1", "`del` is a reserved word"), ("assert a", "1:1", "`assert` is a reserved word"),
    ("raise a", "1:1", "`raise` is a reserved word"), ("def f():\n  global a", "2:3", "`global` is a reserved word"),
    ("def f():\n  nonlocal a", "2:3", "`nonlocal` is a reserved word"),
    ("match a:\n  case 1: pass", "1:7", "expected end of statement, found `a`"), ("for a in b: pass\nelse: c", "2:1", "unexpected `else`"),
    ("def f():\n  yield 1", "2:3", "`yield` is a reserved word"), ("def f():\n  x = yield from a", "2:7", "`yield` is a reserved word"),
    ("(a := 1)", "1:4", "expected `)`, found `:`: Starlark has no `:=`"),
    ("a < b < c", "1:7", "unexpected `<`: comparisons cannot be chained: use `and` or parentheses"), ("a is b", "1:3", "`is` is a reserved word"),
    ("a is not b", "1:3", "`is` is a reserved word"),
    ("a ** b", "1:3", "expected end of statement, found `**`: `**` is allowed only before parameters and arguments"),
    ("a @ b", "1:3", "Starlark has no `@` outside strings and comments"),
    ("a **= b", "1:3", "expected end of statement, found `**`: `**` is allowed only before parameters and arguments"),
    ("x = {1, 2}", "1:7", "expected `:`, found `,`: Starlark has no sets in braces"),
    ("{a for a in b}", "1:4", "expected `:`, found `for`: Starlark has no sets in braces"),
    ("f(a for a in b)", "1:5", "expected `,` or `)`, found `for`: Starlark has no generators: use a list comprehension"),
    ("(a for a in b)", "1:4", "expected `,` or `)`, found `for`: Starlark has no generators: use a list comprehension"),
    ("[*a]", "1:2", "unexpected `*`: `*` before an expression is allowed only in the arguments of a call"),
    ("a, *b = c", "1:4", "unexpected `*`: `*` before an expression is allowed only in the arguments of a call"),
    ("{**a}", "1:2", "unexpected `**`: `**` is allowed only before parameters and arguments"),
    ("[a async for a in b]", "1:4", "`async` is a reserved word"),
    ("a = b = c", "1:7", "expected end of statement, found `=`: an assignment has one `=`"),
    ("x: int", "1:7", "expected `=`, found end of script: a name with a type needs a value"),
    ("x = 1,", "1:6", "a tuple without parentheses cannot end with a comma"),
    ("for a, in b: pass", "1:6", "a tuple without parentheses cannot end with a comma"),
    ("a[1,]", "1:5", "expected an expression, found `]`: an index is one expression, two, or a slice"),
    ("a[1, 2, 3]", "1:7", "expected `]`, found `,`: an index is one expression, two, or a slice"),
    ("a[1, 2,]", "1:7", "expected `]`, found `,`: an index is one expression, two, or a slice"),
    ("a[1:2, 3]", "1:6", "expected `]`, found `,`: an index is one expression, two, or a slice"),
    ("x = 'a' 'b'", "1:9", "expected end of statement, found `'b'`: strings side by side are not joined: use `+`"),
    ("x = ('a'\n  # b\n  'c')", "3:3", "expected `)`, found `'c'`: strings side by side are not joined: use `+`"),
    ("f'a' f'{b}'", "1:6", "expected end of statement, found `f'`: strings side by side are not joined: use `+`"),
    ("b'a' b'b'", "1:6", "expected end of statement, found `b'b'`: strings side by side are not joined: use `+`"),
    ("R'a'", "1:2", "expected end of statement, found `'a'`: a string can have the prefixes r, b, br, rb, f and fr"),
    ("u'a'", "1:2", "expected end of statement, found `'a'`: a string can have the prefixes r, b, br, rb, f and fr"),
    ("rf'a'", "1:3", "expected end of statement, found `'a'`: a string can have the prefixes r, b, br, rb, f and fr"),
    ("B'a'", "1:2", "expected end of statement, found `'a'`: a string can have the prefixes r, b, br, rb, f and fr"),
    ("1_000", "1:2", "expected end of statement, found `_000`: Starlark has no number of this form"),
    ("00", "1:1", "an integer cannot begin with 0: 00"),
    ("1j", "1:2", "expected end of statement, found `j`: Starlark has no number of this form"),
    ("1_0.5", "1:2", "expected end of statement, found `_0`: Starlark has no number of this form"),
    ("x = é", "1:5", "Starlark has no `é` outside strings and comments"),
    ("def é(): pass", "1:5", "Starlark has no `é` outside strings and comments"),
    ("a.é", "1:3", "Starlark has no `é` outside strings and comments"), ("f(é=1)", "1:3", "Starlark has no `é` outside strings and comments"),
    ("x = load", "1:5", "unexpected `load`: `load` begins a statement, and cannot be a name"),
    ("x = load('a', 'b')", "1:5", "unexpected `load`: `load` begins a statement, and cannot be a name"),
    ("a.load", "1:3", "expected a name, found `load`: `load` begins a statement, and cannot be a name"),
    ("(load)('a', 'b')", "1:2", "unexpected `load`: `load` begins a statement, and cannot be a name"),
    ("def load(): pass", "1:5", "expected a name, found `load`: `load` begins a statement, and cannot be a name"),
    ("load()", "1:6", "expected a string, found `)`: the arguments of `load` are strings"),
    ("load('a')", "1:1", "a load statement needs a file and at least one name"),
    ("load('a', b)", "1:11", "expected a string, found `b`: the arguments of `load` are strings"),
    ("load('a', *b)", "1:11", "expected a string, found `*`: the arguments of `load` are strings"),
    ("load('a', **b)", "1:11", "expected a string, found `**`: the arguments of `load` are strings"),
    ("load(a='b', c='d')", "1:6", "expected a string, found `a`: the arguments of `load` are strings"),
    ("load('a', 'b' 'c')", "1:15", "expected `)`, found `'c'`: strings side by side are not joined: use `+`"),
    ("load('a', f'b')", "1:11", "expected a string, found `f'`: the arguments of `load` are strings"),
    ("f'{a:>3}'", "1:5", "expected `}`, found `:`: " + FIELDS), ("f'{a!a}'", "1:6", FIELDS),
    ("f'{a=}'", "1:5", "expected `}`, found `=`: " + FIELDS), ("f'{a, b}'", "1:5", "expected `}`, found `,`: " + FIELDS),
    ("f'{a:{b}}'", "1:5", "expected `}`, found `:`: " + FIELDS), ("f'{a ** b}'", "1:6", "expected `}`, found `**`: " + FIELDS),
    ("f'\\N{EM DASH}'", "1:9", "expected `}`, found `DASH`: " + FIELDS),
    ("f'\\{a}'", "1:6", "a `}` that closes no field of the f-string: `}}` is the character"),
    ("x\nif a:\n\tb", "3:1", "a tab is not allowed in indentation"), ("a =\t1", "1:4", "a tab is not allowed outside strings and comments"),
    ("a\t", "1:2", "a tab is not allowed outside strings and comments"), ("a\n\f\nb", "2:1", "Starlark has no such character: U+000C"),
    ("a = 1 # b\rc", "1:10", "a carriage return without a newline after it"),
    ("x = 'é'; y = 1_0", "1:15", "expected end of statement, found `_0`: Starlark has no number of this form"),
    ("a\0", "1:2", "Starlark has no such character: U+0000"), (b"# \xc3\xa9\nb = '\xff'", "2:6", "not UTF-8"), (b'\xff\xfea', "1:1", "not UTF-8"),
    ("\ufeffwhile a: pass", "1:1", "`while` is a reserved word"), ("x = = 1", "1:5", "unexpected `=`"),
    ("if a:\nb", "2:1", "expected an indented block, found `b`"), ("a\n  b", "2:1", "unexpected indentation"),
    ("'a", "1:1", "a string that is not closed"), ("print 'a'", "1:7", "expected end of statement, found `'a'`"),
]
# scripts that Python's parser refused, and the number that the checker now gives
JUDGED = [("def f(a=1, b): pass", 13), ("f(a=1, 2)", 20), ("f() = 1", 30)]
# scripts that are larger than a table may be, or than the parser follows
TOO_LARGE = [
    ("x = " + "n" * 256, "1:5", "a name of 256 bytes, and a table has names of 255 at most"),
    ("x = " + "(" * 300 + ")" * 300, "1:105", "nested too deeply: this parser follows 200 levels of expressions and blocks in each other"),
    ("x = " + "-" * 9000 + "1", "1:2103", "a table has at most 2100, and this has 9003 nodes"),
]


def lists(depth):
    """A script of a statement and the given number of nested lists."""
    return "[" * depth + "]" * depth


def calls(depth):
    return "f(" * depth + "a" + ")" * depth


# the largest number of nested calls: a statement, and a call and its argument for each, and the innermost expression
MOST_CALLS = (numbers.DEPTH - 2) // (1 + tables.weight(numbers.KIND["Positional"]))
LETTERS = [f"n{number:02}".ljust(126, "_") for number in range(64)]
# the largest script within a limit, the smallest beyond it, where that is refused, and the message
LIMITS = [
    ("pass\n" * 2099, "pass\n" * 2100, "2100:1", "at most 2100, and this has 2101 nodes"),
    ("\n".join(LETTERS), "\n".join(LETTERS + ["a"]), "65:1", "at most 8064, and this has 8065 bytes of names"),
    ("\n".join(LETTERS * 5), "\n".join(LETTERS * 5 + ["a"]), "321:1", "at most 8064, and this has 8065 bytes of names"),
    (lists(63), lists(64), "1:64", "at most 64, and this has 65 nested levels"),
    (calls(MOST_CALLS), calls(MOST_CALLS + 1), "1", "at most 64, and this has 6"),
    ("x = " + "-" * 62 + "1", "x = " + "-" * 63 + "1", "1:68", "at most 64, and this has 65 nested levels"),
    ("n" * 255, "n" * 256, "1:1", "a name of 256 bytes"),
]


def answered(source):
    """The result for a script: its table and names, or the error."""
    try:
        return export.export(source.encode() if isinstance(source, str) else source, "s.star", None), None
    except export.ScriptError as error:
        return None, error


def quote_all(node):
    """Gives each node that quotes nothing its name as its quote, or its only child's quote."""
    for child in node.children:
        quote_all(child)
    if node.quote is None and "span" not in node.fields:
        node.quote = node.name or (node.children[0].quote if node.children else None)
        if node.children and not node.quote:
            node.fields["span"] = node.children[0].fields["span"]


def tree_in_words(source, words):
    """The table of a tree in words, and its names."""
    source = source.encode()
    root, = tables.trees(words)
    if root.quote is None:
        root.fields.setdefault("span", (0, len(source)))
    quote_all(root)
    tables.place(root, source)
    return tables.table_of([root], shared=True)


def tree(self, source, words):
    self.assertEqual(answered(source), (tree_in_words(source, words), None))


def refusal(self, source, place, message, kind=export.ScriptSyntaxError):
    made, error = answered(source)
    self.assertIsNone(made)
    self.assertIs(type(error), kind)
    self.assertEqual((f"{error.line}:{error.column}", error.message.removeprefix("syntax: ")), (place, message))
    self.assertLessEqual(error.begin, error.end)


def too_large(self, source, place, message):
    refusal(self, source, place, message, export.ScriptTooLarge)


def limit(self, within, beyond, place, words):
    self.assertIsNone(answered(within)[1])
    error = answered(beyond)[1]
    self.assertIs(type(error), export.ScriptTooLarge)
    self.assertIn(place, (f"{error.line}:{error.column}", f"{error.line}"))
    self.assertIn(words, error.message)


@support.each(tree, TREES + MORE_TREES, "tree")
class Trees(unittest.TestCase):
    """A script gives its tree."""


@support.each(refusal, REFUSALS, "refusal")
class Refusals(unittest.TestCase):
    """A script that is not Starlark has one error, at its place."""

    def test_none_is_left_out(self):
        self.assertEqual((len(TREES), len(REFUSALS) + len(JUDGED) + len(TOO_LARGE), len(LIMITS)), (57, 99, 7))


@support.each(too_large, TOO_LARGE, "too_large")
class TooLarge(unittest.TestCase):
    """A script without a table that may be Starlark."""


@support.each(limit, LIMITS, "limit")
class Limits(unittest.TestCase):
    """The largest script within a limit has a table, the smallest beyond it has none."""


class Judged(unittest.TestCase):
    """What the checker now sees."""

    def test_numbers(self):
        for source, number in JUDGED:
            self.assertEqual([error.number for error in support.library().audit(*answered(source)[0], b"", 1).errors], [number], source)


class Samples(unittest.TestCase):
    """Each sample's script gives the table of its text, byte by byte."""

    def test_samples(self):
        given = 0
        for name in support.samples(".txt"):
            text = tables.decoded(support.sample(f"{name}.txt"))
            named = [line.partition(":")[2].strip() for line in text.split("\n") if line.startswith("script:")]
            if not named:
                self.joined(name, text)
                continue
            source = support.sample(named[0])
            expected = tables.parse_text(f"names: shared\n{text}", support.sample)[:2]
            with self.subTest(name):
                if name == UNSOUND_SAMPLE:
                    self.assertNotEqual(answered(source), (expected, None))
                else:
                    self.assertEqual(answered(source), (expected, None))
                    given += 1
        self.assertGreaterEqual(given, 14)

    def joined(self, name, text):
        """A sample of two scripts, X.1.star and X.2.star."""
        sources = [support.sample(f"{name}.{file}.star") for file in (1, 2)]
        self.assertEqual(export.joined_export(sources)[:2], tables.parse_text(text)[:2])


class Joined(unittest.TestCase):
    """Scripts as one table."""

    def told(self, sources, first=1):
        """The source file number, the kind and the span of each record, and the targets."""
        made = export.joined_export([source.encode() for source in sources], first)
        self.assertTrue(support.library().table(*made[:2]).accepted)
        return [(record.file, tables.kind_name(record.kind), record.begin, record.end) for record in tables.decode(made.table)], made.targets

    def test_the_statements_in_turn(self):
        """Positions are each in its own script; the root goes from 0 to the largest end; no Statements is below it."""
        self.assertEqual(self.told(["pass; break\n", "\n  # nothing\n", "  \nreturn\n"]), ([
            (0, "Statements", 0, 11), (1, "OtherSimple", 0, 4), (1, "Break", 6, 11), (3, "Return", 3, 9)], []))
        self.assertEqual(self.told(["pass", "if x: pass; break\n"])[0][0], (0, "Statements", 0, 17))

    def test_empty_scripts(self):
        self.assertEqual(self.told(["", ""]), ([(0, "Statements", 0, 0)], []))
        self.assertEqual(self.told([""], 7), ([(0, "Statements", 0, 0)], []))
        self.assertEqual(self.told(["", "pass"]), ([(0, "Statements", 0, 4), (2, "OtherSimple", 0, 4)], []))

    def test_one_script_gives_the_table_that_it_gave(self):
        for source in ("pass", "\npass\nbreak", "", "def f(a): return [b for b in a]\nx.y = 1"):
            plain = export.export(source.encode())
            for first in (1, 2, 999):
                made = export.joined_export([source.encode()], first)
                numbered = [record._replace(file=first if record.file else 0) for record in tables.decode(plain[0])]
                self.assertEqual((tables.decode(made.table), made.names), (numbered, plain[1]))

    def test_numbers(self):
        files = [file for file, *_ in self.told(["pass"] * 3, 997)[0]]
        self.assertEqual(files, [0, 997, 998, 999])

    def test_names_are_shared(self):
        self.assertEqual(export.joined_export([b"ab", b"ab; c"]).names, b"abc")

    def test_targets_of_comprehensions(self):
        self.assertEqual(self.told(["[a for a in b]", "{c: 1 for c in [d for d in e]}"])[1], [4, 10, 13])

    def test_what_has_no_table(self):
        for sources, at, place, kind in (
                (["pass", "x = ("], 1, (1, 6), export.ScriptSyntaxError), (["(", ")"], 0, (1, 2), export.ScriptSyntaxError),
                (["pass", b"\xff", ""], 1, (1, 1), export.ScriptSyntaxError), (["pass\n" * 2098, "", "pass\n", "pass"], 3, (1, 1), export.ScriptTooLarge),
                (["pass\n" * 2098, "pass\npass"], 1, (2, 1), export.ScriptTooLarge), (["\n".join(LETTERS), "pass", "pass\na"], 2, (2, 1), export.ScriptTooLarge),
                ([lists(62), lists(63)], 1, (1, 63), export.ScriptTooLarge), (["a", "n" * 256], 1, (1, 1), export.ScriptTooLarge)):
            with self.assertRaises(kind) as caught:
                export.joined_export([source.encode() if isinstance(source, str) else source for source in sources])
            error = caught.exception
            self.assertEqual((error.at, (error.line, error.column)), (at, place), sources[at][-20:])

    def test_the_largest(self):
        self.assertEqual(len(export.joined_export([b"pass\n" * 2000, b"pass\n" * 99]).table), 2100 * 24)


class Parts(unittest.TestCase):
    def test_a_table_of_each_statement(self):
        source = b"x = 1\ndef f(a, b=x):\n    return a\nx\n"
        parts = export.export_parts(source, "s.star", None)
        self.assertEqual([tables.kind_name(tables.decode(table)[0].kind) for table, _ in parts], ["Assign", "Def", "OtherSimple"])
        for table, _ in export.export_parts(source, "s.star", None, 999):
            self.assertEqual({record.file for record in tables.decode(table)}, {999})

    def test_a_large_script(self):
        self.assertEqual(len(export.export_parts(b"pass\n" * 2100, "s.star", None)), 2100)

    def test_a_part_beyond_a_limit(self):
        with self.assertRaises(export.ScriptError) as caught:
            export.export_parts(b"x\n" + lists(64).encode(), "s.star", None)
        self.assertEqual((caught.exception.line, caught.exception.column), (2, 64))

    def test_any_bytes(self):
        self.assertEqual(export.export(bytearray(b"pass"), "s.star", None), export.export(b"pass", "s.star", None))


# ---- soundness


def library_functions(files):
    """The functions of Python's own library that are Starlark too, as scripts."""
    for path in files:
        with open(path, "rb") as file:
            source = file.read().decode(errors="replace")
        lines = source.splitlines(keepends=True)
        for node in ast.walk(ast.parse(source)):
            if isinstance(node, ast.FunctionDef):
                function = textwrap.dedent("".join(lines[node.lineno - 1:node.end_lineno]))
                if answered(function)[0]:
                    yield function if function.endswith("\n") else function + "\n"


def packed(functions):
    """Scripts one after the other, as many as a table has room for."""
    together, nodes, names = "", 1, 0
    for function in functions:
        table, of_names = answered(function)[0]
        if nodes + len(table) // 24 > numbers.NODES or names + len(of_names) > numbers.NAME_BYTES:
            yield together
            together, nodes, names = "", 1, 0
        together, nodes, names = together + function, nodes + len(table) // 24, names + len(of_names)
    yield together


def text_is_right(node, text):
    """Whether the text of a record is right, as far as its kind shows."""
    expected = {
        "Identifier": text == node.name, "Normal": text.startswith(node.name), "Named": text.startswith(node.name), "Dot": text.endswith(node.name),
        "NoArgs": text == b"*", "Slash": text == b"/", "ArgsParam": text[:1] == b"*", "KwArgsParam": text[:2] == b"**",
        "ArgsArg": text[:1] == b"*", "KwArgsArg": text[:2] == b"**", "Def": text[:4] == b"def ", "Break": text == b"break",
        "Continue": text == b"continue", "Return": text[:6] == b"return", "List": text[:1] + text[-1:] == b"[]",
        "Dict": text[:1] + text[-1:] == b"{}", "Call": text[-1:] == b")", "Index": text[-1:] == b"]", "Index2": text[-1:] == b"]",
        "Slice": text[-1:] == b"]", "Lambda": text[:6] == b"lambda"}
    return expected.get(tables.kind_name(node.kind), True)


class Sound(unittest.TestCase):
    """Every table that is made is sound, functions of Python's own library among them, and its spans are right."""

    def sound(self, source):
        source = source.encode()
        self.assertTrue(support.library().table(*export.export(source, "s.star", None)).accepted, source[:80])
        for node in export.preorder(joined(export.statements_of(source)))[0]:
            self.assertTrue(text_is_right(node, source[node.begin:node.end]), (tables.kind_name(node.kind), source[node.begin:node.end]))
            at = node.begin
            for child in node.children:
                self.assertTrue(node.begin <= child.begin <= child.end <= node.end, source[node.begin:node.end])
                if tables.kind_name(node.kind) != "IfExpr":  # its condition comes first
                    self.assertLessEqual(at, child.begin, source[node.begin:node.end])
                    at = child.end

    def test_trees_and_limits(self):
        for source in [source for source, _ in TREES + MORE_TREES] + [source for source, *_ in LIMITS]:
            self.sound(source)

    def test_functions_of_python(self):
        folder = sysconfig.get_paths()["stdlib"]
        functions = list(library_functions(sorted(glob.glob(os.path.join(folder, "[a-f]*.py")))[:16]))
        self.assertGreaterEqual(len(functions), 20)
        for source in packed(functions):
            self.sound(source)


if __name__ == "__main__":
    unittest.main()
