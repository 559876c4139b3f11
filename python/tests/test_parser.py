"""The lexer and the parser: what is Starlark and what is not, deep nesting, and scripts with bytes changed.

DUCAT_ROUNDS is the number of changed scripts, 20000 without it.
"""
import gc
import os
import random
import sys
import unittest

import support
from ducatmuffin import export, lexer, parser
from test_export import TREES

ROUNDS = int(os.environ.get("DUCAT_ROUNDS", "20000"))

# scripts that are Starlark, even if the checker rejects their lists and targets
ACCEPTED = [
    "def f():\n  def g():\n    return 1\n  return g\n", "[x for x in y if (lambda a: a)]\n", "[x for x in y for z in w if a if b]\n",
    "{k: v for k, v in z if k}\n", "x = f'a'\n", "x = f\"{a}{b!r}{c!s}\"\n", "x = f'{{}}'\n", "x = f\"{d['a']}\"\n",
    "x = f\"{d[\"a\"]}\"\n", "x = f\"{ {1: 2}[1] }\"\n", "x = f\"\"\"{\na}\"\"\"\n", "x = f\"{\na}\"\n", "x = f\"{a != b}\"\n",
    "x = f\"{f\"{a}\"}\"\n", "x = fr\"{a}\\d\"\n", "x = f\"{lambda: 1}\"\n", "x = f\"{(lambda: 1)}\"\n", "x = f\"{a if b else c}\"\n",
    "x[1,2]\n", "a.b.c: int = 3\n", "return a, b\n", "for a, b in c, d: pass\n", "for (a, b) in c: pass\n", "for [a, b] in c: pass\n",
    "for a.b in c: pass\n", "for a[0] in c: pass\n", "f(a, b,)\n", "f(*a, **k)\n", "f(*a, *b)\n", "[a, b,]\n", "(a,)\n", "()\n", "[]\n",
    "{}\n", "{a: b,}\n", "def f(a, b,): pass\n", "def f(*,): pass\n", "lambda: 1\n", "lambda *a, **k: 1\n", "lambda a, /, b: 1\n",
    "x = 1 + \\\n  2\n", "x = 1 + \\\r\n  2\n", "x = 1 \\\n", "x = (1 +\n  2)\n", "x = 'a\\n\\x41\\u1234\\U00012345\\101'\n",
    "x = r'\\d'\n", "x = b'a'\n", "x = br'a'\n", "x = rb'a'\n", "x = '''a\nb'''\n", "x = \"\"\"a\n\"b\"\n\"\"\"\n", "x = 'é€𝄞'\n",
    "# é\nx = 1\n", "x = 1\r\ndef f():\r\n  pass\r\n", "\t# c\nx = 1\n", "x = 1\n\t\ny = 2\n", "", "# c", "# c\n", "\n\n", "   \n", "x = 1",
    "if a:\n  b\nelif c:\n  d\nelif e:\n  f\nelse:\n  g\n", "if a: b\nelse: c\n", "load('a', 'b', c='d')\n", "load('a', 'b',)\n",
    "def f():\n  load('a', 'b')\n", "a; b; c\n", "a; b;\n", "pass\n", "None = 1\n", "True\n", "print(1)\n", "exec = 1\n", "match = 1\n",
    "type = 1\n", "case = 2\n", "_ = 1\n", "nonloca = 1\n", "x = 0x1F + 0o17 + 0b11 + 1. + .5 + 1e5 + 1.5e-3 + 0\n", "x = 1if a else 2\n",
    "x = 00.5\n", "a[b][c].d(e)(f)\n", "a[1:2:3]\n", "a[::]\n", "a[1:]\n", "a[:1]\n", "a[(1, 2)]\n", "-a + ~b * +c\n", "not not a\n",
    "a or b and not c\n", "a if b else c if d else e\n", "x = lambda a: lambda b: a\n", "(lambda: 1)()\n",
    "f(lambda x: x, key=lambda y: y)\n", "a not in b\n", "a | b ^ c & d << e + f * g\n", "...\n",
    "def f(a: int | None = None, *args: str, b: list[int], **kw: dict[str, int]) -> (int, str): pass\n", "x: list[int] = []\n",
    "[a for a, b in c]\n", "[a for (a, b) in c]\n", "def f(\n  a,\n  b,\n):\n  pass\n", "def f():\n  # c\n  pass\n# d\n  # e\nx = 1\n",
    "def f():\n    pass\n\n\n\n    x = 1\n", "if a:\n  pass\n  # c", "def f(): return\n",
    "x += 1; y -= 2; z *= 3; a /= 4; b //= 5; c %= 6; d &= 7; e |= 8; g ^= 9; h <<= 1; i >>= 2\n", "\ufeffx = 1\n",
]
# scripts that are not
REJECTED = [
    "x[]\n", "x[1,2:3]\n", "x[1,2,3]\n", "x[1,]\n", "x[1:2,3]\n", "x: int\n", "x = 1,\n", "return 1,\n", "1,\n", "for x, in y: pass\n",
    "f(1=2)\n", "f(a.b=1)\n", "f((a)=1)\n", "f(x for x in y)\n", "(x for x in y)\n", "{1, 2}\n", "{**a}\n", "[*a]\n", "*a, b = c\n",
    "a = *b\n", "f(a b)\n", "def f(a b): pass\n", "def f(,): pass\n", "f(,)\n", "f(a,,b)\n", "[,]\n", "(,)\n", "def f(a=): pass\n",
    "def f(*a=1): pass\n", "load = 1\n", "x = load('a', 'b')\n", "native.load('a')\n", "load(x)\n", "load('a', b)\n", "load('a', b=c)\n",
    "load()\n", "load('a')\n", "load('a')('b')\n", "f(load=1)\n", "def load(): pass\n", "class = 1\n", "f(class=1)\n", "x.import\n",
    "as = 1\n", "is = 1\n", "a is b\n", "await = 1\n", "async = 2\n", "with = 1\n", "yield = 1\n", "raise = 1\n", "try = 1\n", "assert x\n",
    "assert = 1\n", "del x\n", "del = 1\n", "global = 1\n", "nonlocal = 1\n", "from = 1\n", "except = 1\n", "finally = 1\n", "while = 1\n",
    "import = 1\n", "x = 1_000\n", "x = 1j\n", "x = 017\n", "x = 00\n", "x = 0x_f\n", "x = 10l\n", "x = R'a'\n", "x = u'a'\n",
    "x = rf'a'\n", "x = F'a'\n", "x = B'a'\n", "x = Rb'a'\n", "x = bR'a'\n", "x = '\\x4'\n", "x = '\\u12'\n", "x = '\\ud800'\n",
    "x = '\\U00110000'\n", "x = b'\\777'\n", "x = f'\\{a}'\n", "x = fr'\\{a}'\n", "x = f'{a!x}'\n", "x = f'{a=}'\n", "x = f'{a:>10}'\n",
    "x = f'{}'\n", "x = f'}'\n", "x = f'{a'\n", "x = f'{a, b}'\n", "é = 1\n", "x = ü\n", "x\u00a0= 1\n", "x = 1\f\n", "\fx = 1\n",
    "x = 1\t\n", "x =\t1\n", "x = 1\t# c\n", "if a:\n\tb\n", "f(\n\ta)\n", "f(\n\t\n)\n", "f(a,\n\t# c\nb)\n", "x = 1\rY = 2\n", "x = 1\r",
    "x = 'a\nb'\n", "x = 'a\n", "x = '''a\n", "  x = 1\n", "if a:\n    b\n  c\n", "if a:\n  b\n    c\n", "if a:\nb\n", "def f():\n",
    "def f(): def g(): pass\n", "x = (1\n", "x = 1)\n", "x = @\n", "x = $\n", "x = a ? b\n", "x = a ** b\n", "x **= 2\n", "x @= 2\n",
    "a <> b\n", "x := 1\n", "f(x := 1)\n", "`a`\n", "a = b = c\n", "a = b += c\n", "@d\ndef f(): pass\n", "for x in y: pass\nelse: pass\n",
    "print 1\n", "exec 'a'\n", "a == b == c\n", "a in b in c\n", "a < b in c\n", "not = 1\n", "x.1\n", "x..y\n", "x = 1 if y\n", "lambda\n",
    "def (): pass\n", "def f: pass\n", "def f() -> : pass\n", "f(**)\n", "f(*)\n", "return = 1\n", "else: pass\n", "elif a: pass\n",
    "x = yield 1\n", "del x\n", "x = a.b = c\n", "# x\n  y\n", "x\0 = 1\n", "a; ; b\n", "; a\n", "x = (yield)\n", "x = lambda *: 1 2\n",
    "[x for x in y, z]\n", "[x for x in lambda: 1]\n", "[for x in y]\n", "[x if y]\n", "{a: b for c}\n", "{a for b in c}\n", "[x for 1]\n",
    "def f(a, *b.c): pass\n", "def f(a.b): pass\n", "x = 0xg\n", "x = 1a\n", "x = 0b2\n", "x = 0o8\n", "x = 1e\n", "'a' f'b'\n",
    "x = '\\\r'\n",
]

# the same for points of lexer.rs and of the grammar that the lists above do not have
ACCEPTED_TOO = [
    # strings
    "x = '\\\r\n'\n", "x = 'a\rb'\n", "x = \"\"\"\"a\"\"\"\n", "x = \"\"\"a\\\"\"\"\"\n", "x = ''\n", "x = \"\" + ''\n", "x = r'\\''\n",
    "x = r'\\\n'\n",
    "x = '\\é'\n", "x = '\\777'\n", "x = '\\8'\n", "x = b'\\377'\n", "x = b'é'\n", "x = br'\\400'\n", "x = '\\U0010ffff\\ud7ff\\ue000'\n",
    "x = '''\r\n\\\r\n'''\n", "x = 'a#b'\n", "x = '\t\f'\n",
    # f-strings
    "x = f''\n", "x = fr'\\''\n", "x = fr'\\\n'\n", "x = f'''a''b'''\n", "x = f'{a! r }'\n", "x = f'{ a }'\n", "x = f'{a!r}{{{b}}}'\n",
    "x = f'{a[b!=c]}'\n", "x = f'{(a, b)}'\n", "x = f'{[a for a in b]}{ {a: b} }'\n", "x = f'{f'{f'{a}'}'}'\n", "x = f'''{a # c\n}'''\n",
    "x = f'{a\n}'\n", "x = f'{b\"c\"}'\n", "x = f'\\x41\\n{a}'\n", "x = f'a\rb'\n", "f(f'{a}', b)\n", "x = f'{a}' + '}'\n",
    # numbers
    "x = 1.e5 + 1.E+5 + 0. + 0e0 + 0XfF + 0B1 + 0O7\n", "x = 1 .a\n", "x = 1.5.a\n", "x = 1or 2\n", "x = [1,2,.5]\n",
    # lines
    "# a\rb\nx = 1\n", "\r\n\rx = 1\n", "x = 1 # c\r\ny = 2\r\n", "if a: # c\n  b\n", "if a:\n\n  # c\n\n  b\n\n # c\nd\n",
    "x = (\n# c\n1 # d\n)\n",
    "\\\nx = 1\n", "x = 1\\\n\n", "if a:\n  b\n  \t \n  c\n", "if a: b; c\n", "if a: b;\n", "def f():\n if a:\n  b\n\n\n\nc\n",
    "x = [\n  1,\n\n  2,\n]\n",
    "x\n   # c\n\n", "if a:\n  b # c",
    # operators
    "not a == b\n", "a and not b or not not c\n", "a < -b\n", "a == (not b)\n", "- - a\n", "a if not b else c\n", "a not in b and c in d\n",
    "a |b| c\n",
    "a<b\n", "a-1\n", "(a < b) < c\n", "a < b and b < c\n", "(a in b) == c\n", "a // b % c\n", "~a.b(c)[d]\n",
    # lambda and conditional expressions
    "lambda x=a if b else c: x\n", "a if b else lambda: c\n", "[a if b else c for d in e]\n", "[a for a in b if (c if d else e)]\n",
    "[(lambda: a) for a in b]\n", "[lambda: a for a in b]\n", "for x in a if b else c: pass\n", "lambda x, y=1, *, z, **k: 0\n", "lambda *: 0\n",
    "lambda /, a: 0\n", "lambda a, a: 0\n", "{lambda: a: b}\n",
    # lists in any order, targets of any form
    "def f(/): pass\n", "def f(*, *, /, /, **a, **b, *c, d): pass\n", "def f(a=1, b): pass\n", "def f(**a: int, *b: int, c: int): pass\n",
    "f(a=1, 2, *b, **c, d=1, *e, **g)\n", "f(**a, **b, 1)\n", "f() = 1\n", "1 = 2\n", "a + b = c\n", "a, b += 1\n", "[a] += 1\n", "a, b: int = c\n",
    "a: int += 1\n", "lambda: a = b\n", "'a' = 1\n", "() = a\n", "a[1:2] = b\n", "a[1, 2] = b\n", "for f() in a: pass\n", "for 1, 'a' in b: pass\n",
    "[a for 1 in b]\n", "[a for f(b), c[0] in d]\n", "not a = b\n", "((a), b), [c] = e\n",
    # load
    "load('a', b='c', 'd')\n", "load(\n  'a',\n  'b',\n)\n", "load('a', None='b')\n", "load(r'a', \"\"\"b\"\"\")\n", "if a: load('b', 'c')\n",
]
REJECTED_TOO = [
    # strings
    "x = '\\U0000d800'\n", "x = '\\Uffffffff'\n", "x = '\\u{41}'\n", "x = r'\\\r\n'\n", "x = '\\", "x = '\\\ra'\n", "x = \"\"\"a\"\"\"\"\n",
    "x = 'a\\'\n",
    "x = r'a\\'\n", "x = br'a\n'\n", "x = b'\\400'\n", "x = b'\\x4'\n", "x = rbr'a'\n", "x = bf'a'\n",
    # f-strings
    "x = f'\n'\n", "x = f'''{a}''\n", "x = f'{a !r}'\n", "x = f'{a\\\n!r}'\n", "x = f'{a!}'\n", "x = f'{a!r!s}'\n", "x = f'{a!=}'\n",
    "x = f'{!r}'\n",
    "x = f'{a b}'\n", "x = f'{a)}'\n", "x = f'{(a}'\n", "x = f'{a]}'\n", "x = f'{a'", "x = f'{a\tb}'\n", "x = f'{yield}'\n", "x = f'\\x4{a}'\n",
    "x = f'{a}}'\n", "x = f'{# c}'\n", "x = f'{*a}'\n", "x = f'{a:=1}'\n", "x = f'a' 'b'\n",
    # numbers
    "x = 1.5.5\n", "x = 0777\n", "x = 1.a\n", "x = 0x\n", "x = 0b\n", "x = .\n", "x = ..\n", "x = 1__0\n", "x = 09\n",
    # lines
    "x = 1 # a\rb\n", "x \r= 1\n", "x = 1 \\ \n", "x = \\1\n", "if a:\n \tb\n", "if a:\n  b\n c\n", "if a:\n  b\n\tc\n", "x = (\n\t1)\n",
    " # c\n  x = 1\n",
    "if a:\n  # c\nb\n", "if a:\n", "if a: if b: c\n",
    # operators
    "a == not b\n", "a + not b\n", "- not a\n", "a not b\n", "a not not in b\n", "a in not b\n", "a < b > c\n", "a not in b in c\n",
    "a &&b\n", "a || b\n",
    "!a\n", "a++\n", "a <=> b\n", "a === b\n", "a -> b\n", "a ... b\n", "...a\n",
    # lambda, conditional expressions, comprehensions
    "[a for a in b if c else d]\n", "[a for a in b if lambda: c]\n", "[a for lambda: b in c]\n", "[a for a, in b]\n", "[a, b for c in d]\n",
    "[a for a if b]\n", "{a: b, c: d for e in f}\n", "{a: b for c in d, e}\n", "lambda x: int: x\n", "lambda (x): x\n", "lambda x y: 0\n",
    "lambda **: 0\n",
    "lambda\n: 0\n", "a if b else\n", "a if else b\n",
    # parameters and arguments
    "def f(a, /b): pass\n", "def f(*1): pass\n", "def f(**): pass\n", "def f(*, **): pass\n", "def f(*: int): pass\n", "def f(/: int): pass\n",
    "def f(/ = 1): pass\n", "def f((a)): pass\n", "def f(a,,b): pass\n", "def f(**a=1): pass\n", "def f('a'): pass\n", "def f(a) int: pass\n",
    "def f[T](a): pass\n", "def f(a):\n", "def f(a)\n  pass\n", "def f.g(): pass\n", "f(*a=1)\n", "f(a=)\n", "f(=1)\n", "f('a'=1)\n", "f(a[0]=1)\n",
    "f(a: 1)\n", "f(* *a)\n", "f(a, b for b in c)\n", "f(a := 1)\n", "f(a;)\n", "f(a\n", "f(a]\n", "f(***a)\n",
    # statements
    "a =\n", "= 1\n", "a += b += c\n", "a = b: int\n", "a: int: int = 1\n", "a: int, b: int = c\n", "(a: int) = 1\n", "a, = b\n", "a, b, = c\n",
    "a: int,  = 1\n", "for a: int in b: pass\n", "for a in b, : pass\n", "for in a: pass\n", "for a b in c: pass\n", "for a in: pass\n",
    "for a < b in c: pass\n", "while True: pass\n", "if: pass\n", "if a,: pass\n", "if a = 1: pass\n", "else: a\n", "if a: b\nelse if c: d\n",
    "if a: b\nelse: c\nelse: d\n", "if a: b\nelse: c\nelif d: e\n", "return return\n", "pass pass\n", "break 1\n", "pass = 1\n", "def = 1\n",
    # load
    "load('a' 'b')\n", "load('a', 'b'\n", "load('a',, 'b')\n", "load(,)\n", "load('a', b'c')\n", "load('a', ('b'))\n", "load('a', b=c)\n",
    "load 'a'\n",
    "load\n", "load['a']\n", "load('a', 'b').c\n", "load('a', 'b') = 1\n",
    # indices, fields, brackets
    "a[\n", "a[b c]\n", "a[1:2:3:4]\n", "a[:,]\n", "a[,1]\n", "a[*b]\n", "a.\n", "a.'b'\n", "a.(b)\n", "a.def\n", "{a: b: c}\n", "{a:}\n", "{:a}\n",
    "{a, b: c}\n", "{,}\n", "[a;b]\n", "(a b)\n", "(,a)\n", "[a,,b]\n", "(a,,)\n",
    # characters
    "\u2028x\n", "x\u3000= 1\n", "x = \u201ca\u201d\n", "\u00b5 = 1\n", "x = 1\u00bd\n", "x = \x7f\n", "x = \x1b\n", "x = 1\x0b\n", "?\n",
    "$\n", "`\n",
    "a ! b\n",
]


def read(source):
    """The error of a script, if it is not Starlark."""
    try:
        parser.parse(source.encode())
    except lexer.NotStarlark as error:
        return error
    return None


def accepted(self, source):
    error = read(source)
    self.assertIsNone(error, error and (source, error.begin, error.message))


def rejected(self, source):
    error = read(source)
    self.assertIsNotNone(error, source)
    self.assertTrue(0 <= error.begin <= error.end <= len(source.encode()) and error.message.isprintable(), (source, error.begin, error.end))


@support.each(accepted, [(source,) for source in ACCEPTED + ACCEPTED_TOO], "accepted")
@support.each(rejected, [(source,) for source in REJECTED + REJECTED_TOO], "rejected")
class Cases(unittest.TestCase):
    def test_number(self):
        self.assertEqual(len(ACCEPTED) + len(REJECTED), 281)


# ---- nesting

MANY, MORE, BLOCKS = 9000, 90000, 600
DEEP = {
    "parentheses": "x = " + "(" * MANY + "1" + ")" * MANY, "lists": "[" * MANY + "]" * MANY, "opened": "[" * MANY, "dicts": "{1: " * MANY,
    "calls": "f(" * MANY + ")" * MANY, "indices": "a[" * MANY + "1" + "]" * MANY, "fields": "a" + ".b" * MORE, "called": "f" + "()" * MORE,
    "indexed": "f" + "[0]" * MORE, "minus": "-" * MORE + "1", "not": "not " * MORE + "a", "plus": "a" + " + a" * MORE, "or": "a" + " or a" * MORE,
    "operators": "a or b and not c == d | e ^ f & g << h + i * (" * MANY, "lambdas": "lambda: " * MANY + "1", "defaults": "lambda a=" * MANY,
    "conditions": "a if b else " * MANY + "c", "middle": "a if (" * MANY, "comprehensions": "[a for b in " * MANY,
    "clauses": "[a" + " for b in c if d" * MANY + "]", "blocks": "".join(" " * at + "if a:\n" for at in range(BLOCKS)) + " " * BLOCKS + "b\n",
    "defs": "".join(" " * at + "def f(a=[1]):\n" for at in range(BLOCKS)) + " " * BLOCKS + "b\n",
    "elifs": "if a: b\n" + "elif c: d\n" * MANY + "else: e\n", "types": "x: " + "list[" * MANY, "f-strings": "x = " + "f'{" * MANY,
    "f-strings and lists": "x = " + "f'{[" * MANY, "tuples": "(a, " * MANY, "targets": "for (" * MANY, "statements": "a; " * MANY + "b",
    "arguments": "f(" + "a, " * MORE + ")", "parameters": "def f(" + "a, " * MORE + "): pass", "long name": "n" * MORE,
    "long string": "'" + "\\n" * MORE + "'", "comments": "#\n" * MORE, "joined lines": "\\\n" * MORE + "x",
}
TABLES = ("long string", "comments", "joined lines")


def nested(self, name):
    before = sys.getrecursionlimit()
    try:
        export.export(DEEP[name].encode())
        self.assertIn(name, TABLES)
    except export.ScriptError as error:
        self.assertNotIn(name, TABLES)
        self.assertTrue(error.message)
    self.assertEqual(sys.getrecursionlimit(), before)


class Collector(unittest.TestCase):
    """The parser pauses the garbage collector. Afterwards it is as before, also if the script is rejected."""

    def setUp(self):
        self.addCleanup(gc.enable if gc.isenabled() else gc.disable)

    def test_it_is_as_it_was(self):
        for before in (True, False):
            for script, rejects in ((b"x = 1\n", False), (b"x = = 1\n", True), (b"x = 'a\n", True)):
                (gc.enable if before else gc.disable)()
                try:
                    parser.parse(script)
                    rejected = False
                except lexer.NotStarlark:
                    rejected = True
                self.assertEqual((rejected, gc.isenabled()), (rejects, before), script)


@support.each(nested, [(name,) for name in DEEP], "nested")
class Nested(unittest.TestCase):
    """Deep nesting and long lists give a table or an error, never a RecursionError."""

    def test_within_the_levels(self):
        for depth in (60, 98):
            export.export(b"x = " + b"(" * depth + b"1" + b")" * depth)

    def test_a_caller_that_is_nested_deeply(self):
        def below(levels):
            if levels:
                return below(levels - 1)
            with self.assertRaises(export.ScriptTooLarge) as caught:
                export.export(b"x = " + b"[" * 60 + b"]" * 60)
            return caught.exception.message
        depth, frame = 0, sys._getframe()
        while frame:
            depth, frame = depth + 1, frame.f_back
        self.assertEqual(below(sys.getrecursionlimit() - depth - 120), "nested too deeply")


# ---- changed scripts

PIECES = [piece.encode() for piece in (*lexer.SYMBOLS, *lexer.KEYWORDS, "'", '"', "'''", '"""', "f'", "{", "}", "\\", "\n", "\n  ", "\r", "\t",
                                       " ", "#", "é", "\x00", "0x", "1.", "_")]


def changed(draw, source):
    """A script with one to five changes: a byte, a piece of Starlark, a part that is left out or comes twice."""
    for _ in range(draw.randint(1, 5)):
        at = draw.randint(0, len(source))
        end = min(len(source), at + draw.choice((0, 1, 1, 2, 5, 20)))
        put = draw.choice((bytes([draw.randrange(256)]), draw.choice(PIECES), b"", source[at:end] * 2))
        source = source[:at] + put + source[end:]
    return source


class Changed(unittest.TestCase):
    """A script with changes gives a sound table, or an error at a place of it."""

    def test_changed(self):
        draw = random.Random(41)
        bases = [support.sample(f"{name}.star") for name in support.samples(".star")]
        bases += [source.encode() for source, _ in TREES] + [source.encode() for source in ACCEPTED + ACCEPTED_TOO]
        tables = errors = 0
        for _ in range(ROUNDS):
            source = changed(draw, b"".join(draw.choice(bases) for _ in range(draw.randint(1, 3))))
            try:
                table, names = export.export(source)
            except export.ScriptError as error:
                errors += 1
                self.assertTrue(0 <= error.begin <= error.end <= len(source), source)
                self.assertTrue(error.line >= 1 and error.column >= 1 and error.message.isprintable(), source)
                continue
            except Exception as error:
                self.fail(f"{type(error).__name__} {error}: {source!r}")
            tables += 1
            self.assertTrue(support.library().table(table, names).accepted, source)
        self.assertGreater(tables, ROUNDS // 20)
        self.assertGreater(errors, ROUNDS // 20)


if __name__ == "__main__":
    unittest.main()
