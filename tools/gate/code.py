"""What the body of a function does, from its text: which steps it takes, and whether two bodies are the same but for operands that may be exchanged.

A step is what a proof may be asked about: a call, a sum or another operation that may not fit, a cast, a part by its index, a branch, a loop, a return.
Other words, such as names, numbers and comparisons, are no steps.
"""
import re

TOKEN = re.compile(r"\"(?:\\.|[^\"\\])*\"|'(?:\\.|[^'\\])'|\w+|<<=|>>=|\.\.=|<<|>>|<=|>=|==|!=|&&|\|\||=>|->|::|\.\.|[-+*/%&|^]=|[^\s\w]")
WORDS = {"if", "else", "match", "while", "for", "loop", "return", "break", "continue", "as"}
SUMS = {"+", "-", "*", "/", "%", "<<", ">>", "+=", "-=", "*=", "/=", "%=", "..", "..="}
# what binds least comes first; the operands of those in EXCHANGEABLE may be exchanged
LEVELS = [{"||"}, {"&&"}, {"==", "!=", "<", ">", "<=", ">="}, {"|"}, {"^"}, {"&"}, {"<<", ">>"}, {"+", "-"}, {"*", "/", "%"}]
EXCHANGEABLE = {"+", "*", "==", "!=", "&&", "||", "&", "|"}
APART = {";", ",", "=>", "=", ":", "..", "..=", "let", "return", "if", "else", "match", "while", "for", "in", "mut", *(f"{sign}=" for sign in "+-*/%&|^")}
CLOSED = {"(": ")", "[": "]", "{": "}"}


def tokens(text):
    """The tokens of a text without its comments."""
    return TOKEN.findall(re.sub(r"//[^\n]*", "", text))


def is_operand(token):
    """Whether an operand may end with a token."""
    return bool(re.match(r"\w|[\"')\]]", token)) and token not in WORDS


def is_made(token):
    """Whether a word is the name of a type or a variant, so that brackets after it hold a value's fields."""
    return bool(re.match(r"[A-Z]\w*[a-z]", token))


def steps(text):
    """The steps of a text in their order, without their operands. A return comes after what it returns; `len` and a value that is made are no steps."""
    found, last, opened, returned = [], "", [], []
    for token in tokens(text):
        if token == "return":
            returned.append(len(opened))
        elif token in WORDS or token in ("?", "=>"):
            found.append(token)
        elif token in SUMS and (token not in "*-" or is_operand(last)):
            found.append(token)
        elif token == "[" and is_operand(last):
            found.append("part")
        elif token == "(" and is_operand(last) and last != "len" and not is_made(last):
            found.append("call")
        if token in CLOSED:
            opened.append(token == "{" and not is_made(last))
            found += ["{"] * opened[-1]
        while returned and returned[-1] >= len(opened) and token in (";", ",", "}"):
            returned.pop()
            found.append("return")
        if token in CLOSED.values() and opened:
            found += ["}"] * opened.pop()
        last = token
    return found


def nested(words):
    """Tokens as nested lists: each bracket with what is in it, after the bracket itself."""
    whole, waiting = [], []
    for word in words:
        if word in CLOSED:
            waiting.append((whole, word))
            whole = []
        elif word in CLOSED.values() and waiting:
            inner, (whole, opened) = whole, waiting.pop()
            whole.append([opened, *inner])
        else:
            whole.append(word)
    return whole


def ordered(text):
    """A text as nested tuples, the operands that may be exchanged in a fixed order."""
    return in_order(nested(tokens(text)))


def in_order(parts):
    """Adjacent parts: those between words that stand apart are expressions."""
    found, waiting = [], []
    for part in [*parts, ";"]:
        if isinstance(part, str) and part in APART:
            found += [expression(waiting), part] if waiting else [part]
            waiting = []
        else:
            waiting.append(part)
    return tuple(found[:-1])


def expression(parts, level=0):
    """An expression by its operators, those that bind least first; of equals the last one is the outermost."""
    if level == len(LEVELS):
        return tuple((part[0], in_order(part[1:])) if isinstance(part, list) else part for part in parts)
    for at in range(len(parts) - 1, 0, -1):
        sign = parts[at]
        if isinstance(sign, str) and sign in LEVELS[level] and (isinstance(parts[at - 1], list) or is_operand(parts[at - 1])):
            both = [expression(parts[:at], level), expression(parts[at + 1:], level + 1)]
            return (sign, *(sorted(both, key=repr) if sign in EXCHANGEABLE else both))
    return expression(parts, level + 1)
