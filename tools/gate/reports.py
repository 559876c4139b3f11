"""How a check script reports: every message is made by `fault`, and `ended` prints the messages and gives the exit status.

`fault` notes the place of its call. So a trial can demand that each call of `fault` in a script was reached: tools/tests/try_checks.py plants a fault
for each message, and a message that no planted fault reaches fails the trial. `unreached` compares the calls, which it finds in the script's
syntax, with the places noted. `unmeasured` finds messages that are not made by `fault`.
"""
import ast
import os
import sys

REACHED = set()  # the calls of `fault` that were reached: (file, line)
COLLECTED = ("faults", "told", "wrong")  # the names that scripts give to their lists of messages


class Fault(str):
    """A message. Only `fault` makes it, or `at` of another one."""

    def at(self, place):
        return Fault(f"{place}: {self}")


def fault(words):
    """The message. The place of the call is noted."""
    caller = sys._getframe(1)
    REACHED.add((caller.f_code.co_filename, caller.f_lineno))
    return Fault(words)


def ended(faults, good, of=""):
    """Prints each fault in a line, or `good` if there is none. Returns the exit status."""
    for one in faults:
        if not isinstance(one, Fault):
            raise TypeError(f"this message is not made by reports.fault, so no trial can see it: {one}")
    print("\n".join(of + one for one in faults) or good)
    return 1 if faults else 0


def is_call(node, name):
    return isinstance(node, ast.Call) and isinstance(node.func, ast.Name) and node.func.id == name


def calls(path):
    """The lines of a script on which `fault` is called."""
    return sorted(node.lineno for node in ast.walk(ast.parse(path.read_text())) if is_call(node, "fault"))


def unreached(path, reached=None):
    """The lines of a script whose message no trial has reached. Two messages on one line would count as one: that line is given too."""
    lines = calls(path)
    noted = {line for file, line in (REACHED if reached is None else reached) if os.path.abspath(file) == os.path.abspath(path)}
    return sorted({line for line in lines if line not in noted or lines.count(line) > 1})


def unmeasured(path):
    """The lines of a script that report in another way than by `fault`: an assertion, an exception or an exit with its own words, a text
    that is yielded or put into a list of faults directly."""
    for node in ast.walk(ast.parse(path.read_text())):
        parts = []
        if isinstance(node, ast.Assert):
            yield node.lineno
        elif isinstance(node, ast.Raise) and isinstance(node.exc, ast.Call):
            parts = node.exc.args
        elif isinstance(node, ast.Yield):
            parts = node.value.elts if isinstance(node.value, ast.Tuple) else [node.value]
        elif isinstance(node, ast.Call) and called(node) in ("exit", *(f"{name}.append" for name in COLLECTED)):
            parts = node.args
        elif isinstance(node, (ast.Assign, ast.AugAssign)) and any(name_of(target) in COLLECTED for target in targets(node)):
            parts = elements(node.value)
        if any(has_text(part) for part in parts):
            yield node.lineno


def has_text(node):
    """Whether an expression gives a text of several words that is not made by `fault`."""
    if isinstance(node, (ast.BinOp, ast.IfExp)):
        return any(has_text(part) for part in ast.iter_child_nodes(node))
    whole = [node] if isinstance(node, ast.Constant) else node.values if isinstance(node, ast.JoinedStr) else []
    return any(isinstance(part, ast.Constant) and isinstance(part.value, str) and " " in part.value.strip() for part in whole)


def elements(node):
    """What a list is made of: the elements of a list or of a comprehension, and of the lists of a sum or a condition."""
    if isinstance(node, (ast.List, ast.Tuple)):
        yield from node.elts
    elif isinstance(node, (ast.ListComp, ast.GeneratorExp)):
        yield node.elt
    elif isinstance(node, (ast.BinOp, ast.IfExp)):
        for part in ast.iter_child_nodes(node):
            yield from elements(part)


def targets(node):
    return node.targets if isinstance(node, ast.Assign) else [node.target]


def name_of(node):
    return node.id if isinstance(node, ast.Name) else ""


def called(node):
    """The name of what is called: 'exit' for sys.exit, for a method the variable and the method."""
    function = node.func
    if isinstance(function, ast.Attribute):
        owner = name_of(function.value)
        return function.attr if owner == "sys" else f"{owner}.{function.attr}"
    return name_of(function)
