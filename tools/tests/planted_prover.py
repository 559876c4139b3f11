"""The faults that tools/tests/try_checks.py plants for the scripts that run rt: proofs.py, wrong_answers.py and weaker.py.

rt is made up here, so that each of its answers can be planted and none takes time: it refuses what differs from the unchanged crate. The
steps `proofs`, `wrong`, `try-wrong` and `weaker` run the scripts over rt itself. A file `prover` in the copy says what the made-up one does wrong.
"""
import pathlib
import re
import subprocess
import types

from planted import added, all_of, changed, created, nothing, removed
from trial import Check, Planted

FACT = "`search`: no proof of `x`"


def functions(text):
    """The functions of a source with their bodies."""
    return re.findall(r"^(?:pub )?fn (\w+)\(.*?^\{\n(.*?)^\}", text, re.M | re.S)


class Prover:
    """rt, made up. It is run in a copy of the copy."""

    def __init__(self, room):
        self.root = room.root

    @property
    def fails(self):
        """What is planted: the way in which rt fails."""
        file = self.root / "prover"
        return file.read_text() if file.exists() else ""

    def run(self, words, cwd, **_):
        folder = pathlib.Path(cwd)
        if words == ["rt", "fmt"]:
            return answer("")
        if self.fails == "no verdict":
            return answer("rt: the prover fell over\n", 2)
        assert words == ["rt", "ci"], f"{words}: under CI, rt ci takes no names"
        crates = [folder / "crates" / line.partition(":")[0] for line in (folder / "crates.txt").read_text().splitlines()]
        for crate in (crate for crate in crates if (crate / "proofs" / "Weaker.antt").exists()):
            return answer(f"== {crate.name}\n" + self.of_theorems(crate) + f"logic=not-proved\nrt: {crate.name} NOT PROVED\n", 1)
        return answer("".join(self.of_crate(crate.name, crate) for crate in crates))

    def of_crate(self, name, crate):
        """What rt says of each edit of a crate: where the first function or definition that it changes is refused."""
        said = f"rt: {name}: trying its must-fail edits (1)\n"
        for path in sorted((crate / "must-fail").glob("*.edit")):
            text = path.read_text()
            file, old, new = (re.search(rf"^{key}: (.*)$", text, re.M)[1] for key in ("file", "old", "new"))
            right = (crate / file).read_text()
            changed_in = [f for (f, a), (_, b) in zip(functions(right), functions(right.replace(old, new))) if a != b]
            verdict, mark, message = self.verdict(file, right, changed_in, old).partition(": ")
            said += f"rt: must-fail {name}/{path.name}: {verdict}{mark}{message[:160]}\n"  # as rt cuts it
        return said

    def verdict(self, file, text, functions_changed, old):
        if self.fails == "proves all":
            return "NOT REFUSED: the crate is still proved with this edit"
        if self.fails == "says no place":
            return "refused, as it must be"
        if self.fails == "names no goal":
            return "refused, as it must be: the check stopped here"
        if self.fails == "does not try":
            return "NOT TRIED: its check was killed, most likely for memory, so nothing is known of it: run this again"
        words = {"says no reason": "this λ has 2 binders", "says a term": "`laid (words)`", "says a cut term": "`Rattle.fields.specs.Field.laid (" + "words " * 30,
                 "says a field": "`c` has no field `word`", "says a cut field": "`c.requires.1.1.1.0 (laid (" + "words " * 30}.get(self.fails, FACT)
        if file.startswith("specs/") or not functions_changed and not file.startswith("src/"):
            place = "specs/Table.antt" if self.fails == "refuses a definition" else "proofs/Examples.antt"
            return f"refused, as it must be: ./{place}:1:1: error: `examples`: {words}"
        function = functions_changed[0] if functions_changed else "made"
        if self.fails == "refuses another":
            function = "byte" if function != "byte" else "word"
        if self.fails == "refuses a law":
            return f"refused, as it must be: ./proofs/Fields.antt:1:1: error: `law`: {words}"
        goal = "step" if self.fails == "refuses on the way" else "returns"
        if self.fails == "names a line of code":
            line = text.count("\n", 0, text.index(f"fn {function}(")) + 1
            return f"refused, as it must be: note: src/lib.rt:{line}:1: it is not proved that what the function ensures holds when it returns (`{goal}`); x"
        return f"refused, as it must be: ./proofs/{function}/Answers.antt:1:1: error: `{goal}`: {words}"

    def of_theorems(self, crate):
        """What rt says of a crate with weaker theorems: the statements that cite them are refused, or the module over a record with one more field."""
        names = re.findall(r"^pub (\S+) :", (crate / "proofs" / "Weaker.antt").read_text(), re.M)
        planted = [name for name in names if re.search(r"-\d+$", name)] if any(name.endswith("-twin") for name in names) else names[:1]
        if self.fails == "proves all":
            planted = []
        planted += [name for name in names if self.fails == "refuses the twins" and name.endswith("-twin")]
        said = "".join(f"./proofs/Weaker.antt:1:1: error: `{name}`: {FACT}\n" for name in planted)
        return said + (f"./proofs/Demand3.antt:1:1: error: `law`: {FACT}\n" if self.fails == "refuses the theorems" else "")


def answer(text, status=0):
    return types.SimpleNamespace(stdout=text, stderr="", returncode=status)


def made_up(room):
    """Puts the made-up rt in the place of the kit's."""
    def replace(module):
        module.subprocess = types.SimpleNamespace(run=Prover(room).run, PIPE=subprocess.PIPE, STDOUT=subprocess.STDOUT, DEVNULL=subprocess.DEVNULL)

    room.made = replace


def two_crates(room):
    made_up(room)
    room.write("crates.txt", "fields:\nexamples: fields\n")


def fails(words):
    return created("prover", words)


def edit(words, crate="fields"):
    """One more wrong answer."""
    return created(f"crates/{crate}/wrong/planted.edit", words)


def with_constant(plant, use="MADE"):
    """A constant in fields, a function that uses it, an edit of the constant, and what is planted beside them."""
    function = f"const MADE: u8 = 1;\n\nfn made() -> u8\n{{\n    {use}\n}}\n"
    return all_of(added("crates/fields/src/lib.rt", function), edit(f"function: fields::made\n{CODE}old: MADE: u8 = 1\nnew: MADE: u8 = 2\n"), plant)


CODE = "file: src/lib.rt\n"
SPECS = "file: specs/Table.antt\n"
NEXT = CODE + "old:     let next = at + 1;\nnew:     "
IN_WRONG = [
    Planted("no verdict", fails("no verdict"), "fields/half_factor: BAD EDIT: no verdict: rt: the prover fell over"),
    Planted("wrong functions that are proved", fails("proves all"), "fields/half_factor: NOT REFUSED in fields::half"),
    Planted("wrong definitions that are proved", fails("proves all"), "examples/a_row_is_missing: NOT REFUSED in "),
    Planted("nothing but what is proved", all_of(fails("proves all"), created("crates.txt", "fields:\n")), "0 wrong answers refused, 8 not"),
    Planted("another function that is refused", fails("refuses another"), "half_factor: BAD EDIT: fields::byte is refused, which is not meant"),
    Planted("a law that is refused", fails("refuses a law"), "half_factor: BAD EDIT: a law is refused, and no function: "),
    Planted("a refusal without a place", fails("says no place"), "half_factor: BAD EDIT: rt says: refused, as it must be"),
    Planted("a refusal for no reason", fails("says no reason"), "half_factor: BAD EDIT: fields::half is refused at no stated fact: this λ has 2 binders"),
    Planted("a refusal for a field", fails("says a field"), "half_factor: BAD EDIT: fields::half is refused at no stated fact: `c` has no field"),
    Planted("a refusal for a field of a long term", fails("says a cut field"), "half_factor: BAD EDIT: fields::half is refused at no stated fact: `c.requires"),
    Planted("a refusal at a comparison of two terms", fails("says a term"), None),
    Planted("a refusal at a comparison of two long terms", fails("says a cut term"), None),
    Planted("a theorem that is refused for no reason", fails("says no reason"), "a_row_is_missing: BAD EDIT: examples of proofs/Examples.antt is refused at no stated fact"),
    Planted("a definition that is refused", fails("refuses a definition"), "a_row_is_missing: BAD EDIT: no theorem is refused, but"),
    Planted("no refusal at a promise", fails("refuses on the way"), "wrong: fields::half has no edit that is refused at its own promise"),
    Planted("a refusal that names the line of the function", fails("names a line of code"), None),
    Planted("a goal that is not named", fails("names no goal"), "half_factor: BAD EDIT: no goal is named"),
    Planted("two edits of one name", created("crates/fields/must-fail/half_factor.edit", NEXT + "let next = at + 2;\n"), "^wrong: fields has two edits half_factor$"),
    Planted("no verdict on an edit that shows nothing", all_of(fails("no verdict"), created("bad/planted.edit", "crate: fields\n" + NEXT + "let next = at + 2;\n")),
            "^0 edits that show nothing reported as such, 1 not", ("--try", "bad")),
    Planted("an edit that shows nothing and is not tried", all_of(fails("does not try"), created("bad/planted.edit", "crate: fields\n" + NEXT + "let next = at + 2;\n")),
            "^0 edits that show nothing reported as such, 1 not", ("--try", "bad")),
    Planted("an edit that shows nothing", all_of(fails("proves all"), created("bad/planted.edit", "crate: fields\n" + NEXT + "let next = at + 2;\n")), None, ("--try", "bad")),
    Planted("no edit that is tried", nothing, "wrong: no edit was tried", ("nowhere",)),
    Planted("an edit of a proof", edit("file: proofs/Over.antt\nold: a\nnew: b\n"), "planted: BAD EDIT: it edits proofs/Over.antt, which is no code"),
    Planted("a text that is not there", edit(CODE + "old: nowhere\nnew: b\n"), "planted: BAD EDIT: an 'old:' text is in src/lib.rt 0 times"),
    Planted("a text that is there twice", edit(CODE + "old:         return 0;\nnew: b\n"), "planted: BAD EDIT: an 'old:' text is in src/lib.rt 3 times"),
    Planted("an edit of a contract", edit(CODE + "old: field 2 b\nnew: field 4 b\n"), "planted: BAD EDIT: it edits the signature or contract of a function"),
    Planted("an edit of an import", edit(CODE + "old: ghost use Rattle.fields.specs.Field.{field}\nnew: ghost use Rattle.fields.specs.Field.{meadow}\n"),
            "planted: BAD EDIT: it edits a ghost use or an attribute"),
    Planted("an edit of a type", all_of(added("crates/fields/src/lib.rt", "type Made = u8;\n"), edit(CODE + "old: type Made = u8\nnew: type Made = u16\n")),
            "planted: BAD EDIT: it edits `type`"),
    Planted("an edit without a pair", edit("Words alone.\n"), "planted: BAD EDIT: it has no pair of 'old:' and 'new:'$"),
    Planted("an edit of a constant without a function", all_of(added("crates/fields/src/lib.rt", "const MADE: u8 = 1;\n"), edit(CODE + "old: MADE: u8 = 1\nnew: MADE: u8 = 2\n")),
            "planted: BAD EDIT: it edits a constant and has no 'function:'"),
    Planted("a function that is not there", all_of(added("crates/fields/src/lib.rt", "const MADE: u8 = 1;\n"), edit("function: fields::nobody\n" + CODE + "old: MADE: u8 = 1\nnew: MADE: u8 = 2\n")),
            "planted: BAD EDIT: there is no function fields::nobody"),
    Planted("an edit of spaces alone", edit(NEXT + "let  next = at + 1;\n"), "planted: BAD EDIT: the code of fields::half stays the same"),
    Planted("the parts of a sum exchanged", edit(NEXT + "let next = 1 + at;\n"), "planted: BAD EDIT: the code of fields::half stays the same"),
    Planted("a sum that becomes a difference", edit(NEXT + "let next = 1 - at;\n"), "planted: BAD EDIT: fields::half does other steps than before"),
    Planted("the parts of a difference exchanged", all_of(changed("crates/fields/src/lib.rt", r"let next = at \+ 1", "let next = at - 1"), edit(NEXT.replace("at + 1", "at - 1") + "let next = 1 - at;\n")), None),
    Planted("an edit with another call", edit(NEXT + "let next = at + 1; byte(b, at);\n"), "planted: BAD EDIT: fields::half does other steps than before"),
    Planted("an edit with another sum", edit(NEXT + "let next = at + 1 + 0;\n"), "planted: BAD EDIT: fields::half does other steps than before"),
    Planted("an edit with a branch less", edit(CODE + "old:     if at < b.len() { b[at] } else { 0 }\nnew:     b[at]\n"), "planted: BAD EDIT: fields::byte does other steps than before"),
    Planted("an edit with another return", edit(NEXT + "let next = at + 1; return 0;\n"), "planted: BAD EDIT: fields::half does other steps than before"),
    Planted("a definition that is not there", edit(SPECS + "old: nowhere\nnew: b\n", "examples"), "planted: BAD EDIT: an 'old:' text is in specs/Table.antt 0 times in a crate without code"),
    Planted("an edit of a comment", all_of(added("crates/examples/specs/Table.antt", "-- meadow\n"), edit(SPECS + "old: -- meadow\nnew: -- field\n", "examples")),
            "planted: BAD EDIT: in specs/Table.antt it is in no definition"),
    Planted("an edit without a pair in a crate without code", edit("Words alone.\n", "examples"), "planted: BAD EDIT: it has no pair of 'old:' and 'new:' in a crate without code"),
    Planted("a constant", with_constant(nothing), None),
    Planted("a constant of which another one is made", with_constant(added("crates/fields/src/lib.rt", "const MORE: u8 = MADE;\n"), "MORE"), None),
    Planted("a constant that the function does not use", with_constant(nothing, "0"), "planted: BAD EDIT: the code of fields::made stays the same"),
    Planted("one edit that is refused", removed("crates/fields/wrong/half_factor.edit"), None),
]

MODULE = "crates/statements/proofs/Demand3.antt"
IN_WEAKER = [
    Planted("weaker theorems that prove their statements", fails("proves all"), r"NOT REFUSED: \S+: \S+ without: "),
    Planted("a record of more that changes nothing", fails("proves all"), "with `never : ⊥`: NOT REFUSED by the statements"),
    Planted("statements that are never proved", fails("refuses the twins"), "its twin is refused too: "),
    Planted("planted theorems that are not proved", fails("refuses the theorems"), "the planted theorem itself is not proved: proofs/Demand3.antt law"),
    Planted("no verdict", fails("no verdict"), "no verdict on .*: rt: the prover fell over"),
    Planted("theorems of two crates", changed(MODULE, "^use ", "use Rattle.fields.proofs.Fields as theorem-fields\nuse "), "Demand3 cites theorems of 2 crates"),
    Planted("an import from a crate above", changed(MODULE, "^use ", "use Rattle.bind.specs.Binding.{reaches}\nuse "), "Demand3: it imports from bind, which demand3 does not depend on"),
    Planted("a statement that cites no theorem", added(MODULE, "pub planted : Unit {0}\nplanted = tt\n"), "Demand3: planted cites no theorem"),
    Planted("a module that is not there", removed(MODULE), "there is no module Demand3 of crates/statements"),
    Planted("no module at all", removed(MODULE), "no fault was planted"),
]


# ---- proofs.py

OK = "rt: ok; handles allowed: none; must-fail edits: 0 refused; every proof and must-fail edit was done in this run\n"
EDIT = created("crates/fields/must-fail/planted.edit", "file: src/lib.rt\nold: a\nnew: b\n")


def says(text, status=0):
    """What the made-up rt prints, and its status."""
    return created("prover", f"{status}\n{text}")


def made_up_ci(room):
    """An rt that prints what the file `prover` has."""
    def start(words, **_):
        status, _, text = (room.root / "prover").read_text().partition("\n")
        return types.SimpleNamespace(stdout=text.splitlines(keepends=True), wait=lambda: int(status))

    def replace(module):
        module.subprocess = types.SimpleNamespace(Popen=start, PIPE=subprocess.PIPE, STDOUT=subprocess.STDOUT, DEVNULL=subprocess.DEVNULL)

    room.made = replace
    room.write("crates.txt", "fields:\n")
    room.write("prover", f"0\n{OK}1 passed, 0 failed\n")


IN_PROOFS = [
    Planted("a crate that is not proved", says("rt: fields NOT PROVED\n0 passed, 1 failed\n", 1), "^0 passed, 1 failed$"),
    Planted("no last line", says(OK), "the last line of rt ci is not 'N passed, M failed'"),
    Planted("a status that the last line contradicts", says(f"{OK}1 passed, 0 failed\n", 1), "rt ci ended with status 1, and says 1 passed, 0 failed"),
    Planted("a last line that the status contradicts", says("0 passed, 1 failed\n"), "rt ci ended with status 0, and says 0 passed, 1 failed"),
    Planted("a run of some crates alone", says("1 passed, 0 failed (fields and the crates below alone: not the gate)\n"), "the last line of rt ci is not"),
    Planted("no line 'rt: ok'", says("1 passed, 0 failed\n"), "rt ci passed and has 0 lines 'rt: ok'"),
    Planted("a bad edit", all_of(EDIT, says(OK.replace("0 refused", "1 refused, 2 bad") + "2 passed, 0 failed\n")), "^proofs: 2 edits of must-fail are bad"),
    Planted("bad edits alone", says(OK.replace("0 refused", "0 refused, 1 bad") + "1 passed, 0 failed\n"), "^1 passed, 1 failed$"),
    Planted("an edit of which rt says nothing", all_of(EDIT, says(OK.replace(" must-fail edits: 0 refused;", "") + "1 passed, 0 failed\n")), "refused 0 edits of must-fail, and 1 are there"),
    Planted("an edit too few", all_of(EDIT, says(OK + "1 passed, 0 failed\n")), "rt ci refused 0 edits of must-fail, and 1 are there"),
    Planted("an edit that is refused", all_of(EDIT, says(OK.replace("0 refused", "1 refused") + "2 passed, 0 failed\n")), None),
]

CHECKS = [
    Check("proofs.py", (), IN_PROOFS, ("crates/fields",), made_up_ci),
    Check("wrong_answers.py", (), IN_WRONG, ("crates/fields", "crates/examples"), two_crates),
    Check("weaker.py", ("Demand3", "--records", "1"), IN_WEAKER, ("crates/*/specs", "crates/demand3", "crates/fields", MODULE), made_up),
]
