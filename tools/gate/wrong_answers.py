#!/usr/bin/env python3
"""Tries wrong answers: each edit of crates/NAME/wrong makes one function wrong in one point, and the prover must refuse it and name the goal.

`rt ci` tries the edits, in a copy of their crates outside of the checkout in which the edits of crates/NAME/wrong are with those of
crates/NAME/must-fail. So each edit is tried by itself, over what the crate's own check has proved, and rt says what it came to. What rt has tried
once on this machine it does not try again, as long as nothing changes that the crate stands on; after `rt ci` of the checkout no crate is proved
again. The first run costs some ten seconds of processor time for an edit.

A refusal counts only for the right reason. An edit is bad, and the run fails, if
- it touches anything but the body of a function or a constant; for a constant 'function: ' names the function that must be refused;
- the function's code stays the same except for the order of operands that may be exchanged, or takes other steps than before: other calls, sums,
  casts, parts, branches (code.py). Then its proof would not fit, whatever the answer is;
- a constant is edited that the function does not use;
- the goal that rt names is not of the function that must be refused, or of one that it shares its proof with;
- rt does not name the goal and what fails there (FACTS), but reports that a proof file does not fit, a limit of the prover, or nothing.
A public function of a crate whose edits are all tried must have one that is refused at the function's own promise; else the run fails. A function of
a static library only passes on a function of another crate, with the same promise (promises.py), and needs none.
oracle/faults-port shows for every edit that it is wrong: some run gives another answer.
The edits of must-fail are judged in the same way, and not counted, since rt counts them.

A crate without code (demand3, reached, audited, examples) has edits of its definitions: each makes one definition of specs/ wrong, and the
prover must refuse a theorem of the crate at a stated fact. `statements`, which has no specs/, has edits of its statements: each makes one say
more than its theorem. It is bad if it is in a comment, an import or a proof, or if the prover refuses the text and not a fact: an unknown
name, a clause that does not fit.

wrong_answers.py [NAME[/EDIT]...]    after rt ci. The last line is 'N wrong answers refused, M not'; status 0 where M is 0.
wrong_answers.py --try FOLDER        every edit of FOLDER shows nothing ('crate: ' names its crate): each must be reported as bad, or not refused.
"""
import pathlib
import re
import shutil
import subprocess
import sys
import tempfile
import time

import code
import promises
import repository
from reports import fault
from repository import CRATES, HEAD, BadEdit, Edit, constant_at, definition_at, function_at, part_at

# how rt reports that a goal does not follow, and the word for it in the report; its other messages are not a reason
FACTS = {
    r"it is not proved that ": "no proof",
    r"`search`: no proof of": "search",
    r"`search` does not close": "search",
    r"`grind`: the goal does not follow": "grind",
    r"`omega`: (?:the goal does not follow|the part `|a listed rule or a hypothesis proves the goal from `)": "omega",
    r"list the missing equation with its arguments": "cc",
    r"(?:as printed|computed as far as they go), the two (?:types|sides) (?:first differ where|differ only where|are `)|expected type `": "law",
    r"as printed, the two types are identical apart from the names of bound variables|computed as a goal is, one side reads `": "law",
    r"`[^`]*`\Z": "law",  # a term alone: on the next line is what it is not equal to
    r"`rw`: no occurrence": "rw",
    r"`simp`: ": "simp",
}
# Public functions of which rt names an earlier goal first. A wrong answer breaks that goal too, and rt prints no other.
EARLIER_GOAL = ("blocks::bytes::put", "books::blank", "tablefile::unpack", "tablefile::read_into")
# Edits that exchange two calls. The goal that fails is the function's promise, but its answer names one of the calls, and rt says no more than that.
EXCHANGED_CALLS = {"errors/free_words_of_four": "errors::free"}
NAMED = "(only because a proof file names what the edit took away, so this says little of the contract: change a value and keep the names)"
# Words of a tactic that gave up, or that a proof does not fit: no reason, whichever tactic it is.
GAVE_UP = re.compile(r"gave up|one of its limits|is not in scope")
# rt prints this many characters of a message. A term that is cut there counts as a term alone if it begins with a definition of specs/, since the
# goal that rt names failed there: where a name or a field is missing, rt sees that in the whole message and says so in other words (NO_REASON).
SAID = 160
CUT_TERM = re.compile(r"`Rattle\.\w+\.specs\.[^`]*\Z")


def fact_in(words, message):
    """The word for the fact at which a goal fails, by what rt says of it; None if it is no reason."""
    if not words.startswith("it is not proved that ") and GAVE_UP.search(words):
        return None
    cut = "law" if len(message) == SAID and CUT_TERM.match(words) else None
    return next((tactic for pattern, tactic in FACTS.items() if re.match(pattern, words)), cut)


# ---- functions and their proofs

def sources(name):
    """The sources of a crate: each file with its text."""
    folder = CRATES / name
    return {str(path.relative_to(folder)): path.read_text() for path in sorted((folder / "src").rglob("*.rt"))}


def text_of(function, crate):
    """The file of a function, and its text; of a method with its indentation. None if there is no such function."""
    for file, text in sources(crate).items():
        for head in re.finditer(rf"^( *){HEAD}\w+", text, re.M):
            if function_at(crate, file, text[: head.end()]) == function:
                return file, re.compile(rf".*?^{head[1]}}}\n", re.M | re.S).match(text, head.start())[0]
    return None


def body_of(text):
    """The body of a function: what is after the line that opens it."""
    return re.split(r"(?m)^ *\{$|\{$", text, maxsplit=1)[-1]


def cycle_of(crate, name, modules):
    """The functions that share the proof in the folder +name: those with #[cycle(name)] in the module, or the function of that name."""
    file = "/".join(["src", *modules]) + ".rt" if modules else "src/lib.rt"
    text = sources(crate).get(file, "")
    members = re.findall(rf"^#\[cycle\({name}\)\]\n(?:#\[[^\n]*\n)*{HEAD}(\w+)", text, re.M) or [name]
    return {"::".join([crate, *modules, member]) for member in members}


def with_cycle(function):
    """A function and those that it shares its one proof with, since they call one another."""
    crate, *modules, name = function.split("::")
    home = CRATES.joinpath(crate, "proofs", *modules)
    cycles = [cycle_of(crate, path.name[1:], modules) for path in home.glob("+*")] if home.is_dir() else []
    return next((cycle for cycle in cycles if function in cycle), {function})


def constants_of(text):
    """The constants of a file by their names, each with its text."""
    return {found[1]: found[0] for found in re.finditer(r"^(?:pub(?:\(crate\))? )?const (\w+):.*?;\n", text, re.M | re.S)}


def made_from(edited, constants):
    """The edited constants, and those that are made from them."""
    found = edited | {name for name, text in constants.items() if any(re.search(rf"\b{one}\b", text.partition("=")[2]) for one in edited)}
    return found if found == edited else made_from(found, constants)


# ---- edits

class Trial(Edit):
    """An edit that is tried: the functions that it is in, and the one that must be refused."""

    def __init__(self, path):
        super().__init__(path)
        self.counted, self.told, self.tried = path.parent.name != "must-fail", "", False
        self.functions, self.constants, self.texts = set(), set(), {}

    def find(self):
        """Sees that each old text is once in its file, when the pairs before it are done, in a body or a constant; notes the functions and the texts."""
        for file, old, new in self.pairs:
            if not file.startswith("src/"):
                raise BadEdit(fault(f"it edits {file}, which is no code"))
            text = self.texts.get(file) or (CRATES / self.crate / file).read_text()
            if text.count(old) != 1:
                raise BadEdit(fault(f"an 'old:' text is in {file} {text.count(old)} times"))
            part = part_at(text, text.find(old))
            if part not in ("body", "constant"):
                raise BadEdit(fault(f"it edits {part}"))
            if part == "constant":
                self.constants.add(constant_at(text, text.find(old)))
            self.functions.add(function_at(self.crate, file, text.partition(old)[0]) if part == "body" else None)
            self.texts[file] = text.replace(old, new)
        if not self.pairs:
            raise BadEdit(fault("it has no pair of 'old:' and 'new:'"))
        if None in self.functions and not self.function:
            raise BadEdit(fault("it edits a constant and has no 'function:'"))
        self.judge_code()

    @property
    def meant(self):
        """The functions that must be refused, each at a stated fact."""
        return {self.function} if self.function else self.functions

    def judge_code(self):
        """Sees that the edit changes what each function meant does, and no step that its proof is asked about."""
        for function in sorted(self.meant):
            found = text_of(function, self.crate)
            if not found:
                raise BadEdit(fault(f"there is no function {function}"))
            file, text = found
            old = new = body_of(text)
            for where, before, after in self.pairs:
                new = new.replace(before, after) if where == file else new
            if code.ordered(old) == code.ordered(new) and not self.is_used_in(text):
                raise BadEdit(fault(f"the code of {function} stays the same"))
            if code.steps(old) != code.steps(new):
                raise BadEdit(fault(f"{function} does other steps than before, so that its proof does not fit"))

    def is_used_in(self, text):
        """Whether a function names an edited constant, or one that is made from it."""
        constants = {name: text for one in sources(self.crate).values() for name, text in constants_of(one).items()}
        return any(re.search(rf"\b{name}\b", text) for name in made_from(self.constants, constants)) if self.constants else False

    def settle(self, why):
        """Sees that a refusal names a goal of a function that is meant, and what fails there. Returns the reason in words."""
        function, goal, words = self.goal_in(why)
        tactic = fact_in(words, why)
        if not tactic:
            raise BadEdit(fault(f"{function} is refused at no stated fact: {words[:300]}"))
        if function not in set().union(*map(with_cycle, self.meant)):
            raise BadEdit(fault(f"{function} is refused, which is not meant"))
        own = goal.removeprefix(f"{function.rpartition('::')[2]}-")
        kind = "its promise" if own.startswith("returns") else "the invariant of its loop" if re.match(r"loop|invariant|decreases", own) else "a fact on the way"
        return f"{function}: {kind}, {tactic}"

    def goal_in(self, why):
        """The function at which rt refuses an edit, the name of the goal, and what fails there."""
        found = re.match(r"(?:note: )?(?:\./)?((?:src|proofs)/\S+?):(\d+):\d+: (?:error: )?(?:`([^`]*)`: )?(.*)", why, re.S)
        if not found:
            raise BadEdit(fault(f"no goal is named: {why[:300]}"))
        file, line, goal, words = found[1], int(found[2]), found[3] or "", found[4]
        if file.startswith("src/"):
            named = re.search(r"\(`([^`\s]+)`?", words)
            text = self.texts.get(file) or (CRATES / self.crate / file).read_text()
            before = "".join(text.splitlines(keepends=True)[:line])
            at = re.compile(rf"(?:#\[[^\n]*\n)*{HEAD}\w+").match(text, len(before) - len(before.splitlines(keepends=True)[-1]))
            return function_at(self.crate, file, text[: at.end()] if at else before), named[1] if named else "", words
        *modules, last, answers = pathlib.PurePosixPath(file).with_suffix("").parts[1:] if file.count("/") > 1 else ("", file)
        if answers not in ("Answers", "Invariants", "Proof"):
            raise BadEdit(fault(f"a law is refused, and no function: {why[:300]}"))
        if answers == "Proof":
            goal = need_at((CRATES / self.crate / file).read_text(), line) or goal
        members = cycle_of(self.crate, last[1:], modules) if last.startswith("+") else {"::".join([self.crate, *modules, last])}
        named = [one for one in members if goal.startswith(f"{one.rpartition('::')[2]}-")]
        return max(named, key=len) if named else min(members), goal, words


class Definition(Trial):
    """An edit of a definition, or of a statement, in a crate without code. Its functions are these, each with its file."""

    def find(self):
        for file, old, new in self.pairs:
            path = CRATES / self.crate / str(file)
            text = self.texts.get(file) or (path.read_text() if path.is_file() else "")
            if text.count(old) != 1:
                raise BadEdit(fault(f"an 'old:' text is in {file} {text.count(old)} times in a crate without code"))
            own = definition_at(self.crate, file, text, text.find(old))
            if not own:
                raise BadEdit(fault(f"in {file} it is in no definition"))
            self.functions.add((file, own))
            self.texts[file] = text.replace(old, new)
        if not self.pairs:
            raise BadEdit(fault("it has no pair of 'old:' and 'new:' in a crate without code"))

    def settle(self, why):
        """Sees that a theorem is refused at a stated fact. Returns the reason in words."""
        found = re.match(r"(?:\./)?(proofs/\S+?):\d+:\d+: error: `([^`]*)`: (.*)", why, re.S)
        if not found:
            raise BadEdit(fault(f"no theorem is refused, but: {why[:300]}"))
        file, theorem, words = found.groups()
        tactic = fact_in(words, why)
        if not tactic:
            raise BadEdit(fault(f"{theorem} of {file} is refused at no stated fact: {words[:300]}"))
        return f"{theorem} of {file}: {tactic}"


def need_at(text, number):
    """The name of the need that a line of a Proof.antt answers, where the proof has it as a comment behind the answer; else an empty text."""
    names = re.findall(r"-- (\S+)$", text.splitlines()[number - 1], re.M)
    return names[0] if names else ""


def trial_of(path):
    """An edit as it is tried: of code, or of a definition where its crate has none."""
    return (Trial if repository.has_code(Edit(path).crate) else Definition)(path)


# ---- rt

def copied(room, by_crate):
    """A copy of what rt reads of the crates, in which each crate's must-fail has the edits that are to be tried."""
    repository.copy_crates(room, by_crate)
    for name, edits in by_crate.items():
        (room / "crates" / name / "must-fail").mkdir()
        for edit in edits:
            shutil.copy(edit.path, room / "crates" / name / "must-fail" / edit.path.name)


def said_by_rt(by_crate):
    """What rt says of each edit, by crate and label, and all that it prints."""
    with tempfile.TemporaryDirectory(prefix="wrong-") as folder:
        copied(pathlib.Path(folder), by_crate)
        done = subprocess.run(["rt", "ci"], cwd=folder, stdin=subprocess.DEVNULL, stdout=subprocess.PIPE, stderr=subprocess.STDOUT, text=True, errors="replace")
    verdicts = re.findall(r"^rt: must-fail (\w+)/(\S+)\.edit: (.*(?:\n(?!rt: |== |\d+ passed).*)*)", done.stdout, re.M)
    return {(crate, label): words.rstrip("\n") for crate, label, words in verdicts}, done.stdout


def judged(edit, said, whole):
    """Whether an edit is refused for the right reason, and the verdict in words."""
    if said is None:
        crate = re.findall(rf"^rt: {edit.crate}\b.*", whole, re.M)
        return False, f"BAD EDIT: {fault('no verdict: ' + (crate[-1] if crate else whole[-300:]).strip())}"
    if said.startswith("NOT REFUSED"):
        return False, fault(f"NOT REFUSED in {' and '.join(sorted(str(one) for one in edit.meant))}")
    reason = re.fullmatch(r"refused, as it must be: (.*)", said, re.S)
    function = EXCHANGED_CALLS.get(edit.name)
    if function and re.match(rf"refused, as it must be {re.escape(NAMED)}: \S+: error: `returns", said):
        return True, f"refused, as it must be, at {function}: its promise, an answer that names a call"
    if not reason:
        return False, f"BAD EDIT: {fault('rt says: ' + said.strip())}"
    try:
        return True, f"refused, as it must be, at {edit.settle(reason[1])}"
    except BadEdit as bad:
        return False, f"BAD EDIT: {bad}"


def try_all(by_crate):
    """Tries the edits of some crates, prints each verdict, and gives the edits with their verdicts."""
    began, verdicts = time.time(), {}
    for edits in by_crate.values():
        for edit in edits:
            try:
                edit.find()
            except BadEdit as bad:
                verdicts[edit] = False, f"BAD EDIT: {bad}"
    left = {name: some for name, edits in by_crate.items() for some in [[edit for edit in edits if edit not in verdicts]] if some}
    said, whole = said_by_rt(left) if left else ({}, "")
    for edit in (edit for edits in left.values() for edit in edits):
        edit.tried = True
        verdicts[edit] = judged(edit, said.get((edit.crate, edit.label)), whole)
    for name, edits in by_crate.items():
        for edit in edits:
            edit.told = verdicts[edit][1]
            print(f"wrong {name}/{edit.label}: {edit.told}")
        new = re.search(rf"^rt: {name}: trying its must-fail edits \((\d+)\)$", whole, re.M)
        if edits:
            print(f"wrong {name}: {len(edits)} edits, {new[1] if new else 0} of them tried in this run")
    print(f"wrong: {round(time.time() - began)} s", flush=True)
    return [(edit, right) for edit, (right, _) in verdicts.items()]


# what rt says where a proof does not fit, or where it gives up: no reason
NO_REASON = (
    "refused, as it must be",
    "refused, as it must be (only because a proof file names what the edit took away, so this says little of the contract: change a value and keep the names): x",
    "refused, as it must be (only by a limit of the prover, which gave no verdict, so this says less of the contract: choose a change that it refuses sooner): x",
    "refused, as it must be: ./proofs/half/Answers.antt:12:13: error: `returns`: `c` has no field `word`",
    *(f"refused, as it must be: {words:.{SAID}}" for words in (
        "./proofs/half/Answers.antt:12:13: error: `returns`: `c.requires.1.1.1.0 (laid (words (accepted (values_of c.counted))) 0 c.out.old) (c.ensures.value ∙ sym c.ensures.after)` has no field `word`",
        "./proofs/half/Answers.antt:12:13: error: `returns`: `omega`: it gave up at one of its limits",
        "./proofs/half/Answers.antt:12:13: error: `returns`: `simp`: it gave up at one of its limits",
        "./proofs/half/Answers.antt:12:13: error: `returns`: `simp`: `law` is not in scope",
        "./proofs/half/Answers.antt:12:13: error: `returns`: `search`: no proof of `x`: it gave up at one of its limits",
        "./proofs/half/Answers.antt:12:13: error: `returns`: `grind`: the proof that it wrote is not well typed: x. A step rewrites what a type beside it depends on",
    )),
    "refused, as it must be: ./proofs/half/Answers.antt:12:13: error: `returns`: `Rattle.fields.specs.Field.half",
    "refused, as it must be: ./proofs/half/Answers.antt:12:13: error: `returns`: this λ has 2 binders, but its type has room for only 1",
    "refused, as it must be: ./proofs/half/Answers.antt:12:13: error: `returns`: give the call less to do: list the lemma that is meant",
    "refused, as it must be: ./proofs/half/Answers.antt:12:13: error: `returns`: `law` was not admitted (it has holes or undetermined implicits, or was rejected)",
    "refused, as it must be: ./proofs/word/Answers.antt:9:13: error: `returns`: `search`: no proof of `x`",
    "refused, as it must be: note: src/lib.rt:8:1: it is not proved that what the function ensures holds when it returns (`returns`)",
    "refused, as it must be: ./proofs/Fields.antt:9:13: error: `law`: `search`: no proof of `x`",
    "NOT TRIED: its check was killed, most likely for memory, so nothing is known of it: run this again",
    "BAD EDIT: an 'old:' text is in src/lib.rt 0 times, and not once",
)


def no_reason(said):
    """Whether the tool finds no reason in what rt says of an edit of fields::half."""
    edit = Trial(CRATES / "fields" / "wrong" / "half_factor.edit")
    edit.functions = {"fields::half"}
    right, words = judged(edit, said, "")
    if right:
        print(f"taken for a reason: {said}: {words}")
    return not right


def try_the_tool(folder):
    """Every edit of a folder shows nothing: whether each is called bad, or not refused, and whether what is no reason is taken for none."""
    if not all([no_reason(said) for said in NO_REASON]):
        return 1
    by_crate = {}
    for path in sorted(folder.glob("*.edit")):
        edit = trial_of(path)
        by_crate.setdefault(edit.crate, []).append(edit)
    verdicts = try_all(by_crate)
    # an edit that rt tries must be proved; of one without a verdict nothing is known
    believed = sum(edit.tried and not edit.told.startswith("NOT REFUSED") for edit, _ in verdicts)
    print(f"{len(verdicts) - believed} edits that show nothing reported as such, {believed} not")
    return 0 if verdicts and not believed else 1


def without_own(name, edits):
    """The public functions of a crate at whose own promise no edit is refused."""
    if not repository.has_code(name) or repository.is_static(name):
        return []
    refused = {function for edit in edits for function in re.findall(r"at (\S+): its promise,", edit.told)}
    refused |= {function for edit in edits for function in re.findall(r"at (\S+): ", edit.told) if function in EARLIER_GOAL}
    public = [f"{name}::{function.path}" for function in promises.Crate(name).public]
    return [function for function in public if function not in refused]


def twice(edits):
    """The labels that two edits have: in the copy one would take the place of the other."""
    labels = [edit.label for edit in edits]
    return sorted({label for label in labels if labels.count(label) > 1})


def main(wanted):
    if wanted[:1] == ["--try"]:
        return try_the_tool(pathlib.Path(wanted[1]))
    by_crate = {}
    for name in repository.crates():
        edits = [trial_of(edit.path) for edit in repository.edits(name)]
        by_crate[name] = [e for e in edits if not wanted or name in wanted or e.name in wanted]
    verdicts = try_all(by_crate)
    refused = sum(right and edit.counted for edit, right in verdicts)
    failed = sum(not right for _, right in verdicts)
    bare = [path for name in by_crate if not wanted or name in wanted for path in without_own(name, by_crate[name])]
    faults = [fault(f"wrong: {path} has no edit that is refused at its own promise") for path in bare]
    if not verdicts:
        faults.append(fault("wrong: no edit was tried"))
    faults += [fault(f"wrong: {name} has two edits {label}") for name in by_crate for label in twice(by_crate[name])]
    print("".join(f"{one}\n" for one in faults) + f"{refused} wrong answers refused, {failed} not")
    return 1 if failed or faults else 0


if __name__ == "__main__":
    sys.exit(main(sys.argv[1:]))
