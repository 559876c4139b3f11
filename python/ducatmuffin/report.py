"""ducat report: one page of what `ducat check` and `ducat bind` find, for people who would rather look than read.

The page has no script and loads nothing. What it says about a table is the library's answer; the page itself counts only the files by dialect.
"""
from . import book, check, dialects, files, page, scripts
from .bind import MODES, Places, Tree, Whole, counted
from .check import ACCEPTED, ERRORS, NO_TABLE, OTHER, REFUSED, STEP, SYNTAX, UNREADABLE, Answer, Checker, Totals
from .expect import Expectations
from .library import COUNTED_ERRORS, NO_FIGURES, BookRefusal, Refusal
from .numbers import WORDS
from .output import Failed, Progress, Report, digest, named, say
from .table import file_of

DRAWN = 2000  # the most pairs of an input that are drawn
OPEN = 3  # the number of inputs that are shown unfolded
CELLS = 4000  # the most cells of the books' grid
WORD = {ACCEPTED: "no errors", SYNTAX: "not Starlark", REFUSED: "refused", UNREADABLE: "not read", NO_TABLE: "without a table",
        OTHER: "of another dialect"}


class Shown:
    """One input: its JSON, as `ducat check` has it, and its part of the page. `calls` counts its pairs by their result."""

    def __init__(self, number, found, entry):
        self.key, self.found, self.entry, self.name, self.held = f"i{number}", found, entry, page.name(found.one.name), found.scripts or scripts.NONE
        self.calls, self.anchors, self.part, self.judged, self.expected, self.status = {}, {}, "", [], [], 0

    def place(self, told):
        """A place in words."""
        return "{}:{}".format(told["line"], told["column"]) if "line" in told else "source file {file}, bytes {begin} to {end}".format(**told)

    def line(self, told):
        """A place as a link to its line, if there is a script."""
        if "line" not in told:
            return self.place(told)
        self.anchors.setdefault(self.text_of(told["file"]), set()).add(told["line"])
        return f'<a href="#{self.prefix(told["file"])}{told["line"]}">{self.script(told)}{self.place(told)}</a>'

    def script(self, told):
        """The name of a place's script, if there are several."""
        return page.name(self.held.of(told["file"]).path) + ":" if len(self.held.by_file) > 1 else ""

    def text_of(self, file):
        """The number of the text for a source file number: one script may be that of all."""
        return 0 if self.held.every else file

    def prefix(self, file):
        return f"{self.key}f{self.text_of(file)}l"

    def expect(self):
        """The results of the expectations: for each its text, its result, and why it is not met."""
        for one in self.judged:
            why = [f"{self.line(unmet.told)} {page.text(unmet.words)}" if unmet.told else page.text(unmet.words) for unmet in one.unmet]
            self.expected.append((f"<code>{page.text(one.text)}</code>", page.text(one.came), "<br>".join(why)))

    @property
    def came(self):
        """The result, in words."""
        verdict = self.found.verdict
        words = [counted(self.found.total, "error") if verdict == ERRORS else WORD[verdict]]
        for key, said in (("refused", "{} refused"), ("exchanged", "{} with exchanged arguments"), ("namesake", "{} with a namesake"),
                          ("not_judged", "{} not judged")):
            if self.calls.get(key):
                words.append(said.format(counted(self.calls[key], "call")))
        unmet = sum(not one.met for one in self.judged)
        return ", ".join(words + ([f"{counted(unmet, 'expectation')} not met"] if unmet else []))

    @property
    def fine(self):
        return self.came == WORD[ACCEPTED]


class Maker:
    """Makes the page of a run."""

    def __init__(self, library, options):
        self.library, self.options = library, options
        how = check.Options(explain=True, json=True, dialect=options.dialect, scripts=options.scripts, format="json",
                            edition=options.edition)
        how.by_books = options.zone is not None
        self.checker, self.totals, self.inputs, self.status = Checker(library, how), Totals(), [], 0
        self.expectations, self.figures, self.uncounted = Expectations(options.expectations), NO_FIGURES, 0

    def add(self, one):
        found = self.checker.found(one)
        self.totals.add(Answer(found.verdict, found.total))
        shown = Shown(len(self.inputs) + 1, found, self.checker.entry(found))
        self.inputs.append(shown)
        if found.verdict in (ACCEPTED, ERRORS):
            self.figure(found)
            calls = self.calls_of(shown)
            shown.expect()
            shown.part = f"{self.texts(shown)}<h4>Calls</h4>\n{calls}"  # the parts before determine which lines links lead to
        else:
            shown.judged = self.expectations.unmet(f"the input is {WORD[found.verdict]}")
            shown.expect()
            shown.part = self.texts(shown) if found.verdict == SYNTAX else ""
        self.status = max([self.status, shown.status, *(int(not one.met) for one in shown.judged)])
        found.pieces = found.data = found.statements = None  # it is no longer needed

    def figure(self, found):
        """Adds the figures of an input's tables: the library reads and counts the table file of each."""
        for piece in found.pieces:
            answer = self.library.figures_step(file_of(piece.table, piece.names, found.dialect), self.figures)
            if type(answer) is Refusal:
                self.uncounted += 1
            else:
                self.figures = answer.figures

    # ---- the calls of an input

    def calls_of(self, shown):
        if not shown.held:
            shown.judged = self.expectations.unmet("the input has no script, and a table has no names of defs")
            return "<p>Without its script no call is paired with a def: a table has no names of defs.</p>\n"
        try:
            return self.calls(shown, self.world(shown.found, shown.held))
        except Failed as error:
            shown.status, shown.judged = 2, self.expectations.unmet("the input is not bound to its script")
            return f'<p class="bad">No call is drawn: {page.text(str(error))}</p>\n'

    def world(self, found, held):
        if len(found.pieces) == 1:
            tree = Tree(found.table, found.names)
            return Whole(self.library, tree, Places(tree, held))
        from .wide import Wide
        return Wide(self.library, found)

    def calls(self, shown, world):
        """A drawing of each call with each def of its name."""
        seen, parts, alone, pairs = self.expectations.start(), [], 0, 0
        for call, of_call in world.paired():
            seen.see(world, call, of_call)
            alone += not of_call
            for pair in of_call:
                pairs += 1
                self.count(shown, pair)
                if pairs <= DRAWN:
                    parts.append(self.call(shown, world, pair))
        shown.judged = seen.judged(world)
        parts = ['<div class="calls">\n', *parts, "</div>\n"] if parts else []
        if pairs > DRAWN:
            parts.append(f"<p>{pairs - DRAWN:,} more pairs are not drawn; <code>ducat bind</code> lists all.</p>\n")
        if alone or not pairs:
            parts.append(f"<p>Bound to no def: {counted(alone, 'call')}.</p>\n")
        return "".join([*parts, *(f"<p>{page.text(note)}</p>\n" for note in world.notes())])

    def count(self, shown, pair):
        exchanged = any(one.other for one in pair.unexpected)
        for key in (pair.judged, *(["exchanged" if exchanged else "namesake"] if pair.unexpected else [])):
            shown.calls[key] = shown.calls.get(key, 0) + 1
        shown.status = max(shown.status, pair.status, int(self.options.strict and bool(pair.unexpected)))

    def call(self, shown, world, pair):
        said = page.text(world.text(pair.call))
        top = f'<figure><figcaption>{shown.line(world.node_json(pair.call))} {said}, def {shown.line(world.node_json(pair.def_))}</figcaption>\n'
        if pair.beyond:
            return f'{top}<p class="bad">not judged: {page.text(pair.beyond)}</p></figure>\n'
        lines, refused = pair.lines(True), type(pair.answer) is Refusal
        below = "".join(f'<p class="{"bad" if refused else "swap"}">{page.text(line)}</p>' for line in (lines if refused else pair.namesake_lines()))
        return f'{top}{page.Drawing(pair, "; ".join(lines)).html()}{below}</figure>\n'

    # ---- the text of an input

    def texts(self, shown):
        """The text of each script with its errors marked, and the errors that are in no script."""
        marks, outside, held = {}, [], shown.held
        for number, told in enumerate(shown.entry["errors"], 1):
            if "line" in told:
                marks.setdefault(shown.text_of(told["file"]), []).extend(marks_of(shown, f"{shown.key}e{number}", told))
            else:
                outside.append((told["number"], shown.place(told), page.text(words_of(told))))
        parts = [page.table("Errors whose script is not known", ("number", "place", "meaning"), outside)] if outside else []
        for file, source in [(0, held.every)] if held.every else sorted(held.by_file.items()):
            parts.append(f"<h4>Text of {page.name(source.path)}</h4>\n")
            parts.append(page.listing(source, marks.get(file, []), shown.anchors.get(file, ()), shown.prefix(file)))
        return "".join(parts)


def words_of(told):
    return told["words"] + (f": {told['entries']} entries" if "entries" in told else "")


def marks_of(shown, key, told):
    """The marks of an error: its own, and that of the earlier name."""
    number, earlier = f"<b>{told['number']}</b> " if told["number"] is not None else "", told.get("earlier")
    said = f'<a href="#{key}">{shown.place(told)}</a> {number}{page.text(words_of(told))}'
    if earlier and "line" in earlier:
        said += f'; <a href="#{key}p">the earlier one is at {shown.place(earlier)}</a>'
        yield page.Mark(f"{key}p", earlier["begin"], earlier["end"], kind="p")
    yield page.Mark(key, told["begin"], told["end"], said)


# ---- the page

class Parts:
    """The sections of a page. A section without content is left out."""

    def __init__(self):
        self.sections = []

    def add(self, key, title, content):
        if content:
            self.sections.append((key, title, content))

    def text(self):
        links = "".join(f'<li><a href="#{key}">{title}</a></li>' for key, title, _ in self.sections)
        return f'<nav aria-label="Sections of this page"><ul>{links}</ul></nav>\n<main>\n' + "".join(
            f'<section aria-labelledby="{key}">\n<h2 id="{key}">{title}</h2>\n{content}</section>\n' for key, title, content in self.sections) + "</main>\n"


def page_of(maker, books, proved):
    """The page of a run as bytes."""
    inputs, totals, parts = maker.inputs, maker.totals, Parts()
    parts.add("refused", "Refused tables", refused_part([one for one in inputs if one.found.verdict == REFUSED]))
    parts.add("unread", "Inputs that are not read or have no table", unread_part([one for one in inputs if "failed" in one.entry]))
    parts.add("expected", "Expectations", expected_part(inputs))
    parts.add("figures", "Figures", figures_part(maker.figures, maker.uncounted))
    parts.add("dialects", "Files by dialect", dialects_part(inputs))
    parts.add("books", "Dialects by zone and setting", books)
    rest = [one for one in inputs if one.found.verdict in (ACCEPTED, ERRORS, SYNTAX)]
    parts.add("key", "How to read the drawings", page.key() if any(one.calls for one in rest) else "")
    opened = " open" if len(inputs) <= OPEN else ""
    parts.add("scripts", "Scripts and tables", "".join(input_part(one, opened) for one in sorted(rest, key=lambda one: one.fine)))
    line = page.text(totals.line())
    made = page.text(check.STEP[0].upper() + check.STEP[1:])
    title = f"ducat report: {line}"
    top = f"<header>\n<h1>ducat report</h1>\n<p>{line}.</p>\n<p class=\"dim\">{proved}. {made}.</p>\n</header>\n"
    return page.whole(title, [top, parts.text()])


def refused_part(inputs):
    rows = []
    for one in inputs:
        told = one.entry["refused"]
        known = [f"{key} {told[key]}" for key in ("block", "node") if key in told] + [told[key] for key in ("reason", "hint") if key in told]
        known.append(f"{one.entry['bytes']:,} bytes read, SHA-256 {one.entry['sha256']}")
        rows.append((one.name, told["number"], page.text(told["words"]), '<span class="sum">' + "<br>".join(map(page.text, known)) + "</span>"))
    return page.table("Nothing else is known about these", ("table file", "refused", "meaning", "what is known"), rows) if rows else ""


def unread_part(inputs):
    return page.table("These are not checked", ("input", "why"), [(one.name, page.text(one.entry["failed"])) for one in inputs]) if inputs else ""


def expected_part(inputs):
    rows = [(text, f'<a href="#{one.key}">{one.name}</a>' if one.part else one.name, came, why) for one in inputs for text, came, why in one.expected]
    return page.table("Every call must pass this name to this parameter", ("expectation", "input", "result", "why"), rows) if rows else ""


def figures_part(figures, uncounted):
    """The library's figures, as bars by error number and by mode."""
    if not figures.files:
        return ""
    errors = [(number, getattr(figures, f"error_{number}")) for number in COUNTED_ERRORS]
    modes = [(words, getattr(figures, f"mode_{mode}")) for mode, words in MODES.items()]
    said = (f"{counted(figures.files, 'table')}, {counted(figures.nodes, 'node')}, {counted(figures.lists, 'parameter list')}, "
            f"{counted(figures.calls_accepted, 'call')} with accepted arguments, {counted(figures.calls_refused, 'call')} with refused ones.")
    said += f" Not counted: {counted(uncounted, 'table')}." if uncounted else ""
    most = max(many for _, many in errors)
    rows = [(f"{number}: {page.text(WORDS[number])}", many, page.bar(many, most)) for number, many in errors if many]
    of_errors = page.table("Errors of the module pass by number; those that are not here have none", ("error", "how many", "as a bar"), rows) if rows else ""
    most = max(many for _, many in modes)
    rows = [(words, many, page.bar(many, most)) for words, many in modes]
    return f"<p>{said}</p>\n{of_errors or '<p>The module pass finds no error.</p>'}\n" + page.table(
        "Parameters of accepted lists, by how they take arguments", ("mode", "parameters", "as a bar"), rows)


def dialects_part(inputs):
    """The number of inputs with each dialect, counted here."""
    counts = {}
    for one in inputs:
        told = one.entry.get("dialect")
        name = "not known" if not told else told["name"] + ("" if told["given"] else ", as none is given")
        counts[name] = counts.get(name, 0) + 1
    most = max(counts.values(), default=0)
    rows = [(page.text(name), many, page.bar(many, most)) for name, many in sorted(counts.items(), key=lambda item: (-item[1], item[0]))]
    return page.table("Inputs by their dialect", ("dialect", "inputs", "as a bar"), rows) if rows else ""


def input_part(one, opened):
    told = one.entry.get("dialect")
    facts = [f"{one.found.nodes:,} nodes"] if one.found.nodes is not None else []
    facts += [f"dialect {page.text(told['name'])}"] if told else []
    facts += [f"SHA-256 {one.entry['sha256']}"] if "sha256" in one.entry else []
    kind = "dim" if one.fine else "bad"
    return (f'<details id="{one.key}"{opened}><summary><h3>{one.name}</h3> <span class="{kind}">{page.text(one.came)}</span></summary>\n'
            f'<p class="dim">{", ".join(facts)}</p>\n{one.part}</details>\n')


# ---- the books

def grid(library, books, names):
    """Which dialect each zone has at each setting, by the library's lookups; or why there is none."""
    first = library.book_lookup(*books, 0, 0)
    if type(first) is BookRefusal and first.number != 97:
        return f'<p class="bad">refused {first.number}: {page.text(first.words + book.Asked(books, names).why(first))}</p>\n', book.status_of(first)
    settings = sorted({entry.setting for data in books for entry in book.entries(data)})
    zones = sorted({entry.zone for entry in book.entries(books[0])})
    other = next(zone for zone in range(1, len(zones) + 2) if zone not in zones)
    if len(settings) * (len(zones) + 1) > CELLS:
        rows = [(book.BOOKS[at], f"{entry.zone}", f"{entry.setting}", entry.digits) for at, data in enumerate(books) for entry in book.entries(data)]
        return page.table("The entries; a grid of them is too large for a page", ("book", "zone", "setting", "dialect"), rows), 0
    rows = [(name, *(cell(library.book_lookup(*books, zone, setting)) for setting in settings))
            for name, zone in [*((f"zone {zone}", zone) for zone in zones), ("other zones", other)]]
    caption = ("Z: the zone book answers, L: the line book, &ndash;: neither (97). A setting between two columns is answered as the left one. "
               + f"Zone book {page.name(names[0])}, line book {page.name(names[1])}.")
    return page.table(caption, ("", *(f"setting {setting}" for setting in settings)), rows), 0


def cell(found):
    return "&ndash;" if type(found) is BookRefusal else f"{'ZL'[found.book]} <code>{page.text(dialects.name_of(found.dialect))}</code>"


# ---- the command

class Options:
    """How a page is made. `zone` is set if the dialect is that of the books."""

    def __init__(self, out, dialect=None, scripts=None, books=None, zone=None, expectations=(), strict=False, edition=None):
        self.out, self.dialect, self.scripts, self.books, self.zone = out, dialect, scripts, books, zone
        self.expectations, self.strict, self.edition = expectations, strict, edition


def run(library, options, found, out, front):
    """Writes the page, and prints what a check prints last. Returns the exit status. `front` is what JSON has first."""
    maker, progress, status, books = Maker(library, options), Progress(len(found)), 0, ""
    if any(one.script for one in found) and front is None:
        say(STEP)
    if options.books:
        books, status = grid(library, [book.read(name) for name in options.books], options.books)
    for done, one in enumerate(found, 1):
        maker.add(one)
        progress.step(done, maker.totals.faulty)
    progress.clear()
    about = f"Library {library.version}, {'proved' if library.proved else 'NOT proved'}, SHA-256 {library.checksum}"
    data = page_of(maker, books, about)
    try:
        files.write(options.out, data)
    except OSError as error:
        raise Failed(f"{options.out}: {error.strerror}") from None
    status = max(status, maker.status, maker.totals.status)
    if front is not None:
        report = Report(out, front)
        report.end(output={**named(options.out), "sha256": digest(data), "bytes": len(data)}, totals=maker.totals.in_json(), status=status)
    else:
        out.lines([maker.totals.line(), f"written {len(data)}"])
    return status
