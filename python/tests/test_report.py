"""ducat report: the page, read with html.parser: each error and each line of a binding at its place, nothing that runs or loads, everything escaped."""
import json
import os
import re
import unittest
from html.parser import HTMLParser

import support
from command import STEP, CommandTest
from ducatmuffin import page
from ducatmuffin.places import Source

VOID = {"meta", "br", "path", "rect"}
ALLOWED = frozenset("html head meta title style body header h1 h2 h3 h4 p nav ul ol li a main section div table caption thead tbody tr th td br details summary span mark "
                    "figure figcaption code b pre svg path rect".split())
POLICY = "default-src 'none'; style-src 'unsafe-inline'"
HREF = re.compile(r"#[a-z0-9]+")


class Element:
    def __init__(self, tag, attributes, above=None):
        self.tag, self.attributes, self.above, self.children = tag, attributes, above, []

    def all(self, tag, **wanted):
        for child in self.children:
            if isinstance(child, Element):
                if child.tag == tag and all(child.attributes.get(key.rstrip("_").replace("_", "-")) == value for key, value in wanted.items()):
                    yield child
                yield from child.all(tag, **wanted)

    def one(self, tag, **wanted):
        found, = self.all(tag, **wanted)
        return found

    @property
    def text(self):
        return "".join(child if isinstance(child, str) else child.text for child in self.children)


class Page(HTMLParser):
    """A page as a tree. Each element must be closed, and be one that the page may have."""

    def __init__(self, data):
        super().__init__()
        self.root = self.at = Element("", {})
        self.faults, self.ids, self.links = [], [], []
        self.feed(data)
        self.close()
        if self.at is not self.root:
            self.faults.append(f"{self.at.tag} is not closed")

    def handle_starttag(self, tag, attributes):
        if tag not in ALLOWED:
            self.faults.append(f"the element {tag}")
        for key, value in attributes:
            if key.startswith("on") or key in ("src", "srcset", "action", "data", "xlink:href", "style", "background", "formaction", "poster"):
                self.faults.append(f"the attribute {key}")
            if key == "href":
                self.links.append(value)
            if key == "id":
                self.ids.append(value)
        made = Element(tag, dict(attributes), self.at)
        self.at.children.append(made)
        if tag not in VOID:
            self.at = made

    def handle_startendtag(self, tag, attributes):
        self.handle_starttag(tag, attributes)
        if tag not in VOID:
            self.handle_endtag(tag)

    def handle_endtag(self, tag):
        if tag in VOID:
            return
        if self.at.tag != tag:
            self.faults.append(f"{tag} ends in {self.at.tag}")
            return
        self.at = self.at.above

    def handle_data(self, data):
        self.at.children.append(data)

    def handle_comment(self, data):
        self.faults.append("a comment")

    def wrong(self):
        """What no page may have."""
        faults = list(self.faults)
        faults += [f"the link {href}" for href in self.links if not HREF.fullmatch(href)]
        faults += [f"a link to {href}" for href in set(self.links) - {f"#{one}" for one in self.ids}]
        faults += [f"the id {one} twice" for one in self.ids if self.ids.count(one) > 1] if len(self.ids) < 5000 else []
        style = "".join(element.text for element in self.root.all("style"))
        faults += [f"{word} in the style" for word in ("url(", "@import", "expression(", "</") if word in style.lower()]
        policies = [meta.attributes["content"] for meta in self.root.all("meta", http_equiv="Content-Security-Policy")]
        faults += [] if policies == [POLICY] else [f"the policies {policies}"]
        return faults


class ReportTest(CommandTest):
    def report(self, status, *words, **more):
        """The page of a run, on which nothing is wrong."""
        out = self.at("report.html")
        ran = self.run_ducat("report", *words, "-o", out, **more)
        self.assertEqual(ran.status, status, ran.err)
        with open(out, "rb") as file:
            data = file.read()
        self.assertEqual(ran.out.splitlines()[-1], f"written {len(data)}")
        made = Page(data.decode())
        self.assertEqual(made.wrong(), [])
        return made.root

    def told(self, command, *words):
        return json.loads(self.run_ducat(command, "--json", *words).out)["inputs"]


class Errors(ReportTest):
    def check_errors(self, root, entries, key="i"):
        """Each error of the JSON of a check is marked in the text of its script, with its words below and a link to the earlier name."""
        for number, entry in enumerate(entries, 1):
            if "errors" not in entry:
                continue
            part = root.one("details", id=f"{key}{number}")
            for at, told in enumerate(entry["errors"], 1):
                mark = f"i{number}e{at}"
                path = told["script"]["name"]
                with open(path if os.path.isabs(path) else os.path.join(support.ROOT, path), "rb") as file:
                    source = Source(path, file.read())
                self.check_mark(part, mark, source, told)
                below = part.one("span", class_="w", data_w=mark)
                self.assertTrue(below.text.startswith(f"{told['line']}:{told['column']} {told['number'] or ''}".rstrip() + " "), below.text)
                self.assertIn(told["words"], below.text)
                self.assertEqual(self.line_of(below), told["line"])
                if "earlier" in told:
                    self.check_mark(part, f"{mark}p", source, told["earlier"])
                    self.assertIn(f"#{mark}p", [link.attributes["href"] for link in below.all("a")])

    def check_mark(self, part, mark, source, told):
        """The marks of a key have the span's text, from its line on."""
        marks = [one for one in part.all("mark") if mark in one.attributes["data-e"].split()]
        span = source.bytes[told["begin"]:told["end"]].decode()
        self.assertEqual("".join(one.text for one in marks), span.replace("\n", "").replace("\r", ""), mark)
        self.assertEqual(self.line_of(part.one("span", id=mark)), told["line"])
        item = part.one("span", id=mark).above
        before = ""
        for child in item.children:
            if isinstance(child, Element) and child.attributes.get("id") == mark:
                break
            before += child if isinstance(child, str) else child.text
        self.assertEqual(len(before) + 1, told["column"], mark)

    @staticmethod
    def line_of(element):
        while element.tag != "li":
            element = element.above
        return [one for one in element.above.children if isinstance(one, Element)].index(element) + 1

    def test_every_sample(self):
        names = [f"samples/{name}.star" for name in support.samples(".star")]
        for dialect in ("standard", "all"):
            words = (*names, "--dialect", dialect)
            self.check_errors(self.report(1, *words), self.told("check", *words))

    def test_tables_with_their_scripts(self):
        names = ["samples/example.table", "samples/whole.table", "samples/take.table", "samples/joined.table"]
        root = self.report(1, *names)
        self.check_errors(root, self.told("check", *names))
        self.assertEqual(len(list(root.all("h4"))), 4 + 1 + 4)  # texts, two for the joined table; calls

    def test_spans_in_each_other_and_empty_lines(self):
        path = self.put("x.star", "\n\ndef f(a, a,\n      b=1, c):\r\n  return (lambda x, x: [\n    1 for 2 in y])(a=1, a=2)\n\nbreak")
        root = self.report(1, path, "--dialect", "standard")
        entry, = self.told("check", path, "--dialect", "standard")
        self.assertGreater(len(entry["errors"]), 4)
        self.check_errors(root, [entry])
        with open(path, "rb") as file:
            lines = file.read().decode().replace("\r", "").split("\n")
        items = [self.without_words(item) for item in root.one("ol", class_="src").all("li")]
        self.assertEqual(items, lines)

    def without_words(self, item):
        return "".join(child if isinstance(child, str) else child.text for child in item.children
                       if isinstance(child, str) or child.attributes.get("class") != "w")

    def test_not_starlark(self):
        path = self.put("x.star", "def f(): pass\nf(1 2)\n")
        root = self.report(1, path)
        self.check_errors(root, self.told("check", path))
        self.assertIn("not Starlark", root.one("summary").text)
        self.report(1, self.put("end.star", "f("))

    def test_joined_scripts(self):
        words = ("--join", "samples/joined.1.star", "samples/joined.2.star", "--dialect", "all")
        root = self.report(1, *words)
        self.check_errors(root, self.told("check", *words))
        self.assertEqual(len(list(root.all("ol", class_="src"))), 2)
        links = [link.text for link in root.all("a") if link.attributes["href"].startswith("#i1f")]
        self.assertIn("samples/joined.2.star:2:1", links)
        self.assertIn("samples/joined.1.star:2:1", links)

    def test_without_a_script(self):
        root = self.report(1, self.put("alone.table", support.sample("example.table")))
        self.assertIn("source file 1, bytes 14 to 15", root.one("details").text)
        self.assertIn("Without its script no call is paired", root.one("details").text)


class Calls(ReportTest):
    def check_calls(self, root, entries):
        """Each pair of the JSON of a bind has its drawing: its lines in words, and drawn from each argument's row to its parameter's."""
        for number, entry in enumerate(entries, 1):
            figures = list(root.one("details", id=f"i{number}").all("figure"))
            self.assertEqual(len(figures), len(entry["pairs"]))
            for figure, pair in zip(figures, entry["pairs"]):
                self.check_pair(figure, pair)

    def check_pair(self, figure, pair):
        links = [link.text.rpartition(".star:")[2] for link in figure.one("figcaption").all("a")]
        self.assertEqual(links, [f"{told['line']}:{told['column']}" for told in (pair["call"], pair["def"])])
        drawing = figure.one("svg", role="img")
        words = drawing.attributes["aria-label"]
        if "refused" in pair:
            self.assertEqual(words, figure.one("p", class_="bad").text)
            self.assertTrue(words.startswith(f"refused {pair['refused']['number']}"))
            self.assertEqual(list(drawing.all("path")), [])
            return
        left, right, modes = (column.text.split("\n") for column in figure.all("pre"))
        for row, parameter in enumerate(pair["parameters"]):
            self.assertIn(f"{parameter['name']}, {parameter['mode']}: ", words)
            self.assertEqual(right[row].lstrip("*"), parameter["name"])
            self.assertEqual(modes[row], parameter["mode"] + (", default" if parameter["default"] else ""))
        begins = sorted({told["begin"] for parameter in pair["parameters"] for told in parameter["arguments"]})
        named = {told["begin"] for told in pair.get("namesakes", ())}
        wanted = {(begins.index(told["begin"]), row, told["begin"] in named) for row, parameter in enumerate(pair["parameters"]) for told in parameter["arguments"]}
        stubs = {row for row, parameter in enumerate(pair["parameters"]) if parameter["default"]}
        self.assertEqual(self.lines(drawing), (wanted, stubs))
        self.assertEqual(len(left) if left != [""] else 0, len(begins))
        for told in pair.get("namesakes", ()):
            self.assertIn(f"reaches {told['reaches']}", "".join(one.text for one in figure.all("p", class_="swap")))

    def lines(self, drawing):
        """The lines and stubs of a drawing by their rows."""
        lines, stubs = set(), set()
        for path in drawing.all("path"):
            kind = path.attributes["class"]
            for move in path.attributes["d"].split("M")[1:]:
                at, down, bent, *more = re.fullmatch(r"(\d+) (\d+)(?:h(\d+)|C.* (\d+) (\d+))", move).groups()
                if kind == "d":
                    stubs.add(int(down) // page.ROW)
                elif kind != "o":
                    lines.add((int(down) // page.ROW, int(more[1] or down) // page.ROW, kind == "s"))
                self.assertEqual(int(at) + int(bent) if bent else int(more[0]), page.GAP)
        return lines, stubs

    def test_every_sample(self):
        names = [f"samples/{name}.star" for name in support.samples(".star")]
        self.check_calls(self.report(1, *names, "--dialect", "all"), self.told("bind", *names, "--dialect", "all"))
        joined = ("--join", "samples/joined.1.star", "samples/joined.2.star")
        self.check_calls(self.report(1, *joined), self.told("bind", *joined))

    def test_every_kind_of_line(self):
        path = self.put("x.star", "def f(a, b=1, *c, d, e=1, **g): pass\nf(1, d=2)\nf(1, 2, 3, b, d=a, x=4, y=5)\nf(d=1, a=b)\nf()\ndef n(): pass\nn()\n")
        root = self.report(1, path)
        self.check_calls(root, self.told("bind", path))
        kinds = [{one.attributes["class"] for one in figure.all("path")} for figure in root.all("figure")]
        self.assertEqual(kinds, [{"a", "b", "d"}, {"a", "c", "d", "s", "o"}, {"b", "d", "s", "o"}, set(), set()])

    def test_exchanged_calls_are_seen(self):
        root = self.report(1, "samples/take.star", "--dialect", "all")
        self.assertIn("3 calls with exchanged arguments", root.one("summary").text)
        notes = [one.text for one in root.all("p", class_="swap")]
        self.assertEqual(notes[0], "exchanged: tracks (10:10) reaches trains, and trains (10:18) reaches tracks")
        self.assertEqual(len(notes), 3)

    def test_a_large_script(self):
        more = "".join(f"def f{at}(): return [{'1, ' * 1000}]\n" for at in range(3))
        path = self.put("x.star", f"def order(trains, tracks): pass\n{more}order(tracks, trains)\norder(trains, [{'1, ' * 2090}])\n")
        self.assertEqual(self.run_ducat("report", path, "-o", self.at("no.html")).status, 2)
        path = self.put("x.star", f"def order(trains, tracks): pass\n{more}order(tracks, trains)\norder(trains, [{'1, ' * 1090}])\nf0(1)\n")
        self.check_calls(self.report(1, path), self.told("bind", path))

    def test_more_than_are_drawn(self):
        path = self.put("x.star", "def f(): pass\n" * 46 + "f()\n" * 46)
        root = self.report(0, path)
        self.assertEqual(len(list(root.all("figure"))), 2000)
        self.assertIn("116 more pairs are not drawn", root.one("details").text)

    def test_another_s_script(self):
        root = self.report(2, "samples/take.table", "--script", "samples/clean.star")
        self.assertIn("No call is drawn: samples/clean.star is not the table's script", root.one("details").text)


class Whole(ReportTest):
    def test_refused_tables_come_first(self):
        root = self.report(2, "samples", "samples/missing.table")
        self.assertEqual([heading.text for heading in root.all("h2")][:2], ["Refused tables", "Inputs that are not read or have no table"])
        refused = next(root.all("table"))
        rows = [[cell.text for cell in row.children if isinstance(cell, Element)] for row in refused.all("tr")][1:]
        told = self.told("check", "samples", "samples/missing.table")
        refused = [(entry["name"], str(entry["refused"]["number"])) for entry in told if "refused" in entry]
        self.assertGreater(len(refused), 3)
        self.assertEqual([(row[0], row[1]) for row in rows], refused)
        self.assertIn("the file ends after 1500 bytes", next(row[3] for row in rows if row[0] == "samples/cut.table"))
        self.assertIn("samples/missing.table", root.text)
        self.assertEqual(len(list(root.all("details"))), len(told) - len(refused) - 1)

    def test_dialects(self):
        root = self.report(1, "samples/toplevel.table", "samples/toplevel-standard.table", "samples/clean.table", "samples/example.table")
        table = next(one for one in root.all("table") if one.one("caption").text == "Inputs by their dialect")
        rows = [[cell.text for cell in row.children if isinstance(cell, Element)][:2] for row in table.all("tr")][1:]
        counts = {}
        for entry in self.told("check", "samples/toplevel.table", "samples/toplevel-standard.table", "samples/clean.table", "samples/example.table"):
            name = entry["dialect"]["name"] + ("" if entry["dialect"]["given"] else ", as none is given")
            counts[name] = counts.get(name, 0) + 1
        self.assertEqual({name: int(many) for name, many in rows}, counts)

    def test_figures(self):
        """The figures of a page are those of `ducat figures` over the same table files."""
        names = ["samples/example.table", "samples/whole.table", "samples/take.table", "samples/joined.table", "samples/lambda.table"]
        root = self.report(1, *names)
        told = dict(line.rsplit(" ", 1) for line in self.run_ducat("figures", *names).out.splitlines())
        for caption, key in (("Errors of the module pass", "error {}"), ("Parameters of accepted lists", "mode {}")):
            table = next(one for one in root.all("table") if one.one("caption").text.startswith(caption))
            rows = [[cell.text for cell in row.children if isinstance(cell, Element)] for row in table.all("tr")][1:]
            for at, (name, many, _) in enumerate(rows, 1):
                self.assertEqual(many, told[key.format(name.partition(":")[0] if "error" in key else at)], name)
            self.assertEqual(sum(int(row[1]) for row in rows), sum(int(many) for name, many in told.items() if name.startswith(key[:4])))
        section = next(one for one in root.all("section", aria_labelledby="figures"))
        self.assertIn(f"5 tables, {told['nodes']} nodes, {told['lists']} parameter lists, {told['calls accepted']} calls with accepted arguments, "
                      f"{told['calls refused']} call", section.text)

    def test_books(self):
        books = ("--books", "samples/zones.book", "samples/line.book")
        root = self.report(0, "samples/clean.table", *books)
        table = next(one for one in root.all("table") if "zone book" in one.one("caption").text)
        rows = [[cell.text for cell in row.children if isinstance(cell, Element)] for row in table.all("tr")]
        self.assertEqual(rows[0][1:], [f"setting {n}" for n in (1, 3, 4, 5, 6)])
        self.assertEqual([(row[0], "".join(cell[0] for cell in row[1:])) for row in rows[1:]],
                         [("zone 7", "LZZZZ"), ("zone 12", "LLZZZ"), ("other zones", "LLLLL")])
        for zone, row in ((7, rows[1]), (12, rows[2]), (8, rows[3])):
            for setting, cell in zip((1, 3, 4, 5, 6), row[1:]):
                said = self.run_ducat("book", "lookup", "--explain", *books[1:], str(zone), str(setting)).out
                self.assertIn(f"dialect {cell[2:]}:", said)
        zones, line = support.library().book_blank(4), support.library().book_blank(1)
        for at in range(1, 65):
            zones = support.library().book_add(zones, line, at, 1000 + at, bytes(9)).zone_book
        root = self.report(0, "samples/clean.table", "--books", self.put("zones", zones), self.put("line", line))
        table = next(one for one in root.all("table") if one.one("caption").text.startswith("The entries"))
        self.assertEqual([row.text for row in table.all("tr")][1:], [f"zone{at}{1000 + at}000000000" for at in range(1, 65)])
        root = self.report(2, "samples/clean.table", "--books", "samples/damaged.book", "samples/line.book")
        self.assertIn("refused 95", root.text)
        words = ("samples/take.star", *books, "--zone", "12", "--setting", "4")
        self.assertIn("dialect all", self.report(1, *words).one("details").text)

    def test_expectations(self):
        root = self.report(1, "samples/take.star", "samples/clean.star", "--dialect", "all", "--expect", "take.trains=trains")
        table = next(one for one in root.all("table") if one.one("caption").text.startswith("Every call must pass"))
        rows = [[cell.text for cell in row.children if isinstance(cell, Element)] for row in table.all("tr")][1:]
        self.assertEqual(rows[0][:3], ["take.trains=trains", "samples/take.star", "not met"])
        self.assertIn("10:10 trains takes tracks, not trains", rows[0][3])
        self.assertEqual(rows[1][2:], ["not met", "take is defined nowheretake is never called"])
        root = self.report(1, self.put("alone.table", support.sample("clean.table")), "--expect", "take.trains=trains")
        self.assertIn("the input has no script, and a table has no names of defs", root.text)
        self.report(2, "samples/take.table", "--script", "samples/clean.star", "--expect", "take.trains=trains")

    def test_status(self):
        path = self.put("x.star", "def order(trains, tracks): pass\norder(tracks, trains)\n")
        self.report(0, path)
        self.report(1, path, "--strict")
        self.report(0, path, "--strict", "--expect", "order.trains=tracks", "--expect", "order.tracks=trains")

    def test_everything_is_escaped(self):
        evil = "\"'><script>alert(1)</script><img src=x onerror=alert(1)>&amp;"
        text = f"def f(a, b): pass\nf({json.dumps(evil)}, 1)\n# {evil}\u202e\u0007\nf(1)\nf(1, 2, {json.dumps(evil)}, x='{evil[2:]}')\n"
        name = "<b onclick=x>&\"'\n\xff.star"
        path = self.put(name.encode("latin-1"), text)
        root = self.report(1, path, "--expect", "f.a=b")
        listed = [item.text for item in root.one("ol", class_="src").all("li")]
        self.assertEqual(listed[1], text.split("\n")[1])
        self.assertEqual(listed[2], f"# {evil}??")
        self.assertIn("<b onclick=x>&\"'?\ufffd.star", root.one("h3").text)
        table = self.put("<i>.table", support.sample("damaged.table"))
        self.assertIn("<i>.table", self.report(2, table).text)
        wrong = self.put("y.star", "x = <script>\n")
        self.assertIn("x = <script>", self.report(1, wrong).one("ol").text)

    def test_a_folded_page(self):
        for at in range(4):
            self.put(f"all/{at}.star", "def f(a): pass\nf(1)\n")
        self.put("all/1.star", "break\n")
        root = self.report(1, self.at("all"))
        self.assertEqual([("open" in one.attributes, one.one("h3").text[-6:]) for one in root.all("details")],
                         [(False, "1.star"), (False, "0.star"), (False, "2.star"), (False, "3.star")])
        self.assertEqual(["open" in one.attributes for one in self.report(0, self.at("all/0.star")).all("details")], [True])

    def test_words_and_files(self):
        for words, said in ((("samples/take.star",), "the following arguments are required: -o"), (("-o", self.at("x.html")), "no PATH is given"),
                            (("samples", "-o", "-"), "-o needs the name of a file"), (("samples", "-o", "x.star"), "this is a script's name"),
                            (("samples", "-o", self.at("x.html"), "--zone", "1"), "--books, --zone and --setting go together"),
                            (("samples/take.star", "-o", self.at("no/x.html")), "No such file or directory")):
            ran = self.run_ducat("report", *words)
            self.assertEqual((ran.status, ran.out), (2, ""), words)
            self.assertIn(said, ran.err)
        self.alone()
        own = self.put("own.table", support.sample("clean.table"))
        for words in ((own, "-o", own), ("samples/clean.table", "-o", own, "--books", own, own), ("--join", self.put("a.star", ""), "-o", self.at("a.html"))):
            if "--join" in words:
                os.symlink(self.at("a.star"), self.at("a.html"))
            ran = self.run_ducat("report", *words)
            self.assertEqual((ran.status, "it is an input" in ran.err), (2, True), words)
        self.assertEqual(self.read("own.table"), support.sample("clean.table"))
        out = self.at("x.html")
        told = json.loads(self.run_ducat("report", "samples/clean.table", "-o", out, "--json").out)
        self.assertEqual((told["command"], told["status"], told["output"]["bytes"], told["totals"]["files"]), ("report", 0, os.path.getsize(out), 1))
        self.says(0, None, STEP, "report", self.put("e.star", ""), "-o", out)
        self.says(2, None, None, "report", self.room + "/none", "-o", out)
        os.mkdir(self.at("empty"))
        ran = self.run_ducat("report", self.at("empty"), "-o", out)
        self.assertEqual((ran.status, "is found in this folder" in ran.err), (2, True))

    def test_the_parser_of_this_test_can_fail(self):
        for text in ("<script>x</script>", '<p onclick="x">', '<a href="http://x">', '<img src="x">', "<p>", '<a href="#nothing"></a>',
                     '<p style="color:url(x)"></p>', "<style>@import 'x'</style>"):
            data = page.whole("x", [text]).decode()
            self.assertNotEqual(Page(data).wrong(), [], text)
        self.assertEqual(Page(page.whole("x", ["<p>y</p>"]).decode()).wrong(), [])


if __name__ == "__main__":
    unittest.main()
