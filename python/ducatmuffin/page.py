"""The parts of the page that `ducat report` writes: a script's text with its errors marked, and a call drawn with lines to the parameters that it reaches.

Everything from outside goes through `text` or `name`. The page has no script, loads nothing, and says so to the browser (POLICY). Only the attribute aria-label
has text from outside, quoted and escaped.
"""
import html
import os

from .bind import MODES, NAMED
from .library import Refusal
from .output import shown

POLICY = "default-src 'none'; style-src 'unsafe-inline'"
ROW, GAP, LONGEST = 24, 90, 32  # of a drawing: the pixels of a row and of the lines' width, and the characters of a text

STYLE = """
:root{color-scheme:light dark;--back:#fff;--fore:#1b1b1f;--dim:#5a5a66;--line:#d5d5de;--soft:#f4f4f8;--link:#0b57d0;--bad:#b3261e;--mark:#ffe1dd;
--early:#d8e9ff;--place:#1b5e9b;--name:#2e6b34;--more:#6b4a9b;--swap:#b3450b}
@media(prefers-color-scheme:dark){:root{--back:#17171b;--fore:#e6e6ea;--dim:#a2a2ad;--line:#3c3c46;--soft:#212127;--link:#9cc2ff;--bad:#ff9a90;
--mark:#5c211c;--early:#1d3d66;--place:#8fc3f5;--name:#93cf99;--more:#c7aef0;--swap:#ffa36b}}
*{box-sizing:border-box}
body{margin:0 auto;max-width:75rem;padding:1rem;background:var(--back);color:var(--fore);font:16px/1.5 system-ui,sans-serif;overflow-wrap:anywhere}
h1{font-size:1.6rem;margin:.5rem 0}h2{font-size:1.3rem;margin:2rem 0 .5rem}h3{font-size:1rem;display:inline;margin:0}h4{margin:1rem 0 .3rem}
a{color:var(--link)}:focus-visible{outline:3px solid var(--link);outline-offset:2px}:target{outline:2px dashed var(--link)}
code,pre,.src,figcaption{font-family:ui-monospace,"DejaVu Sans Mono",Menlo,Consolas,monospace}
.wide{overflow-x:auto;margin:.6rem 0}table{border-collapse:collapse}caption{text-align:left;color:var(--dim);padding:.2rem 0}
th,td{border:1px solid var(--line);padding:.25rem .6rem;text-align:left;vertical-align:top;overflow-wrap:break-word}td.n{text-align:right}
th code{white-space:nowrap}nav ul{display:flex;flex-wrap:wrap;gap:.2rem 1.5rem;list-style:none;padding:0}
details{border:1px solid var(--line);border-radius:.4rem;margin:.4rem 0;padding:.3rem .8rem}summary{cursor:pointer}
.dim{color:var(--dim)}.sum{overflow-wrap:anywhere}.bad{color:var(--bad)}.swap{color:var(--swap)}
.src{font-size:.85rem;background:var(--soft);margin:0;padding:.5rem .5rem .5rem 4.5em;border-radius:.3rem;tab-size:8}
.src li{white-space:pre-wrap}.src li::marker{color:var(--dim)}
mark{background:var(--mark);color:inherit;text-decoration:underline wavy var(--bad)}mark.p{background:var(--early);text-decoration:underline double}
mark:empty::before{content:"\\2038"}.w{display:block;white-space:normal;font-family:system-ui,sans-serif;color:var(--bad);border-left:3px solid var(--bad);padding-left:.5em}
.calls{display:grid;grid-template-columns:repeat(auto-fill,minmax(min(100%,26rem),1fr));gap:.8rem}
figure{display:grid;grid-template-columns:auto 90px auto 1fr;align-content:start;gap:0 .5rem;margin:0;padding:.5rem .7rem;border:1px solid var(--line);
border-radius:.3rem;min-width:0;overflow-x:auto;container-type:inline-size;break-inside:avoid}
figcaption,figure p{grid-column:1/-1;justify-self:start;position:sticky;left:0;max-width:100cqi;margin:0 0 .4rem;font-size:.9rem}
figure pre{margin:0;font-size:13px;line-height:24px}figure pre.dim{font-size:11px}
path{fill:none;stroke-width:2}.a{stroke:var(--place)}.b{stroke:var(--name);stroke-dasharray:8 4}.c{stroke:var(--more);stroke-dasharray:2 3}
.d{stroke:var(--dim);stroke-dasharray:1 5;stroke-linecap:round}path.s{stroke:var(--swap);stroke-width:4;stroke-dasharray:12 3 3 3}
path.o{stroke:var(--swap);stroke-width:1}
.bar{fill:var(--place)}td svg,th svg{display:inline-block;vertical-align:middle}
@media(max-width:40rem){th,td{padding:.2rem .3rem;min-width:4.5rem;overflow-wrap:anywhere}th code{white-space:normal}}
@media print{body{max-width:none;font-size:11pt}.calls{display:block}figure{margin:.4rem 0}details{border:0;padding:0}details::details-content{content-visibility:visible;block-size:auto}
.src{background:none}nav{display:none}}
"""


def text(words):
    """Words from outside, in one line, as text of the page or of an attribute in double quotes."""
    return html.escape("".join(c if c.isprintable() else "?" for c in words))


def name(path):
    """A file's name."""
    return text(os.fsencode(path).decode("utf-8", "replace"))


def code(data):
    """A part of a script's line. A character that is not printed, such as a mark that changes the direction of a text, is a ?; a tab is kept."""
    return html.escape("\t".join(shown(part) for part in data.rstrip(b"\r").split(b"\t")))


def whole(title, parts):
    """The page as bytes."""
    return "".join([
        '<!DOCTYPE html>\n<html lang="en">\n<head>\n<meta charset="utf-8">\n', f'<meta http-equiv="Content-Security-Policy" content="{POLICY}">\n',
        '<meta name="viewport" content="width=device-width, initial-scale=1">\n<meta name="color-scheme" content="light dark">\n',
        f"<title>{title}</title>\n<style>{STYLE}</style>\n</head>\n<body>\n", *parts, "</body>\n</html>\n"]).encode("utf-8", "replace")


def table(caption, head, rows):
    """A table of cells that are already escaped, as its caption is. A cell that begins with a digit is aligned to the right. A wide table scrolls separately."""
    cells = "".join(f'<th scope="col">{cell}</th>' for cell in head)
    lines = "".join("<tr>" + f'<th scope="row">{row[0]}</th>' + "".join(f"<td{' class=n' if str(cell)[:1].isdigit() else ''}>{cell}</td>" for cell in row[1:])
                    + "</tr>\n" for row in rows)
    return (f'<div class="wide" role="group" aria-label="{caption}" tabindex="0"><table><caption>{caption}</caption>\n<thead><tr>{cells}</tr></thead>\n'
            f"<tbody>\n{lines}</tbody></table></div>\n")


def bar(count, most):
    """A bar of a figure, beside its number."""
    width = round(160 * count / most) if most else 0
    return f'<svg aria-hidden="true" width="164" height="12"><rect class="bar" x="0" y="1" width="{max(width, 1 if count else 0)}" height="10"/></svg>'


# ---- a script's text

class Mark:
    """A span of a script that is marked: `key` is its anchor, `words` the line below it (HTML), `kind` the mark's class."""

    def __init__(self, key, begin, end, words=None, kind="e"):
        self.key, self.begin, self.end, self.words, self.kind = key, begin, end, words, kind


def listing(source, marks, anchors, prefix):
    """The lines of a script. `anchors` are the numbers of lines that links lead to."""
    data, on = source.bytes, {}
    for mark in marks:
        last = source.line_at(max(mark.begin, min(mark.end, len(data)) - 1))
        for line in range(source.line_at(mark.begin), last + 1):
            on.setdefault(line, []).append(mark)
    out, starts = ['<ol class="src">\n'], source.starts
    lines = len(starts) - (starts[-1] == len(data) and len(starts) - 1 not in on)
    for line in range(lines):
        begin = starts[line]
        end = starts[line + 1] - 1 if line + 1 < len(starts) else len(data)
        out.append(f'<li id="{prefix}{line + 1}">' if line + 1 in anchors else "<li>")
        out.append(marked(data, begin, end, on[line]) if line in on else code(data[begin:end]))
        out.append("</li>\n")
    return "".join([*out, "</ol>\n"])


def marked(data, begin, end, marks):
    """A line with marks, cut where one begins or ends, and below it the words of those that begin in it."""
    cuts = sorted({begin, end, *(at for mark in marks for at in (mark.begin, mark.end) if begin < at < end)})
    out = []
    for first, last in zip(cuts, cuts[1:] + [None]):
        for mark in marks:
            if mark.begin == first:
                empty = f'<mark class="{mark.kind}" data-e="{mark.key}"></mark>' if mark.end <= first or first == end else ""
                out.append(f'<span id="{mark.key}"></span>{empty}')
        if last is None:
            break
        over = [mark for mark in marks if mark.begin <= first and last <= mark.end]
        said = code(data[first:last])
        kind = "e" if any(mark.kind == "e" for mark in over) else "p"
        out.append(f'<mark class="{kind}" data-e="{" ".join(mark.key for mark in over)}">{said}</mark>' if over else said)
    return "".join(out + [f'<span class="w" data-w="{mark.key}">{mark.words}</span>' for mark in marks if mark.words and begin <= mark.begin <= end])


# ---- a call

class Drawing:
    """A call with the parameters of a def: arguments on the left, parameters on the right, and lines between them. An argument's line is by position,
    by name, or collected; a parameter that takes its default has a stub. An argument with the name of another parameter has another kind of line, and a thin
    one to that parameter. Texts are columns of lines beside the drawing, so that a page of many calls stays small."""

    CLASSES = {"position": "a", "name": "b", "collected": "c", "default": "d", "exchanged": "s", "own name": "o"}

    def __init__(self, pair, words):
        self.pair, self.words, self.refused = pair, words, type(pair.answer) is Refusal
        self.arguments, self.parameters = pair.binder.arguments_of(pair.nodes[0]), pair.binder.flat_of(pair.nodes[1])
        self.taken = [] if self.refused else list(pair.binder.taken(pair.answer, *pair.nodes))

    def lines(self):
        """Each line: the argument's row, or None, the parameter's row, and which kind it is."""
        named, records = {one.argument for one in self.pair.namesakes}, self.pair.binder.tree.records
        rows = {node: row for row, node in enumerate(self.arguments)}
        for row, (_, mode, taken) in enumerate(self.taken):
            if taken is None:
                yield None, row, "default"
            for node in taken or ():
                how = "collected" if mode in (4, 5) else "name" if records[node].kind == NAMED else "position"
                yield rows[node], row, "exchanged" if node in named else how
        for one in self.pair.namesakes:
            yield rows[one.argument], self.parameters.index(one.parameter), "own name"

    def column(self, nodes, said):
        """Texts below each other; the one that a refusal names is marked."""
        refused = self.pair.answer.node if self.refused else None
        return "\n".join(f"<b class=bad>{text(cut(said(node)))}</b>" if node == refused else text(cut(said(node))) for node in nodes)

    def paths(self):
        """The lines, those of a kind in one path."""
        drawn = {}
        for argument, parameter, how in self.lines():
            drawn.setdefault(how, []).append(curve(argument, parameter))
        return "".join(f'<path class="{self.CLASSES[how]}" d="{"".join(lines)}"/>' for how, lines in drawn.items())

    def html(self):
        high, binder = ROW * max(len(self.arguments), len(self.parameters), 1), self.pair.binder
        modes = "\n".join(MODES[mode] + (", default" if taken is None else "") for _, mode, taken in self.taken)
        return (f'<pre>{self.column(self.arguments, self.pair.places.text)}</pre>'
                f'<svg role="img" aria-label="{text(self.words)}" width="{GAP}" height="{high}">{self.paths()}</svg>'
                f'<pre>{self.column(self.parameters, binder.parameter)}</pre><pre class="dim">{modes}</pre>')


def curve(argument, parameter):
    """A line from an argument's row to a parameter's, or a stub."""
    to = ROW * parameter + ROW // 2
    if argument is None:
        return f"M{GAP - 20} {to}h20"
    at, middle = ROW * argument + ROW // 2, GAP // 2
    return f"M0 {at}h{GAP}" if at == to else f"M0 {at}C{middle} {at} {middle} {to} {GAP} {to}"


def cut(words):
    return words if len(words) <= LONGEST else words[:LONGEST - 1] + "…"


def key():
    """What the lines mean, as a table with a sample of each."""
    def sample(kind):
        return f'<svg aria-hidden="true" width="70" height="12"><path class="{kind}" d="M{54 if kind == "d" else 2} 6H68"/></svg>'
    said = {"position": "solid", "name": "dashed", "collected": "dotted", "exchanged": "thick, long and short dashes", "default": "a stub", "own name": "thin"}
    words = {"position": "the argument reaches the parameter by its position", "name": "it reaches it by its name",
             "collected": "<code>*args</code> or <code>**kwargs</code> collects it", "default": "the parameter takes its default",
             "exchanged": "it reaches this parameter and has the name of another one; two such may be exchanged",
             "own name": "it leads from such an argument to the parameter that has its name, which it does not reach"}
    rows = [(f"{sample(kind)} {said[how]}", words[how]) for how, kind in Drawing.CLASSES.items()]
    return table("How a line is drawn", ("line", "meaning"), rows)
