"""ducat table: the table file of scripts, or of the text form of a table."""
import os

from . import dialects, files, inputs, reasons, table, write
from .check import MADE, STEP, evidence
from .library import Refusal
from .output import Failed, digest, named, say


def run(library, options, out, front):
    """Writes the table file. Returns the exit status: 0 it is written, 1 a script is not Starlark, 2 there is none for another reason."""
    found, datas = options.inputs, []
    for one in found:
        try:
            datas.append(inputs.read_script(one))
        except (OSError, ValueError) as error:
            raise Failed(f"{one.name}: {inputs.reason(error)}") from None
    if options.parts:
        return run_parts(library, options, out, front, datas)
    if options.compare is not None:
        from . import comparing
        return comparing.run(library, options, out, front, datas, table_of(options, datas), entries(options, datas))
    made, given = of_scripts(library, options, datas) if found[0].script else of_text(library, options, datas[0])
    if isinstance(made, tuple):
        return write.refused(options, out, front, entries(options, datas), *made)
    return write.written(options, out, front, entries(options, datas), made, dialects.both_json(*given))


def entries(options, datas):
    if not options.json:
        return []
    return [{**named(one.name), **({"kind": "script", "file": file, "table": MADE} if one.script else {"kind": "text"}), **evidence(data, True)}
            for file, (one, data) in enumerate(zip(options.inputs, datas), options.number)]


def no_table(one, error):
    """Why there is no table of a script: status 1 if it is not Starlark, as for any other error in it, 2 if it does not fit into a table."""
    from . import export
    return Failed(f"{one.name}:{error.line}:{error.column}: {error.message}", 1 if isinstance(error, export.ScriptSyntaxError) else 2)


def table_of(options, datas):
    """The table of scripts, and its names."""
    from . import export
    if not options.json:
        say(STEP)
    try:
        return export.joined_export(datas, options.number)[:2]
    except export.ScriptError as error:
        raise no_table(options.inputs[error.at], error) from None


def of_scripts(library, options, datas):
    """The table file, or why there is none; and its dialect and edition."""
    made, given = table_of(options, datas), (options.dialect, options.edition)
    answer = library.write(*made, options.dialect or b"", options.edition)
    if type(answer) is Refusal:
        return (answer, reasons.why_table(*made, options.dialect, answer, options.edition)), given
    return answer.data, given


def run_parts(library, options, out, front, datas):
    """A table file of each top-level statement, in a folder that is new or empty."""
    from . import export
    if not options.inputs[0].script:
        raise Failed("--parts is for scripts")
    if not options.json:
        say(STEP)
    tables = []
    for file, (one, data) in enumerate(zip(options.inputs, datas), options.number):
        try:
            tables += export.export_parts(data, one.name, options.dialect, file)
        except export.ScriptError as error:
            raise no_table(one, error) from None
    contents = []
    for made in tables:
        answer = library.write(*made, options.dialect or b"", options.edition)
        if type(answer) is Refusal:
            return write.refused(options, out, front, entries(options, datas), answer, reasons.why_table(*made, options.dialect, answer, options.edition))
        contents.append(answer.data)
    names = written_parts(options.out, contents)
    if options.json:
        outputs = [{**named(name), "sha256": digest(content), "bytes": len(content)} for name, content in zip(names, contents)]
        write.finish(out, front, entries(options, datas), verdict="written", **dialects.both_json(options.dialect, options.edition),
                     outputs=outputs, status=0)
    else:
        out.lines([f"files {len(names)}"])
    return 0


def written_parts(folder, contents):
    names = [os.path.join(folder, f"{number:04}.table") for number in range(1, len(contents) + 1)]
    try:
        os.makedirs(folder, exist_ok=True)
        if os.listdir(folder):
            raise Failed(f"{folder}: the folder is not empty")
        for name, content in zip(names, contents):
            files.write(name, content)
    except OSError as error:
        raise Failed(f"{error.filename or folder}: {inputs.reason(error)}") from None
    return names


def of_text(library, options, data):
    """A text may describe a table that is not sound, or a damaged file: such a file is made as described."""
    name = options.inputs[0].name
    folder = os.path.dirname(options.inputs[0].path or "")

    def beside(path):
        return inputs.read_script(inputs.Input(os.path.join(folder, path)))

    try:
        text = table.read_text(table.decoded(data), beside)
        made = text.file()
    except table.TextError as error:
        raise Failed(f"{name}:{error.line}: {error.message}" if error.line else f"{name}: {error.message}") from None
    except RecursionError:
        raise Failed(f"{name}: nested too deeply") from None
    except OSError as error:
        raise Failed(f"{error.filename or name}: {inputs.reason(error)}") from None
    given = text.dialect, text.edition
    if not text.change and not text.cut:
        answer = library.write(text.table, text.names, text.dialect or b"", text.edition)
        if type(answer) is not Refusal:
            return answer.data, given
        why = reasons.why_table(text.table, text.names, text.dialect, answer, text.edition)
        say(f"{name}: this table is not sound: {answer.number} {answer.words}{why}")
    return made, given
