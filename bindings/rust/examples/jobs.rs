//! Every job from Rust, accepted and refused, with what it makes of the buffer that it is lent. Each line is a small script. A word after its name
//! is where a table file is put.

use starlark_checks::check_file;
use starlark_checks::dialect::ALL;
use starlark_checks::dialect::EXTENDED;
use starlark_checks::dialect::STANDARD;
use starlark_checks::figures;
use starlark_checks::fstring_read;
use starlark_checks::fstring_write;
use starlark_checks::fstring_write_words;
use starlark_checks::read;
use starlark_checks::rescue;
use starlark_checks::Edition;
use starlark_checks::Kind;
use starlark_checks::Part;
use starlark_checks::Table;
use starlark_checks::AUDIT_WORDS;
use starlark_checks::ERROR_WORDS;
use starlark_checks::FILE_BYTES;

const STATEMENTS: u8 = Kind::Statements as u8;
const DEF: u8 = Kind::Def as u8;
const BREAK: u8 = Kind::Break as u8;
const SIMPLE: u8 = Kind::OtherSimple as u8;
const ASSIGN: u8 = Kind::Assign as u8;
const MODIFY: u8 = Kind::AssignModify as u8;
const TUPLE: u8 = Kind::Tuple as u8;
const DOT: u8 = Kind::Dot as u8;
const CALL: u8 = Kind::Call as u8;
const INDEX: u8 = Kind::Index as u8;
const INDEX2: u8 = Kind::Index2 as u8;
const IDENTIFIER: u8 = Kind::Identifier as u8;
const INT: u8 = Kind::Int as u8;
const NOT: u8 = Kind::Not as u8;
const NORMAL: u8 = Kind::Normal as u8;
const NO_ARGS: u8 = Kind::NoArgs as u8;
const SLASH: u8 = Kind::Slash as u8;
const ARGS_PARAM: u8 = Kind::ArgsParam as u8;
const KW_ARGS_PARAM: u8 = Kind::KwArgsParam as u8;
const POSITIONAL: u8 = Kind::Positional as u8;
const NAMED: u8 = Kind::Named as u8;
const ARGS: u8 = Kind::ArgsArg as u8;
const KW_ARGS: u8 = Kind::KwArgsArg as u8;

/// What each place of a buffer holds before a job.
const BEFORE: u8 = 9;

/// A tree: a kind, its detail, a name or "", and what is below it.
struct Tree(u8, u8, &'static str, Vec<Tree>);

/// The bytes of a tree's table and names. Node i has the span 10 i to 10 i + 7, and a Named's name is at 10 i + 2. The statements under a root
/// Statements are of source files 1, 2 and so on; any other root is of source file 1.
#[derive(Default)]
struct Script {
    nodes: Vec<u8>,
    names: Vec<u8>,
}

impl Script {
    fn of(tree: Tree) -> Script {
        let mut script = Script::default();
        if tree.0 == STATEMENTS {
            script.open(&tree, 0);
            tree.3.iter().zip(1..).for_each(|(statement, file)| script.write(statement, file));
            script.close(0);
        } else {
            script.write(&tree, 1);
        }
        script
    }

    fn write(&mut self, tree: &Tree, file: u16) {
        let at = self.open(tree, file);
        tree.3.iter().for_each(|tree| self.write(tree, file));
        self.close(at);
    }

    /// The record of a tree without what is below it; its first byte. Its size is filled in when it is closed.
    fn open(&mut self, tree: &Tree, file: u16) -> usize {
        let Tree(kind, detail, name, _) = tree;
        let at = self.nodes.len();
        let begin = (at / 24 * 10) as u32;
        let start = if name.is_empty() { 0 } else { self.names.len() as u32 };
        self.nodes.extend([*kind, *detail]);
        self.nodes.extend((name.len() as u16).to_le_bytes());
        for word in [start, begin, begin + 7, u32::from(file) << 16, if *kind == NAMED { begin + 2 } else { 0 }] {
            self.nodes.extend(word.to_le_bytes());
        }
        self.names.extend(name.as_bytes());
        at
    }

    fn close(&mut self, at: usize) {
        let size = ((self.nodes.len() - at) / 24) as u16;
        self.nodes[at + 16..at + 18].copy_from_slice(&size.to_le_bytes());
    }

    fn table(&self) -> Table<'_> {
        Table { nodes: &self.nodes, names: &self.names }
    }
}

fn leaf(kind: u8, name: &'static str) -> Tree {
    Tree(kind, 0, name, Vec::new())
}

fn tree(kind: u8, below: Vec<Tree>) -> Tree {
    Tree(kind, 0, "", below)
}

fn def(mut parameters: Vec<Tree>) -> Script {
    parameters.push(leaf(BREAK, ""));
    Script::of(tree(DEF, parameters))
}

fn simple(expression: Tree) -> Script {
    Script::of(tree(SIMPLE, vec![expression]))
}

fn call(arguments: Vec<(u8, &'static str)>) -> Script {
    let values = arguments.into_iter().map(|(kind, name)| Tree(kind, 0, name, vec![leaf(INT, "")]));
    simple(tree(CALL, std::iter::once(leaf(IDENTIFIER, "f")).chain(values).collect()))
}

fn x(name: &'static str) -> Tree {
    leaf(IDENTIFIER, name)
}

/// `a, (b.c, d[0])`: three leaves.
fn three_leaves() -> Tree {
    let pair = vec![Tree(DOT, 0, "c", vec![x("b")]), tree(INDEX, vec![x("d"), leaf(INT, "")])];
    tree(TUPLE, vec![x("a"), tree(TUPLE, pair)])
}

fn checks() {
    let mut good = Script::of(tree(STATEMENTS, vec![leaf(BREAK, ""), leaf(BREAK, "")]));
    println!("a table: {:?}", good.table().check());
    println!("a part of a record: {:?}", Table { nodes: &good.nodes[..25], names: &[] }.check());
    println!("too many name bytes: {:?}", Table { nodes: &good.nodes, names: &[0; 8065] }.check());
    good.nodes[24 + 18] = 0;
    println!("a statement of source file 0: {:?}", good.table().check());
    println!("an unsound record: {:?}", Script::of(tree(STATEMENTS, vec![leaf(BREAK, ""), leaf(BREAK, "a")])).table().check());
    let deep = (0..64).fold(leaf(INT, ""), |below, _| tree(NOT, vec![below]));
    println!("too deep: {:?}", simple(deep).table().check());
}

fn parameter_lists() {
    let before = vec![leaf(NORMAL, "a"), leaf(SLASH, ""), leaf(NORMAL, "b")];
    let behind = vec![leaf(ARGS_PARAM, "args"), leaf(NORMAL, "c"), leaf(KW_ARGS_PARAM, "k")];
    let list = def(before.into_iter().chain(behind).collect());
    let refused = def(vec![Tree(NORMAL, 2, "a", vec![leaf(INT, "")]), leaf(NORMAL, "b")]);
    let repeated = def(vec![leaf(NORMAL, "a"), leaf(NO_ARGS, ""), leaf(NORMAL, "a")]);
    let show = |words: &str, list: &Script, node: usize, room: usize| {
        let mut modes = vec![BEFORE; room];
        let answer = list.table().params(node, &mut modes);
        println!("{words}: {answer:?}, modes {modes:?}");
    };
    show("(a, /, b, *args, c, **k)", &list, 0, 7);
    show("six bytes for six parameters", &list, 0, 6);
    show("five bytes for six parameters", &list, 0, 5);
    show("no def", &list, 1, 7);
    show("(a=1, b)", &refused, 0, 7);
    show("(a, *, a)", &repeated, 0, 7);
    if let Err(refused) = repeated.table().params(0, &mut [BEFORE; 7]) {
        println!("in words: {refused}");
    }
}

fn calls() {
    let all = call(vec![(POSITIONAL, ""), (POSITIONAL, ""), (NAMED, "a"), (ARGS, ""), (KW_ARGS, "")]);
    println!("f(1, 2, a=3, *4, **5): {:?}", all.table().call(1));
    println!("f(): {:?}", call(Vec::new()).table().call(1));
    println!("f(a=1, a=2): {:?}", call(vec![(NAMED, "a"), (NAMED, "a")]).table().call(1));
    println!("no call: {:?}", all.table().call(0));
}

/// `def f(a, b, /): break` in source file 1, and a call in source file 2.
fn with_def(arguments: Vec<(u8, &'static str)>) -> Script {
    let parameters = vec![leaf(NORMAL, "a"), leaf(NORMAL, "b"), leaf(SLASH, ""), leaf(BREAK, "")];
    let values = arguments.into_iter().map(|(kind, name)| Tree(kind, 0, name, vec![leaf(INT, "")]));
    let called = tree(CALL, std::iter::once(leaf(IDENTIFIER, "f")).chain(values).collect());
    Script::of(tree(STATEMENTS, vec![tree(DEF, parameters), tree(SIMPLE, vec![called])]))
}

fn bindings() {
    let show = |words: &str, script: &Script, def: usize, room: usize| {
        let mut list = vec![u32::from(BEFORE); room];
        let answer = script.table().bind(7, def, &mut list);
        println!("{words}: {answer:?}, list {list:?}");
    };
    let placed = with_def(vec![(POSITIONAL, ""), (POSITIONAL, "")]);
    show("f(1, 2) to (a, b, /)", &placed, 1, 6);
    show("four words for three parameters and two arguments", &placed, 1, 4);
    show("no def", &placed, 0, 6);
    show("f(b=1, a=2) to it", &with_def(vec![(NAMED, "b"), (NAMED, "a")]), 1, 6);
}

fn targets() {
    let target = simple(three_leaves());
    println!("a, (b.c, d[0]) as a target: {:?}", target.table().target(1));
    println!("no expression: {:?}", target.table().target(0));
    println!("a, 1 as a target: {:?}", simple(tree(TUPLE, vec![x("a"), leaf(INT, "")])).table().target(1));
}

fn assignments() {
    let assigned = Script::of(tree(ASSIGN, vec![three_leaves(), leaf(INT, "")]));
    println!("a, (b.c, d[0]) = 1: {:?}", assigned.table().assignment(0));
    println!("no assignment: {:?}", assigned.table().assignment(1));
    println!("a, (b.c, d[0]) += 1: {:?}", Script::of(tree(MODIFY, vec![three_leaves(), leaf(INT, "")])).table().assignment(0));
    let typed = Script::of(Tree(ASSIGN, 1, "", vec![tree(TUPLE, vec![x("a")]), x("int"), leaf(INT, "")]));
    println!("(a,): int = 1: {:?}", typed.table().assignment(0));
}

fn types() {
    let generic = simple(tree(INDEX2, vec![Tree(DOT, 0, "b", vec![x("a")]), x("int"), x("str")]));
    let banned = simple(Tree(DOT, 0, "type", vec![x("x")]));
    let show_in = |words: &str, script: &Script, dialect: &[u8], edition: Edition, node: usize, room: usize| {
        let mut shapes = vec![BEFORE; room];
        let answer = script.table().type_shape(dialect, edition, node, &mut shapes);
        println!("{words}: {answer:?}, shapes {shapes:?}");
    };
    let show = |words: &str, script: &Script, dialect: &[u8], node: usize, room: usize| {
        show_in(words, script, dialect, Edition::One, node, room);
    };
    show("a.b[int, str] as a type", &generic, &EXTENDED, 1, 6);
    show("with no dialect, so in Extended", &generic, &[], 1, 6);
    show("in the Standard dialect", &generic, &STANDARD, 1, 6);
    show("five bytes for five nodes", &generic, &EXTENDED, 1, 5);
    show("four bytes for five nodes", &generic, &EXTENDED, 1, 4);
    show("eight bytes of dialect", &generic, &EXTENDED[..8], 1, 6);
    show("no expression", &generic, &EXTENDED, 0, 6);
    show("x.type as a type", &banned, &EXTENDED, 1, 6);
    show_in("in edition 2", &banned, &EXTENDED, Edition::Two, 1, 6);
    show_in("eight bytes of dialect", &banned, &EXTENDED[..8], Edition::Two, 1, 6);
}

fn modules() {
    let module = def(vec![leaf(NORMAL, "a"), leaf(NO_ARGS, ""), leaf(NORMAL, "b")]);
    let show = |words: &str, dialect: &[u8], room: usize| {
        let mut errors = vec![u32::from(BEFORE); room];
        let answer = module.table().module(dialect, &mut errors).map(|errors| errors.total);
        println!("{words}: {answer:?}, errors {errors:?}");
    };
    show("def f(a, *, b): break, in the Standard dialect", &STANDARD, 2 * ERROR_WORDS);
    show("a list one word short", &STANDARD, 2 * ERROR_WORDS - 1);
    show("in the Extended dialect", &EXTENDED, 2 * ERROR_WORDS);
    show("with no dialect, so in Extended", &[], 2 * ERROR_WORDS);
    show("eight bytes of dialect", &EXTENDED[..8], 2 * ERROR_WORDS);
    let mut errors = [0; 2 * ERROR_WORDS];
    for error in module.table().module(&STANDARD, &mut errors).expect("the table is sound") {
        let (number, file, span) = (error.number, error.file, error.span);
        println!("in words: {} in file {file} at bytes {} to {}: {}", number.name(), span.start, span.end, number.words());
    }
}

fn audits() {
    let call = tree(CALL, vec![x("f"), Tree(NAMED, 0, "b", vec![x("a")]), tree(POSITIONAL, vec![x("a")])]);
    let script = Script::of(tree(STATEMENTS, vec![tree(SIMPLE, vec![call]), leaf(BREAK, "")]));
    let show = |words: &str, dialect: &[u8], room: usize| {
        let mut errors = vec![u32::from(BEFORE); room];
        let answer = script.table().audit(dialect, Edition::One, &mut errors).map(|errors| errors.total);
        println!("{words}: {answer:?}, errors {errors:?}");
    };
    show("f(b=a, a) in file 1 and break in file 2, audited", &[], 2 * AUDIT_WORDS + 1);
    show("a list one word short of two", &[], 2 * AUDIT_WORDS - 1);
    show("eight bytes of dialect", &EXTENDED[..8], 2 * AUDIT_WORDS + 1);
    for error in script.table().audit(&[], Edition::One, &mut [0; 2 * AUDIT_WORDS]).expect("the table is sound") {
        println!("as a value: {error:?}");
    }
    let typed = Tree(ASSIGN, 1, "", vec![x("a"), Tree(DOT, 0, "type", vec![x("b")]), leaf(INT, "")]);
    let script = Script::of(typed);
    for edition in [Edition::One, Edition::Two] {
        let mut errors = [0; AUDIT_WORDS];
        let errors = script.table().audit(&EXTENDED, edition, &mut errors).expect("the table is sound");
        println!("a: b.type = 1 in edition {}: {} errors", u32::from(edition), errors.total);
    }
}

/// The file in `room` bytes: its first bytes, and how many are no longer what they were. An accepted one is put under the name `path`.
fn show_file(words: &str, script: &Script, dialect: &[u8], edition: Option<Edition>, room: usize, path: Option<String>) {
    let mut file = vec![BEFORE; room];
    let answer = script.table().write(dialect, edition, &mut file);
    let changed = file.iter().rposition(|&byte| byte != BEFORE).map_or(0, |last| last + 1);
    println!("{words}: {answer:?}, {changed} changed, the first {:?}", &file[..18]);
    if let (Ok(size), Some(path)) = (answer, path) {
        std::fs::write(path, &file[..size]).expect("the file is kept");
    }
}

fn files() {
    let script = def(vec![leaf(NORMAL, "a"), leaf(NO_ARGS, ""), leaf(NORMAL, "b")]);
    show_file("the file of def f(a, *, b): break, with no dialect", &script, &[], None, FILE_BYTES, std::env::args().nth(1));
    show_file("in the Extended dialect", &script, &EXTENDED, None, FILE_BYTES, None);
    show_file("1,536 bytes for three blocks", &script, &[], None, 1536, None);
    show_file("1,535 bytes for three blocks", &script, &[], None, 1535, None);
    show_file("eight bytes of dialect", &script, &EXTENDED[..8], None, FILE_BYTES, None);
    show_file("with edition 2", &script, &EXTENDED, Some(Edition::Two), FILE_BYTES, None);
    show_file("with edition 1 and no dialect", &script, &[], Some(Edition::One), FILE_BYTES, None);
}

/// What is kept of a file in `room` bytes, and how many of them are no longer what they were.
fn show_rescue(words: &str, input: &[u8], room: usize) {
    let mut file = vec![BEFORE; room];
    let answer = rescue(input, &mut file);
    let changed = file.iter().rposition(|&byte| byte != BEFORE).map_or(0, |last| last + 1);
    println!("{words}: {answer:?}, {changed} changed");
}

fn rescues() {
    let script = Script::of(tree(STATEMENTS, (0..30).map(|_| tree(SIMPLE, vec![x("a")])).collect()));
    let mut file = vec![BEFORE; FILE_BYTES];
    let size = script.table().write(&[], None, &mut file).expect("the file is written");
    file.truncate(size);
    show_rescue("a file of 61 nodes, rescued", &file, FILE_BYTES);
    show_rescue("with seven bytes behind it", &[&file[..], &[0; 7]].concat(), FILE_BYTES);
    show_rescue("one byte short", &file[..size - 1], FILE_BYTES);
    show_rescue("cut behind its first node block", &file[..1536], 1536);
    show_rescue("in one byte too few", &file[..1536], 1535);
    show_rescue("cut in its first node block", &file[..1535], FILE_BYTES);
    show_rescue("cut in its name block", &file[..1023], FILE_BYTES);
}

/// What a file holds in the given number of bytes for table and names, and how many of them are no longer what they were.
fn show_read(words: &str, file: &[u8], table_room: usize, names_room: usize) {
    let (mut table, mut names) = (vec![BEFORE; table_room], vec![BEFORE; names_room]);
    let answer = read(file, &mut table, &mut names);
    let changed = |bytes: &[u8]| bytes.iter().rposition(|&byte| byte != BEFORE).map_or(0, |last| last + 1);
    println!("{words}: {answer:?}, {} and {} changed", changed(&table), changed(&names));
}

fn show_checked(words: &str, file: &[u8], room: usize) {
    let mut errors = vec![u32::from(BEFORE); room];
    let answer = check_file(file, &mut errors).map(|listed| format!("{} errors, {} nodes", listed.errors.total, listed.nodes));
    println!("{words}: {answer:?}, errors {errors:?}");
}

fn reads() {
    let script = def(vec![leaf(NORMAL, "a"), leaf(NO_ARGS, ""), leaf(NORMAL, "b")]);
    let file = |dialect: &[u8], edition: Option<Edition>| {
        let mut file = vec![BEFORE; FILE_BYTES];
        let size = script.table().write(dialect, edition, &mut file).expect("the file is written");
        file.truncate(size);
        file
    };
    let (none, standard, extended) = (file(&[], None), file(&STANDARD, None), file(&EXTENDED, None));
    show_read("a file of five nodes, read", &none, 120, 2);
    show_read("in the Extended dialect", &extended, 120, 2);
    show_read("with edition 1", &file(&EXTENDED, Some(Edition::One)), 120, 2);
    show_read("with edition 2", &file(&EXTENDED, Some(Edition::Two)), 120, 2);
    show_read("119 bytes for five nodes", &none, 119, 2);
    show_read("one byte for two of names", &none, 120, 1);
    show_read("a file cut short", &none[..1535], 120, 2);
    show_checked("the file in the Standard dialect, checked", &standard, 2 * ERROR_WORDS);
    show_checked("in the Extended dialect", &extended, 2 * ERROR_WORDS);
    show_checked("with no dialect, so in Extended", &none, 2 * ERROR_WORDS);
    show_checked("a list of seven words", &standard, 2 * ERROR_WORDS - 1);
    show_checked("a file with a byte behind it", &[&none[..], &[0]].concat(), 2 * ERROR_WORDS);
}

/// The figures of an input, in one call and step by step.
fn show_figures(words: &str, input: &[u8]) {
    let report = figures::report(input);
    let (mut counts, mut at) = (figures::Figures::default(), 0);
    while at < input.len() {
        match figures::step(&input[at..], &mut counts) {
            Ok(taken) => at += taken,
            Err(_) => break,
        }
    }
    let figures::Figures { files, nodes, lists, modes, .. } = report.figures;
    let same = if counts == report.figures { "the same" } else { "others" };
    println!("{words}: {:?}, files {files}, nodes {nodes}, lists {lists}, modes {modes:?}; steps to byte {at}, {same}", report.refused);
}

fn figures_of_files() {
    let script = def(vec![leaf(NORMAL, "a"), leaf(NO_ARGS, ""), leaf(NORMAL, "b")]);
    let mut file = vec![BEFORE; FILE_BYTES];
    let size = script.table().write(&EXTENDED, None, &mut file).expect("the file is written");
    let two = [&file[..size], &file[..size]].concat();
    show_figures("figures of two files", &two);
    show_figures("of no file", &[]);
    show_figures("with a byte behind them", &[&two[..], &[0]].concat());
}

/// Parts written into a buffer of `room` bytes, and read back from there.
fn show_format(words: &str, parts: &[Part], dialect: &[u8], room: usize) {
    let mut text = vec![b'.'; room];
    let answer = fstring_write(parts, dialect, &mut text);
    println!("{words}: {answer:?}, text {}", String::from_utf8_lossy(&text));
    if let Ok(formatted) = answer {
        show_parts("  read back", &text[..formatted.length], 2 * room, room);
    }
}

/// The parts of a text, in `room` words and `bytes` bytes.
fn show_parts(words: &str, text: &[u8], room: usize, bytes: usize) {
    let (mut list, mut texts) = (vec![u32::from(BEFORE); room], vec![b'.'; bytes]);
    match fstring_read(text, &mut list, &mut texts) {
        Ok(parts) => {
            let shown = |part| match part {
                Part::Text(text) => format!("text {}", String::from_utf8_lossy(text)),
                other => format!("{other:?}"),
            };
            println!("{words}: {}", parts.iter().map(shown).collect::<Vec<_>>().join(" | "));
        }
        Err(refused) => println!("{words}: {refused}, words {list:?}, texts {}", String::from_utf8_lossy(&texts)),
    }
}

fn formats() {
    let parts = [Part::Text(b"{train"), Part::Text(b"} "), Part::Str, Part::Text(b""), Part::Text(b" at "), Part::Repr, Part::None];
    show_format("parts in all options", &parts, &ALL, 24);
    show_format("in the Extended dialect, which has no f-strings", &parts, &EXTENDED, 22);
    show_format("21 bytes for 22", &parts, &ALL, 21);
    show_format("eight bytes of dialect", &parts, &ALL[..8], 22);
    show_format("no parts", &[], &[], 0);
    let mut text = [b'.'; 4];
    println!("a kind 4: {:?}", fstring_write_words(&[4, 0], b"", &ALL, &mut text));
    println!("one byte for a text of two: {:?}", fstring_write_words(&[0, 2], b"a", &ALL, &mut text));
    show_parts("a text that is cut", b"a{!r", 0, 0);
    show_parts("two parts in three words", b"a{}", 3, 1);
    show_parts("two bytes in one", b"}}a", 2, 1);
}

fn main() {
    checks();
    parameter_lists();
    calls();
    bindings();
    targets();
    assignments();
    types();
    modules();
    audits();
    files();
    rescues();
    reads();
    figures_of_files();
    formats();
}
