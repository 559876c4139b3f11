//! The jobs, each with its routes: the port, the crate on a ready tree, and the crate with the oracle's reading in front.

use std::hint::black_box;

use judge::dialects;
use judge::run;
use judge::trees::Spans;
use judge::trees::Trees;
use model::answer::Answer;
use model::answer::AUDIT_WORDS;
use model::answer::ERROR_WORDS;
use model::audit;
use model::audit::Job;
use model::audit::Place;
use model::file;
use model::file::Contents;
use model::jobs;
use model::numbers::number;
use model::table::Table;
use starlark_syntax::codemap::CodeMap;
use starlark_syntax::dialect::Dialect;
use starlark_syntax::syntax::ast::AstStmt;
use starlark_syntax::syntax::ast::CallArgsP;
use starlark_syntax::syntax::call::CallArgsUnpack;
use starlark_syntax::syntax::def::DefParams;
use starlark_syntax::syntax::grammar_util::check_assign;
use starlark_syntax::syntax::module::validate_module;
use starlark_syntax::syntax::type_expr::TypeExprUnpackP;

use crate::measure::Route;
use crate::plain;
use crate::port::Port;
use crate::scripts::Input;
use crate::scripts::BOUND_DEF;

pub const PORT: &str = "port";
pub const CHECK: &str = "port-check";
pub const CRATE: &str = "crate";
pub const FRONT: &str = "crate-with-front";
pub const MODEL: &str = "model-check";
pub const TREE: &str = "tree";
pub const READ: &str = "model-read";
pub const PLAIN: &str = "plain-writer";
pub const COPY: &str = "copy";
pub const LISTS: &str = "params-and-call";
pub const READER: &str = "port-read";
pub const EACH: &str = "each-job";
pub const MODULE: &str = "port-module";

type Routes = Vec<Route<'static>>;

fn codemap() -> &'static CodeMap {
    CodeMap::empty_static()
}

/// A table that stays for the whole run.
fn checked(input: &'static Input) -> &'static Table<'static> {
    let table = Table::check(&input.table, &input.names);
    Box::leak(Box::new(table.unwrap_or_else(|refusal| panic!("a table of the benchmark is refused: {refusal:?}"))))
}

fn trees<'a, 'n>(table: &'a Table<'n>) -> Trees<'a, 'n> {
    Trees { table, spans: Spans::Table }
}

/// The oracle's reading of a table, as it is in front of a tree.
pub fn read(input: &Input) -> Table<'_> {
    let (table, names) = black_box((&input.table, &input.names));
    Table::check(table, names).unwrap_or_else(|_| unreachable!())
}

/// The tree of a table, made before the clock runs.
pub fn ready(input: &'static Input) -> AstStmt {
    trees(checked(input)).statement(0).expect("a tree")
}

/// The number of errors that the crate finds.
pub fn validated(tree: &AstStmt, dialect: &Dialect) -> usize {
    validate_module(black_box(tree), dialect, codemap()).len()
}

/// A measured job on which port and crate do not agree would say nothing. The crate does not tell where an equal name was.
fn must_agree(port: &Port, number: u32, answer: &Answer) {
    let told = Answer { number, words: port.out[..answer.words.len()].to_vec(), ..answer.clone() };
    assert!(told.is_told_by_the_crate(answer), "port and crate agree on what is measured");
    assert_eq!(port.bytes[..answer.bytes.len()], answer.bytes[..], "port and crate agree on what is measured");
}

fn check_route(input: &'static Input) -> Route<'static> {
    let mut port = Port::new();
    Route::new(CHECK, move || port.table(&input.table, &input.names))
}

pub fn parameters(input: &'static Input) -> Routes {
    let table = checked(input);
    let mut port = Port::new();
    let number = port.params(&input.table, &input.names, input.node);
    must_agree(&port, number, &run::params(table, input.node).expect("a tree"));
    let ready = trees(table).parameters(input.node).expect("a tree");
    vec![
        Route::new(PORT, move || port.params(&input.table, &input.names, input.node)),
        Route::new(CRATE, move || black_box(DefParams::unpack(black_box(&ready), codemap())).is_ok()),
        check_route(input),
        Route::new(FRONT, move || {
            let table = read(input);
            let list = trees(&table).parameters(input.node).expect("a tree");
            let accepted = black_box(DefParams::unpack(&list, codemap())).is_ok();
            accepted
        }),
    ]
}

/// A list that is refused with 19, which the crate does not have: timed beside the table check.
pub fn too_many(input: &'static Input) -> Routes {
    let mut port = Port::new();
    let number = port.params(&input.table, &input.names, input.node);
    assert_eq!(number, number::TOO_MANY_PARAMETERS, "a list of more than 48 entries");
    vec![Route::new(PORT, move || port.params(&input.table, &input.names, input.node)), check_route(input)]
}

pub fn arguments(input: &'static Input) -> Routes {
    let table = checked(input);
    let mut port = Port::new();
    let number = port.call(&input.table, &input.names, input.node);
    must_agree(&port, number, &run::call(table, input.node).expect("a tree"));
    let ready = CallArgsP { args: trees(table).arguments(input.node).expect("a tree") };
    vec![
        Route::new(PORT, move || port.call(&input.table, &input.names, input.node)),
        Route::new(CRATE, move || black_box(CallArgsUnpack::unpack(black_box(&ready), codemap())).is_ok()),
        check_route(input),
        Route::new(FRONT, move || {
            let table = read(input);
            let list = CallArgsP { args: trees(&table).arguments(input.node).expect("a tree") };
            let accepted = black_box(CallArgsUnpack::unpack(&list, codemap())).is_ok();
            accepted
        }),
    ]
}

/// A binding, and the two jobs that are below it on the same table, one after the other.
pub fn bind(input: &'static Input) -> Routes {
    let (call, def) = (input.node, BOUND_DEF);
    let mut port = Port::new();
    let number = port.bind(&input.table, &input.names, call, def);
    let answer = jobs::bind(&input.table, &input.names, call, def, port.errors.len());
    must_agree(&port, number, &answer);
    assert_eq!(number, 0, "what is measured is bound");
    assert_eq!(port.errors[..answer.list.len()], answer.list[..], "port and model agree on what is measured");
    let mut lists = Port::new();
    vec![
        Route::new(PORT, move || port.bind(&input.table, &input.names, call, def)),
        Route::new(LISTS, move || {
            let parameters = lists.params(&input.table, &input.names, def);
            (parameters, lists.call(&input.table, &input.names, call))
        }),
        check_route(input),
    ]
}

pub fn types(input: &'static Input) -> Routes {
    let table = checked(input);
    let dialect = &model::dialect::EXTENDED;
    let mut port = Port::new();
    let number = port.type_shape(&input.table, &input.names, dialect, input.node);
    let judged = run::type_shape(table, input.node, &dialects::from_bytes(dialect)).expect("a tree");
    must_agree(&port, number, &judged);
    let ready = trees(table).expression(input.node).expect("a tree");
    vec![
        Route::new(PORT, move || port.type_shape(&input.table, &input.names, dialect, input.node)),
        Route::new(CRATE, move || black_box(TypeExprUnpackP::unpack(black_box(&ready), codemap())).is_ok()),
        check_route(input),
        Route::new(FRONT, move || {
            let table = read(input);
            let tree = trees(&table).expression(input.node).expect("a tree");
            let accepted = black_box(TypeExprUnpackP::unpack(&tree, codemap())).is_ok();
            accepted
        }),
    ]
}

pub fn targets(input: &'static Input) -> Routes {
    let table = checked(input);
    let mut port = Port::new();
    let number = port.target(&input.table, &input.names, input.node);
    must_agree(&port, number, &run::target(table, input.node).expect("a tree"));
    let ready = trees(table).expression(input.node).expect("a tree");
    vec![
        Route::new(PORT, move || port.target(&input.table, &input.names, input.node)),
        Route::eating(CRATE, move || ready.clone(), |tree| check_assign(codemap(), tree)),
        check_route(input),
        Route::new(FRONT, move || {
            let table = read(input);
            let tree = trees(&table).expression(input.node).expect("a tree");
            check_assign(codemap(), tree)
        }),
    ]
}

/// The table check against the oracle's own: the crate has no tables.
pub fn table(input: &'static Input) -> Routes {
    let mut port = Port::new();
    assert_eq!(port.table(&input.table, &input.names), 0);
    vec![
        Route::new(PORT, move || port.table(&input.table, &input.names)),
        Route::new(MODEL, move || black_box(read(input)).records.len()),
    ]
}

pub fn module(input: &'static Input, dialect: &'static [u8]) -> Routes {
    let table = checked(input);
    let mut port = Port::new();
    let number = port.module(&input.table, &input.names, dialect);
    let record = dialects::from_bytes(dialect);
    let answer = run::Module::of(table).expect("a tree").judged(&record).whole.expect("one source file");
    must_agree(&port, number, &answer);
    assert_eq!(port.errors[..ERROR_WORDS * answer.errors.len()], answer.errors.concat()[..]);
    let ready = trees(table).statement(0).expect("a tree");
    let again = dialects::from_bytes(dialect);
    vec![
        Route::new(PORT, move || port.module(&input.table, &input.names, dialect)),
        Route::new(CRATE, move || black_box(validate_module(black_box(&ready), &record, codemap())).len()),
        check_route(input),
        Route::new(FRONT, move || {
            let table = read(input);
            let tree = trees(&table).statement(0).expect("a tree");
            black_box(validate_module(&tree, &again, codemap())).len()
        }),
    ]
}

/// The audit, and what it does at once as single jobs: the module pass, and each job on each node that it fits.
pub fn audit(input: &'static Input, dialect: &'static [u8]) -> Routes {
    let (table, names) = (&input.table, &input.names);
    let mut port = Port::new();
    let number = port.audit(table, names, dialect);
    let answer = jobs::audit(table, names, dialect, 1);
    must_agree(&port, number, &answer);
    assert_eq!(port.errors[..AUDIT_WORDS * answer.audited.len()], answer.audited.concat()[..]);
    let judged = run::Audit::of(checked(input)).judged(&dialects::from_bytes(dialect)).expect("a tree");
    assert!(judged.whole == Some(answer), "the crate agrees on what is measured");
    let places = audit::places(checked(input));
    let (mut each, mut module) = (Port::new(), Port::new());
    vec![
        Route::new(PORT, move || port.audit(table, names, dialect)),
        Route::new(EACH, move || {
            let own = each.module(table, names, dialect);
            let at = |place: &Place| match place.job {
                Job::Params => each.params(table, names, place.node),
                Job::Call => each.call(table, names, place.node),
                Job::Assignment => each.assignment(table, names, place.node),
                Job::Target => each.target(table, names, place.node),
                Job::Type => each.type_shape(table, names, dialect, place.node),
            };
            own + places.iter().map(at).sum::<u32>()
        }),
        Route::new(MODULE, move || module.module(table, names, dialect)),
        check_route(input),
    ]
}

/// How many jobs the audit does at once, the module pass among them.
pub fn jobs_at_once(input: &Input) -> usize {
    1 + audit::places(&read(input)).len()
}

/// A file to its errors, and the parts of the Rust route.
pub fn file(input: &'static Input, dialect: &'static [u8]) -> Routes {
    let contents =
        Contents { table: input.table.clone(), names: input.names.clone(), dialect: dialect.to_vec(), edition: None };
    let bytes: &'static [u8] = Vec::leak(file::write(&contents));
    let table = checked(input);
    let mut port = Port::new();
    let number = port.file(bytes);
    must_agree(&port, number, &jobs::module(&input.table, &input.names, dialect));
    let mut inner = Port::new();
    let ready = trees(table).statement(0).expect("a tree");
    let record = dialects::from_bytes(dialect);
    vec![
        Route::new(PORT, move || port.file(bytes)),
        Route::new(FRONT, move || rust_route(bytes)),
        Route::new(CHECK, move || inner.module(&input.table, &input.names, dialect)),
        Route::new(READ, move || file::read(black_box(bytes))),
        Route::new(MODEL, move || black_box(read(input)).records.len()),
        Route::new(TREE, move || trees(black_box(table)).statement(0)),
        Route::new(CRATE, move || black_box(validate_module(black_box(&ready), &record, codemap())).len()),
    ]
}

/// A file written, and a plain Rust writer with the oracle's checks in front and without; and the bytes copied.
pub fn write(input: &'static Input, dialect: &'static [u8]) -> Routes {
    let mut port = Port::new();
    let number = port.write(&input.table, &input.names, dialect);
    let answer = jobs::write(&input.table, &input.names, dialect, u32::MAX, port.file.len());
    must_agree(&port, number, &answer);
    let size = answer.file.len();
    assert_eq!(port.file[..size], answer.file[..], "port and oracle agree on what is measured");
    let (mut checked, mut alone, mut copied) = (port.file.clone(), port.file.clone(), port.file.clone());
    assert_eq!(plain::write(&input.table, &input.names, dialect, &mut alone), Some(size));
    assert_eq!(alone[..size], answer.file[..], "the plain writer agrees too");
    vec![
        Route::new(PORT, move || port.write(&input.table, &input.names, dialect)),
        Route::new(FRONT, move || {
            black_box(read(input));
            black_box(model::dialect::from_bytes(black_box(dialect)).is_ok());
            plain::write(black_box(&input.table), &input.names, dialect, &mut checked)
        }),
        check_route(input),
        Route::new(PLAIN, move || plain::write(black_box(&input.table), &input.names, dialect, black_box(&mut alone))),
        Route::new(COPY, move || black_box(&mut copied)[..size].copy_from_slice(black_box(&answer.file))),
    ]
}

/// A rescue, and the port's reading of the whole file that was damaged, both from the file to an answer.
pub fn rescue(input: &'static Input, damage: fn(&mut Vec<u8>)) -> Routes {
    let dialect = model::dialect::STANDARD.to_vec();
    let contents = Contents { table: input.table.clone(), names: input.names.clone(), dialect, edition: None };
    let whole: &'static [u8] = Vec::leak(file::write(&contents));
    let mut damaged = whole.to_vec();
    damage(&mut damaged);
    let mut port = Port::new();
    let number = port.rescue(&damaged);
    let answer = jobs::rescue(&damaged, port.file.len());
    must_agree(&port, number, &answer);
    assert_eq!(number, 0, "something is kept");
    assert_eq!(port.file[..answer.file.len()], answer.file[..], "port and model agree on what is measured");
    let (mut reader, mut copied) = (Port::new(), port.file.clone());
    assert_eq!(reader.read(whole), 0, "the whole file reads");
    assert_eq!(reader.out[0], u32::from(input.table[0]), "and its table is there");
    vec![
        Route::new(PORT, move || port.rescue(&damaged)),
        Route::new(READER, move || reader.read(whole)),
        check_route(input),
        Route::new(COPY, move || black_box(&mut copied)[..answer.file.len()].copy_from_slice(black_box(&answer.file))),
    ]
}

/// Read, check, build the tree, validate.
pub fn rust_route(bytes: &[u8]) -> usize {
    let contents = file::read(black_box(bytes)).unwrap_or_else(|_| unreachable!());
    let table = Table::check(&contents.table, &contents.names).unwrap_or_else(|_| unreachable!());
    let tree = trees(&table).statement(0).expect("a tree");
    black_box(validate_module(&tree, &dialects::from_bytes(&contents.dialect), codemap())).len()
}
