//! The crate's own functions on a table's trees, with answers as docs/RULES.md has them.

use model::answer::Answer;
use model::answer::Refusal;
use model::answer::Span;
use model::answer::AUDIT_WORDS;
use model::answer::ERROR_WORDS;
use model::audit::Job;
use model::audit::Place;
use model::jobs;
use model::numbers::kind;
use model::numbers::number;
use model::table::Class;
use model::table::Table;
use starlark_syntax::codemap::CodeMap;
use starlark_syntax::codemap::Spanned;
use starlark_syntax::dialect::Dialect;
use starlark_syntax::eval_exception::EvalException;
use starlark_syntax::syntax::ast::AssignTargetP;
use starlark_syntax::syntax::ast::AstAssignTarget;
use starlark_syntax::syntax::ast::AstNoPayload;
use starlark_syntax::syntax::ast::AstStmt;
use starlark_syntax::syntax::ast::CallArgsP;
use starlark_syntax::syntax::ast::Stmt;
use starlark_syntax::syntax::ast::StmtP;
use starlark_syntax::syntax::call::CallArgsUnpack;
use starlark_syntax::syntax::def::DefParamKind;
use starlark_syntax::syntax::def::DefParams;
use starlark_syntax::syntax::def::DefRegularParamMode;
use starlark_syntax::syntax::grammar_util::check_assign;
use starlark_syntax::syntax::grammar_util::check_assignment;
use starlark_syntax::syntax::module::dialect_check_type;
use starlark_syntax::syntax::module::validate_module;
use starlark_syntax::syntax::type_expr::TypeExprUnpackP;

use crate::back;
use crate::marks;
use crate::marks::Mark;
use crate::messages;
use crate::trees::assign_op;
use crate::trees::Built;
use crate::trees::Spans;
use crate::trees::Trees;

fn codemap() -> &'static CodeMap {
    CodeMap::empty_static()
}

fn marked<'a, 'n>(table: &'a Table<'n>) -> Trees<'a, 'n> {
    Trees { table, spans: Spans::Marks }
}

/// The number of the top-level statement that a record is in: the root's child that holds it, or another root.
fn file_of(table: &Table, node: usize) -> u32 {
    let statement = match table.kind(0) {
        kind::STATEMENTS => table.children(0).take_while(|&child| child <= node).last(),
        _ => Some(0),
    };
    statement.map_or(0, |statement| u32::from(table.records[statement].file))
}

/// A refusal of the crate, with the span that the table gives the record or the name, and the number of the statement that it is in.
fn refusal(table: &Table, error: EvalException) -> Refusal {
    let (number, mark) = messages::read(error);
    let (node, span) = match mark {
        Mark::Node(node) => (node, table.span(node)),
        Mark::Name(node) => (node, table.records[node].name_span()),
    };
    Refusal::spanned(number, node, Span { file: file_of(table, node), ..span })
}

pub fn params(table: &Table, owner: usize) -> Built<Answer> {
    let params = marked(table).parameters(owner)?;
    Ok(match DefParams::unpack(&params, codemap()) {
        Ok(unpacked) => unpacked_answer(table, owner, &unpacked),
        Err(error) => refusal(table, error).into(),
    })
}

fn unpacked_answer(table: &Table, owner: usize, unpacked: &DefParams<AstNoPayload>) -> Answer {
    let written = table.children_of(owner, Class::Parameter);
    let flat_nodes = written.filter(|&n| !matches!(table.kind(n), kind::NO_ARGS | kind::SLASH));
    let crate_nodes = unpacked.params.iter().map(|p| marks::read_node(p.span));
    assert!(crate_nodes.eq(flat_nodes), "the crate's flat list is the written one without its marks");
    let flat = unpacked.params.len();
    let indices = &unpacked.indices;
    let one_or_none = |place: Option<u32>, none: usize| match place {
        Some(place) => place as usize..place as usize + 1,
        None => none..none,
    };
    let ranges = [
        indices.pos_only(),
        indices.pos_or_named(),
        one_or_none(indices.args, indices.pos_or_named().end),
        indices.named_only(flat),
        one_or_none(indices.kwargs, flat),
    ];
    let words = ranges.iter().flat_map(|range| [range.start as u32, range.end as u32]);
    let bytes = unpacked.params.iter().map(|param| mode(&param.node.kind)).collect();
    Answer { bytes, ..Answer::accepted(words.chain([flat as u32]).collect()) }
}

fn mode(kind: &DefParamKind<AstNoPayload>) -> u8 {
    match kind {
        DefParamKind::Regular(DefRegularParamMode::PosOnly, _) => 1,
        DefParamKind::Regular(DefRegularParamMode::PosOrName, _) => 2,
        DefParamKind::Regular(DefRegularParamMode::NameOnly, _) => 3,
        DefParamKind::Args => 4,
        DefParamKind::Kwargs => 5,
    }
}

pub fn call(table: &Table, node: usize) -> Built<Answer> {
    let args = CallArgsP { args: marked(table).arguments(node)? };
    Ok(match CallArgsUnpack::unpack(&args, codemap()) {
        Ok(unpacked) => {
            let nodes: Vec<usize> = table.children_of(node, Class::Argument).collect();
            let place = |span| {
                let at = marks::read_node(span);
                nodes.iter().position(|&node| node == at).expect("an argument of this call") as u32
            };
            Answer::accepted(vec![
                unpacked.pos.len() as u32,
                unpacked.named.len() as u32,
                unpacked.star.map_or(jobs::NONE, |arg| place(arg.span)),
                unpacked.star_star.map_or(jobs::NONE, |arg| place(arg.span)),
            ])
        }
        Err(error) => refusal(table, error).into(),
    })
}

pub fn target(table: &Table, node: usize) -> Built<Answer> {
    let expression = marked(table).expression(node)?;
    Ok(match check_assign(codemap(), expression) {
        Ok(target) => Answer::accepted(vec![leaves(&target)]),
        Err(error) => refusal(table, error).into(),
    })
}

fn leaves(target: &AstAssignTarget) -> u32 {
    match &target.node {
        AssignTargetP::Tuple(items) => items.iter().map(leaves).sum(),
        AssignTargetP::Index(_) | AssignTargetP::Dot(..) | AssignTargetP::Identifier(_) => 1,
    }
}

pub fn assignment(table: &Table, node: usize) -> Built<Answer> {
    Ok(match checked_assignment(&marked(table), node)? {
        Ok(StmtP::Assign(it)) => Answer::accepted(vec![leaves(&it.lhs)]),
        Ok(StmtP::AssignModify(lhs, ..)) => Answer::accepted(vec![leaves(&lhs)]),
        Ok(other) => panic!("an assignment became another statement: {other}"),
        Err(error) => refusal(table, error).into(),
    })
}

fn checked_assignment(trees: &Trees, node: usize) -> Built<Result<Stmt, EvalException>> {
    let table = trees.table;
    let kids: Vec<usize> = table.children(node).collect();
    let lhs = trees.expression(kids[0])?;
    let ty = trees.assigned_type(node)?.map(Box::new);
    let op = (table.kind(node) == kind::ASSIGN_MODIFY).then(|| assign_op(node));
    let rhs = trees.expression(kids[kids.len() - 1])?;
    Ok(check_assignment(codemap(), lhs, ty, op, rhs))
}

/// Both the dialect's check and the reading of the type, which must say the same.
pub fn type_shape(table: &Table, node: usize, dialect: &Dialect) -> Built<Answer> {
    let expression = marked(table).expression(node)?;
    let checked = dialect_check_type(expression.clone(), dialect, codemap());
    let unpacked = TypeExprUnpackP::unpack(&expression, codemap());
    Ok(match (checked, unpacked) {
        (Ok(_), Ok(read)) => {
            let mut bytes = vec![0; table.size(node)];
            write_shapes(node, node, &read, &mut bytes);
            Answer { bytes, ..Answer::default() }
        }
        (Err(error), unpacked) => {
            let refusal = refusal(table, error);
            if refusal.number != number::TYPES_DISABLED {
                let error = unpacked.err().expect("what the dialect's check refuses is no type");
                let at = error.span().map(|span| marks::read_node(span.span) as u32);
                assert_eq!((messages::type_number(error.inner()), at), (refusal.number, refusal.node));
            }
            refusal.into()
        }
        (Ok(_), Err(error)) => panic!("the dialect's check accepts what is no type: {error}"),
    })
}

/// A shape at each node that the crate reads as a type or an argument.
fn write_shapes(
    first: usize,
    node: usize,
    read: &Spanned<TypeExprUnpackP<AstNoPayload>>,
    bytes: &mut [u8],
) {
    assert_eq!(marks::read_node(read.span), node, "the crate reads the type at this record");
    let (shape, items): (u8, Vec<_>) = match &read.node {
        TypeExprUnpackP::Ellipsis => (1, Vec::new()),
        TypeExprUnpackP::Path(_) => (2, Vec::new()),
        TypeExprUnpackP::Index(_, index) => (3, vec![&**index]),
        TypeExprUnpackP::Index2(_, first, second) => (4, vec![&**first, &**second]),
        TypeExprUnpackP::List(items) => (5, items.iter().collect()),
        TypeExprUnpackP::Union(items) => (6, items.iter().collect()),
        TypeExprUnpackP::Tuple(items) => (7, items.iter().collect()),
    };
    bytes[node - first] = shape;
    for item in items {
        write_shapes(first, marks::read_node(item.span), item, bytes);
    }
}

/// What the crate says of a table: of each top-level statement as a module of its own, and where the whole table has one number of the
/// whole as one module.
pub struct Judged {
    pub by_statement: Answer,
    pub whole: Option<Answer>,
}

impl From<Answer> for Judged {
    fn from(answer: Answer) -> Judged {
        Judged { by_statement: answer, whole: None }
    }
}

impl Judged {
    pub fn all(&self) -> impl Iterator<Item = &Answer> {
        std::iter::once(&self.by_statement).chain(&self.whole)
    }
}

/// An error of the crate's module pass: its number, its record, and the number of the source file of the statement that was its module.
#[derive(Clone, Copy, Debug, PartialEq, Eq, PartialOrd, Ord)]
pub struct Told {
    pub number: u32,
    pub node: usize,
    pub file: u32,
}

impl Told {
    fn words(&self, table: &Table) -> [u32; ERROR_WORDS] {
        let Span { begin, end, .. } = table.span(self.node);
        [self.number, self.file, begin, end]
    }
}

/// A whole table as the crate's tree, ready for any dialect.
pub struct Module<'a, 'n> {
    table: &'a Table<'n>,
    statement: AstStmt,
    places: Vec<Place>,
    parents: Vec<usize>,
}

impl<'a, 'n> Module<'a, 'n> {
    pub fn of(table: &'a Table<'n>) -> Built<Module<'a, 'n>> {
        let statement = marked(table).statement(0)?;
        let places = back::must_be_the_table(table, &statement);
        Ok(Module { table, statement, places, parents: parents(table) })
    }

    /// The top-level statements: those of a root Statements, or the root itself.
    fn statements(&self) -> &[AstStmt] {
        match &self.statement.node {
            StmtP::Statements(all) => all,
            _ => std::slice::from_ref(&self.statement),
        }
    }

    fn file(&self, statement: &AstStmt) -> u32 {
        u32::from(self.table.records[marks::read_node(statement.span)].file)
    }

    /// The number of all top-level statements, where they have one.
    fn one_file(&self) -> Option<u32> {
        let mut files = self.statements().iter().map(|statement| self.file(statement));
        let first = files.next().unwrap_or(0);
        files.all(|file| file == first).then_some(first)
    }

    /// Each top-level statement as a module of its own: the errors of statements, in turn and in the crate's order, then those of
    /// expressions.
    fn by_statement(&self, dialect: &Dialect) -> Vec<Told> {
        let lists = self.statements().iter().map(|statement| self.listed(statement, self.file(statement), dialect));
        let (statements, expressions): (Vec<_>, Vec<_>) = lists.unzip();
        [statements.concat(), expressions.concat()].concat()
    }

    /// The whole table as one module, where it has one number.
    fn whole(&self, dialect: &Dialect) -> Option<Vec<Told>> {
        let (statements, expressions) = self.listed(&self.statement, self.one_file()?, dialect);
        Some([statements, expressions].concat())
    }

    /// The list that is judged by statements, as the job's words.
    pub fn errors(&self, dialect: &Dialect) -> Vec<[u32; ERROR_WORDS]> {
        self.by_statement(dialect).iter().map(|error| error.words(self.table)).collect()
    }

    pub fn judged(&self, dialect: &Dialect) -> Judged {
        let answer = |list: Vec<Told>| {
            let errors: Vec<_> = list.iter().map(|error| error.words(self.table)).collect();
            let total = errors.len() as u32;
            Answer { errors, ..Answer::accepted(vec![total]) }
        };
        Judged { by_statement: answer(self.by_statement(dialect)), whole: self.whole(dialect).map(answer) }
    }

    /// The errors of one module: those of statements in the crate's order, and those of expressions. The errors of each expression are in
    /// the crate's order, and the expressions in table order, since the crate's is not known.
    fn listed(&self, module: &AstStmt, file: u32, dialect: &Dialect) -> (Vec<Told>, Vec<Told>) {
        let mut statements = Vec::new();
        let mut expressions: Vec<(usize, Vec<Told>)> = Vec::new();
        for error in validate_module(module, dialect, codemap()) {
            let (number, mark) = messages::read(error);
            let Mark::Node(node) = mark else { panic!("the module pass reports a name") };
            let error = Told { number, node, file };
            match owner_expression(self.table, &self.parents, node) {
                None => {
                    assert!(expressions.is_empty(), "the crate looks at statements first");
                    statements.push(error);
                }
                Some(owner) => match expressions.last_mut() {
                    Some((last, errors)) if *last == owner => errors.push(error),
                    _ => expressions.push((owner, vec![error])),
                },
            }
        }
        expressions.sort();
        let seen_twice = expressions.windows(2).any(|pair| pair[0].0 == pair[1].0);
        assert!(!seen_twice, "the errors of one expression stand together");
        (statements, expressions.into_iter().flat_map(|(_, errors)| errors).collect())
    }
}

/// The crate's functions on every node that they fit, and its module pass.
pub struct Audit<'a, 'n> {
    table: &'a Table<'n>,
    module: Built<Module<'a, 'n>>,
}

/// An error of the audit: number, file, begin, end, node.
type Found = [u32; AUDIT_WORDS];

impl<'a, 'n> Audit<'a, 'n> {
    pub fn of(table: &'a Table<'n>) -> Audit<'a, 'n> {
        Audit { table, module: Module::of(table) }
    }

    /// The whole list, where the whole table is a tree of the crate; that tree determines where its functions are run.
    pub fn judged(&self, dialect: &Dialect) -> Built<Judged> {
        let module = self.module.as_ref().map_err(|none| *none)?;
        let mut refused: Vec<Found> = Vec::new();
        for &place in &module.places {
            refused.extend(refused_at(self.table, place, dialect)?);
        }
        let answer = |list: Vec<Told>| {
            let own = list.iter().filter(|error| !is_of_list(error.number)).map(|error| {
                let [number, file, begin, end] = error.words(self.table);
                [number, file, begin, end, error.node as u32]
            });
            let audited: Vec<Found> = own.chain(refused.iter().copied()).collect();
            let total = audited.len() as u32;
            Answer { audited, ..Answer::accepted(vec![total]) }
        };
        let whole = module.whole(dialect).map(answer);
        Ok(Judged { by_statement: answer(module.by_statement(dialect)), whole })
    }

    /// Of a table that is not a tree: what the crate says of those of these places that are.
    pub fn parts<'s>(
        &'s self,
        dialect: &'s Dialect,
        places: Vec<Place>,
    ) -> impl Iterator<Item = (Place, Option<Found>)> + 's {
        places.into_iter().filter_map(|place| Some((place, refused_at(self.table, place, dialect).ok()?)))
    }
}

/// The numbers of parameter lists, which the module pass gives too.
fn is_of_list(number: u32) -> bool {
    (number::SLASH_FIRST..=number::STAR_NOT_FOLLOWED).contains(&number)
}

fn refused_at(table: &Table, place: Place, dialect: &Dialect) -> Built<Option<Found>> {
    let answer = match place.job {
        Job::Params => params(table, place.node),
        Job::Call => call(table, place.node),
        Job::Assignment => assignment(table, place.node),
        Job::Target => target(table, place.node),
        Job::Type => type_shape(table, place.node, dialect),
    }?;
    let words = |answer: Answer| match answer.words[..] {
        [node, begin, end, _, file] => [answer.number, file, begin, end, node],
        _ => panic!("a refusal of the crate has a node, a span, an earlier node or none, and a file, not {:?}", answer.words),
    };
    Ok(Some(answer).filter(|answer| answer.number != 0).map(words))
}

/// The expression that an error at this node belongs to; none if it is a statement's.
fn owner_expression(table: &Table, parents: &[usize], node: usize) -> Option<usize> {
    let owner = match table.kind(node) {
        kind::NORMAL..=kind::KWARGS => parents[node],
        _ => node,
    };
    model::table::is_expression(table.kind(owner)).then_some(owner)
}

fn parents(table: &Table) -> Vec<usize> {
    let mut parents = vec![0; table.records.len()];
    for node in 0..table.records.len() {
        for child in table.children(node) {
            parents[child] = node;
        }
    }
    parents
}

/// What the crate refuses on a tree that has the table's own spans: number, file, begin, end of each error. The file is that of the
/// top-level statement.
pub mod own_spans {
    use super::*;

    type Words = [u32; ERROR_WORDS];

    fn own<'a, 'n>(table: &'a Table<'n>) -> Trees<'a, 'n> {
        Trees { table, spans: Spans::Table }
    }

    fn words(file: u32, error: EvalException) -> Words {
        let (number, span) = messages::number_and_span(error);
        [number, file, span.begin().get(), span.end().get()]
    }

    fn refused<T>(table: &Table, node: usize, result: Result<T, EvalException>) -> Vec<Words> {
        result.err().map(|error| words(file_of(table, node), error)).into_iter().collect()
    }

    pub fn params(table: &Table, owner: usize) -> Built<Vec<Words>> {
        Ok(refused(table, owner, DefParams::unpack(&own(table).parameters(owner)?, codemap())))
    }

    pub fn call(table: &Table, node: usize) -> Built<Vec<Words>> {
        let args = CallArgsP { args: own(table).arguments(node)? };
        Ok(refused(table, node, CallArgsUnpack::unpack(&args, codemap())))
    }

    pub fn target(table: &Table, node: usize) -> Built<Vec<Words>> {
        Ok(refused(table, node, check_assign(codemap(), own(table).expression(node)?)))
    }

    pub fn assignment(table: &Table, node: usize) -> Built<Vec<Words>> {
        Ok(refused(table, node, checked_assignment(&own(table), node)?))
    }

    pub fn type_shape(table: &Table, node: usize, dialect: &Dialect) -> Built<Vec<Words>> {
        Ok(refused(table, node, dialect_check_type(own(table).expression(node)?, dialect, codemap())))
    }

    /// Each top-level statement is a tree and a module of its own.
    pub fn module(table: &Table, dialect: &Dialect) -> Built<Vec<Words>> {
        let statements: Vec<usize> = match table.kind(0) {
            kind::STATEMENTS => table.children(0).collect(),
            _ => vec![0],
        };
        let mut errors = Vec::new();
        for node in statements {
            let file = u32::from(table.records[node].file);
            let found = validate_module(&own(table).statement(node)?, dialect, codemap());
            errors.extend(found.into_iter().map(|error| words(file, error)));
        }
        Ok(errors)
    }

    pub fn audit(table: &Table, dialect: &Dialect) -> Built<Vec<Words>> {
        let places = Module::of(table)?.places;
        let mut errors = module(table, dialect)?;
        errors.retain(|error| !is_of_list(error[0]));
        for place in places {
            errors.extend(match place.job {
                Job::Params => params(table, place.node),
                Job::Call => call(table, place.node),
                Job::Assignment => assignment(table, place.node),
                Job::Target => target(table, place.node),
                Job::Type => type_shape(table, place.node, dialect),
            }?);
        }
        Ok(errors)
    }
}
