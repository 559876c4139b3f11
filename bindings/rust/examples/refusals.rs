//! One case of each number: reads the requests of bindings/refusals.txt (python/tests/refusals.py says what a request is), and prints of each the
//! number, its name and words, and what it carries, as the wrapper has it.

use starlark_checks::books;
use starlark_checks::figures;
use starlark_checks::fstring_read;
use starlark_checks::fstring_write_words;
use starlark_checks::read;
use starlark_checks::rescue;
use starlark_checks::At;
use starlark_checks::Edition;
use starlark_checks::Number;
use starlark_checks::Refused;
use starlark_checks::Table;

/// An argument of a request.
enum Argument {
    Bytes(Vec<u8>),
    Words(Vec<u32>),
    Number(u64),
}

fn bytes(text: &str) -> Vec<u8> {
    let (digits, times) = text.split_once('*').unwrap_or((text, "1"));
    let once: Vec<u8> = (0..digits.len() / 2).map(|at| u8::from_str_radix(&digits[2 * at..2 * at + 2], 16).expect("a byte")).collect();
    once.repeat(times.parse().expect("a number"))
}

fn argument(text: &str) -> Argument {
    let number = |word: &str| word.parse().expect("a number");
    match text.split_once(':') {
        Some(("x", digits)) => Argument::Bytes(bytes(digits)),
        Some(("b", length)) => Argument::Bytes(vec![9; number(length) as usize]),
        Some(("w", length)) => Argument::Words(vec![9; number(length) as usize]),
        Some(("p", words)) => Argument::Words(words.split(',').map(|word| number(word) as u32).collect()),
        Some((_, count)) => Argument::Number(number(count)),
        None => Argument::Number(number(text)),
    }
}

/// What a request comes to: its number and what it carries.
struct Answer(Number, String);

fn of_refusal(refused: Refused) -> Answer {
    let carried = match refused.at {
        At::Nowhere => "nothing".to_string(),
        At::Position(at) => format!("position {at}"),
        At::Node(node) => format!("node {node}"),
        At::Span { node, file, begin, end, earlier: None } => format!("node {node}, file {file}, bytes {begin} to {end}"),
        At::Span { node, file, begin, end, earlier: Some(first) } => {
            format!("node {node}, file {file}, bytes {begin} to {end}, first at node {first}")
        }
    };
    Answer(refused.number, carried)
}

fn of_book(refused: books::Refused) -> Answer {
    let carried = match refused.book {
        None => "nothing",
        Some(books::Book::Zone) => "book 0",
        Some(books::Book::Line) => "book 1",
    };
    Answer(refused.number, carried.to_string())
}

fn refused<T>(answer: Result<T, Refused>) -> Answer {
    of_refusal(answer.err().expect("each request is refused"))
}

/// The arguments of a request, in turn.
struct Arguments(std::vec::IntoIter<Argument>);

impl Arguments {
    fn bytes(&mut self) -> Vec<u8> {
        match self.0.next() {
            Some(Argument::Bytes(bytes)) => bytes,
            _ => panic!("bytes are wanted"),
        }
    }

    fn words(&mut self) -> Vec<u32> {
        match self.0.next() {
            Some(Argument::Words(words)) => words,
            _ => panic!("words are wanted"),
        }
    }

    fn number(&mut self) -> u64 {
        match self.0.next() {
            Some(Argument::Number(number)) => number,
            _ => panic!("a number is wanted"),
        }
    }

    fn node(&mut self) -> usize {
        self.number() as usize
    }
}

fn on_table(job: &str, table: Table, a: &mut Arguments) -> Answer {
    match job {
        "table" => refused(table.check()),
        "params" => refused(table.params(a.node(), &mut a.bytes())),
        "call" => refused(table.call(a.node())),
        "target" => refused(table.target(a.node())),
        "assignment" => refused(table.assignment(a.node())),
        "bind" => refused(table.bind(a.node(), a.node(), &mut a.words())),
        "type" => {
            let (dialect, edition) = (a.bytes(), a.number());
            let edition = Edition::try_from(edition as u32).expect("an edition");
            refused(table.type_shape(&dialect, edition, a.node(), &mut a.bytes()))
        }
        "module" => {
            let (dialect, mut list) = (a.bytes(), a.words());
            let error = table.module(&dialect, &mut list).expect("a module is not refused").iter().next().expect("an error");
            Answer(error.number, format!("file {}, bytes {} to {}", error.file, error.span.start, error.span.end))
        }
        _ => panic!("there is no job {job}"),
    }
}

fn answer(job: &str, a: &mut Arguments) -> Answer {
    match job {
        "read" => refused(read(&a.bytes(), &mut a.bytes(), &mut a.bytes())),
        "rescue" => refused(rescue(&a.bytes(), &mut a.bytes())),
        "fstring_read" => {
            let (text, mut words, mut texts) = (a.bytes(), a.words(), a.bytes());
            let answer = fstring_read(&text, &mut words, &mut texts).map(|_| ());
            refused(answer)
        }
        "fstring_write" => {
            let (words, texts, dialect, mut text) = (a.words(), a.bytes(), a.bytes(), a.bytes());
            match fstring_write_words(&words, &texts, &dialect, &mut text) {
                Ok(formatted) => {
                    assert!(!formatted.enabled, "the notice is given");
                    Answer(Number::FStringsDisabled, "notice".to_string())
                }
                Err(refused) => of_refusal(refused),
            }
        }
        "book_lookup" => of_book(books::lookup(&a.bytes(), &a.bytes(), a.number() as u32, a.number() as u32).expect_err("refused")),
        "book_add" => {
            let (mut zone, mut line) = (a.bytes(), a.bytes());
            of_book(books::add(&mut zone, &mut line, a.number() as u32, a.number() as u32, &a.bytes()).expect_err("refused"))
        }
        "figures_step" => {
            let window = a.bytes();
            let mut counts = figures::Figures { files: a.number(), ..Default::default() };
            Answer(figures::step(&window, &mut counts).expect_err("refused"), "nothing".to_string())
        }
        _ => {
            let (nodes, names) = (a.bytes(), a.bytes());
            on_table(job, Table { nodes: &nodes, names: &names }, a)
        }
    }
}

fn main() {
    let path = std::env::args().nth(1).expect("the file of requests is named");
    for line in std::fs::read_to_string(path).expect("the requests can be read").lines() {
        let mut words = line.split(' ').skip(1);
        let job = words.next().expect("a job");
        let arguments: Vec<Argument> = words.map(argument).collect();
        let Answer(number, carried) = answer(job, &mut Arguments(arguments.into_iter()));
        println!("{} {}: {}; {carried}", u32::from(number), number.name(), number.words());
    }
}
