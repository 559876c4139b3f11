//! What is measured on: lists, types and targets of a given length, and ordinary modules of a given number of nodes.

use model::numbers::kind;

use crate::tables::Tables;

/// A table, its name bytes, and the node that a job is asked about.
pub struct Input {
    pub table: Vec<u8>,
    pub names: Vec<u8>,
    pub node: usize,
}

fn input(tables: Tables, node: usize) -> Input {
    let (table, names) = tables.finish();
    Input { table, names, node }
}

fn long_name(number: usize) -> String {
    const WORDS: [&str; 8] = ["srcs", "deps", "visibility", "output", "compiler_flags", "name", "tags", "platform"];
    format!("{}_{number}", WORDS[number % WORDS.len()])
}

/// `def f(a, b, c = 1, *, d = 2, **kwargs)` of the given number of entries, a third of them without a default, and `pass`. The Def is node 0.
pub fn parameters(entries: usize) -> Input {
    let mut tables = Tables::default();
    tables.node(kind::DEF, |t| {
        let star = if entries >= 16 { entries / 2 } else { entries };
        for at in 0..entries - 1 {
            match at {
                _ if at == star => t.leaf(kind::NO_ARGS),
                _ if at < entries / 3 => t.full(kind::NORMAL, 0, &long_name(at), |_| {}),
                _ => t.full(kind::NORMAL, 2, &long_name(at), |t| t.leaf(kind::INT)),
            }
        }
        t.full(kind::KWARGS, 0, "kwargs", |_| {});
        t.leaf(kind::SIMPLE);
    });
    input(tables, 0)
}

/// `def f(a, b, c)` with `entries` short names, and `pass`. The Def is node 0.
pub fn plain_parameters(entries: usize) -> Input {
    named_parameters(Family::Short, entries)
}

/// `f(1, 2, a = 3, b = 4, **kwargs)` of the given number of arguments, a quarter of them positional. The Call is node 1.
pub fn arguments(entries: usize) -> Input {
    let mut tables = Tables::default();
    tables.node(kind::SIMPLE, |t| {
        t.node(kind::CALL, |t| {
            t.ident("rule");
            for at in 0..entries - 1 {
                match at < entries / 4 {
                    true => t.positional(|t| t.leaf(kind::STRING)),
                    false => t.named(&long_name(at), |t| t.leaf(kind::STRING)),
                }
            }
            t.node(kind::STAR_STAR_ARGUMENT, |t| t.ident("kwargs"));
        })
    });
    input(tables, 1)
}

/// What the names of a list have in common.
#[derive(Clone, Copy)]
pub enum Family {
    /// All different, with a common prefix of 12 bytes.
    Prefix,
    /// All of one length, different in the last byte alone; from 64 names on in the last two, from 1,000 on in more.
    LastByte,
    /// All different, of 1 to 3 bytes.
    Short,
    /// Ordinary names, and the last repeats the first.
    Repeated,
}

/// A family with its words, and the most arguments with names of it. A table has at most 2,100 nodes and 8,064 name bytes: these hold 1,000
/// arguments, whose names overlap where they are long, and 560 names that begin with the same 12 bytes, since those cannot.
pub const FAMILIES: [(&str, Family, usize); 4] = [
    ("a prefix of 12 bytes", Family::Prefix, 560),
    ("the last byte differs", Family::LastByte, 1_000),
    ("1 to 3 bytes", Family::Short, 1_000),
    ("the last repeats the first", Family::Repeated, 1_000),
];

const LETTERS: &[u8; 63] = b"abcdefghijklmnopqrstuvwxyzABCDEFGHIJKLMNOPQRSTUVWXYZ0123456789_";

fn letter(number: usize) -> char {
    LETTERS[number % LETTERS.len()] as char
}

/// A number in letters.
fn short_name(number: usize) -> String {
    let mut name = letter(number % 52).to_string();
    let mut left = number / 52;
    while left > 0 {
        left -= 1;
        name.push(letter(left));
        left /= LETTERS.len();
    }
    name
}

/// A text in which names of 16 bytes overlap.
fn text() -> String {
    let mut state: u64 = 1;
    let mut next = || {
        state = state.wrapping_mul(6364136223846793005).wrapping_add(1442695040888963407);
        (state >> 33) as usize
    };
    (0..8_016).map(|_| letter(next() % 52)).collect()
}

/// The given number of names of a family, and the text that they are in where they overlap.
fn names(family: Family, entries: usize) -> (String, Vec<String>) {
    let overlapping = entries >= 1_000;
    let all = if overlapping { text() } else { String::new() };
    let mut names: Vec<String> = (0..entries)
        .map(|at| match family {
            Family::Short => short_name(at),
            _ if overlapping => all[4 * at..4 * at + 16].to_owned(),
            Family::Prefix => format!("common_name_{}", short_name(at)),
            Family::LastByte if entries <= 63 => format!("of_one_length_{}", letter(at)),
            Family::LastByte => format!("of_one_len{}{}", letter(at / 63), letter(at)),
            Family::Repeated => long_name(at),
        })
        .collect();
    if let Family::Repeated = family {
        names[entries - 1] = names[0].clone();
    }
    (if matches!(family, Family::Short) { String::new() } else { all }, names)
}

/// `def f(a, b, c)` with the given number of names of a family, and `pass`. The Def is node 0.
pub fn named_parameters(family: Family, entries: usize) -> Input {
    let (text, names) = names(family, entries);
    let mut tables = Tables::from_text(&text);
    tables.node(kind::DEF, |t| {
        names.iter().for_each(|name| t.full(kind::NORMAL, 0, name, |_| {}));
        t.leaf(kind::SIMPLE);
    });
    input(tables, 0)
}

/// `f(a = 1, b = 2, c = 3)` with the given number of names of a family. The Call is node 1.
pub fn named_arguments(family: Family, entries: usize) -> Input {
    let (text, names) = names(family, entries);
    let mut tables = Tables::from_text(&text);
    tables.node(kind::SIMPLE, |t| {
        t.node(kind::CALL, |t| {
            t.ident("f");
            names.iter().for_each(|name| t.named(name, |t| t.leaf(kind::STRING)));
        })
    });
    input(tables, 1)
}

/// How a call's arguments are written.
#[derive(Clone, Copy)]
pub enum Written {
    ByPlace,
    ByName,
    /// By name, in an order that has the names apart from their parameters: each third one, then the next.
    Shuffled,
}

/// Where the Def of a binding is; the Call is the input's node.
pub const BOUND_DEF: usize = 1;

/// `def f(a, b, c)` with the given number of parameters without default, and after it `f(1, 2, 3)` or `f(a = 1, b = 2, c = 3)` with as many arguments.
pub fn binding(entries: usize, written: Written) -> Input {
    let mut tables = Tables::default();
    let mut call = 0;
    tables.node(kind::STATEMENTS, |t| {
        t.node(kind::DEF, |t| {
            (0..entries).for_each(|at| t.full(kind::NORMAL, 0, &long_name(at), |_| {}));
            t.leaf(kind::SIMPLE);
        });
        t.node(kind::SIMPLE, |t| {
            call = t.len();
            t.node(kind::CALL, |t| {
                t.ident("f");
                for at in order(entries, written) {
                    match written {
                        Written::ByPlace => t.positional(|t| t.leaf(kind::INT)),
                        _ => t.named(&long_name(at), |t| t.leaf(kind::INT)),
                    }
                }
            })
        });
    });
    input(tables, call)
}

fn order(entries: usize, written: Written) -> Vec<usize> {
    match written {
        Written::Shuffled => (0..3).flat_map(|first| (first..entries).step_by(3)).collect(),
        _ => (0..entries).collect(),
    }
}

/// Node 1 is the type.
fn typed(build: impl FnOnce(&mut Tables)) -> Input {
    let mut tables = Tables::default();
    tables.node(kind::SIMPLE, build);
    input(tables, 1)
}

/// `list[str]`
pub fn small_type() -> Input {
    typed(|t| t.index_type("list", "str"))
}

/// `dict[str, list[int] | None]`: an Index2 over a union.
pub fn middle_type() -> Input {
    typed(|t| {
        t.node(kind::INDEX2, |t| {
            t.ident("dict");
            t.ident("str");
            t.full(kind::OP, 1, "", |t| {
                t.index_type("list", "int");
                t.ident("None");
            });
        })
    })
}

/// `typing.Callable[[a, b, ...], c]` with the given number of types in its list.
pub fn large_type(items: usize) -> Input {
    typed(|t| {
        t.node(kind::INDEX2, |t| {
            t.dot("typing", "Callable");
            t.node(kind::LIST, |t| (0..items).for_each(|at| t.ident(&long_name(at))));
            t.index_type("list", "str");
        })
    })
}

/// `(a, b.c, d[0], ...)`. Node 1 is the target.
pub fn target(items: usize) -> Input {
    typed(|t| {
        t.node(kind::TUPLE, |t| {
            for at in 0..items {
                match at % 3 {
                    0 => t.ident(&long_name(at)),
                    1 => t.dot(&long_name(at), "value"),
                    _ => t.node(kind::INDEX, |t| {
                        t.ident(&long_name(at));
                        t.leaf(kind::INT);
                    }),
                }
            }
        })
    })
}

/// A module of exactly the given number of nodes: parts of build scripts in turn, then `pass` for what is left. Extended accepts it; in Standard the
/// bare `*` of each def and the statements that are at the top level are errors.
pub fn module(nodes: usize) -> Input {
    const PARTS: [fn(&mut Tables, usize); 6] = [loads, constants, function, rule, comprehension, top_level];
    let mut tables = Tables::default();
    tables.node(kind::STATEMENTS, |t| {
        for number in 0.. {
            let mut longer = t.clone();
            PARTS[number % PARTS.len()](&mut longer, number);
            if longer.len() > nodes {
                break;
            }
            *t = longer;
        }
        while t.len() < nodes {
            t.leaf(kind::SIMPLE);
        }
    });
    input(tables, 0)
}

fn loads(t: &mut Tables, _number: usize) {
    t.leaf(kind::LOAD);
    t.leaf(kind::LOAD);
}

/// `NAME = {"a": [1, 2], "b": x.y}`
fn constants(t: &mut Tables, number: usize) {
    t.node(kind::ASSIGN, |t| {
        t.ident(&long_name(number));
        t.node(kind::DICT, |t| {
            t.leaf(kind::STRING);
            t.node(kind::LIST, |t| (0..2).for_each(|_| t.leaf(kind::INT)));
            t.leaf(kind::STRING);
            t.dot("config", "value");
        });
    });
}

/// A def with types and defaults, and a body with a loop, a branch and a return.
fn function(t: &mut Tables, _number: usize) {
    t.full(kind::DEF, 1, "", |t| {
        t.full(kind::NORMAL, 0, "ctx", |_| {});
        t.full(kind::NORMAL, 1, "srcs", |t| t.index_type("list", "str"));
        t.leaf(kind::NO_ARGS);
        t.full(kind::NORMAL, 3, "deps", |t| {
            t.index_type("list", "str");
            t.leaf(kind::LIST);
        });
        t.full(kind::NORMAL, 2, "visibility", |t| t.ident("None"));
        t.full(kind::KWARGS, 0, "kwargs", |_| {});
        t.ident("struct");
        t.node(kind::STATEMENTS, body);
    });
}

fn body(t: &mut Tables) {
    t.node(kind::SIMPLE, |t| t.leaf(kind::STRING));
    t.node(kind::ASSIGN, |t| {
        t.ident("result");
        t.leaf(kind::LIST);
    });
    t.node(kind::FOR, |t| {
        t.ident("src");
        t.ident("srcs");
        t.node(kind::STATEMENTS, |t| {
            t.node(kind::IF_STATEMENT, |t| {
                method(t, "src", "endswith", |t| t.leaf(kind::STRING));
                t.leaf(kind::CONTINUE);
            });
            t.node(kind::SIMPLE, |t| method(t, "result", "append", |t| t.ident("src")));
        });
    });
    t.node(kind::IF_ELSE, |t| {
        t.node(kind::NOT, |t| t.ident("deps"));
        t.node(kind::ASSIGN_MODIFY, |t| {
            t.ident("result");
            t.ident("deps");
        });
        t.leaf(kind::SIMPLE);
    });
    t.node(kind::RETURN, |t| {
        t.node(kind::CALL, |t| {
            t.ident("struct");
            t.named("files", |t| t.ident("result"));
            t.named("deps", |t| t.ident("deps"));
            t.node(kind::STAR_STAR_ARGUMENT, |t| t.ident("kwargs"));
        })
    });
}

fn method(t: &mut Tables, object: &str, field: &str, argument: impl FnOnce(&mut Tables)) {
    t.node(kind::CALL, |t| {
        t.dot(object, field);
        t.positional(argument);
    })
}

/// `library(name = "...", srcs = [...], deps = [...], visibility = [...])`
fn rule(t: &mut Tables, _number: usize) {
    t.node(kind::SIMPLE, |t| {
        t.node(kind::CALL, |t| {
            t.ident("library");
            t.named("name", |t| t.leaf(kind::STRING));
            t.named("srcs", |t| method(t, "native", "glob", |t| t.leaf(kind::STRING)));
            t.named("deps", |t| t.node(kind::LIST, |t| (0..4).for_each(|_| t.leaf(kind::STRING))));
            t.named("visibility", |t| t.node(kind::LIST, |t| t.leaf(kind::STRING)));
        })
    });
}

/// `x = [f(y) for y in sorted(z, key = lambda a: a.b) if y]`
fn comprehension(t: &mut Tables, number: usize) {
    t.node(kind::ASSIGN, |t| {
        t.ident(&long_name(number));
        t.node(kind::LIST_COMPREHENSION, |t| {
            t.node(kind::CALL, |t| {
                t.ident("str");
                t.positional(|t| t.ident("item"));
            });
            t.ident("item");
            t.node(kind::CALL, |t| {
                t.ident("sorted");
                t.positional(|t| t.ident("items"));
                t.named("key", |t| {
                    t.node(kind::LAMBDA, |t| {
                        t.full(kind::NORMAL, 0, "entry", |_| {});
                        t.dot("entry", "name");
                    })
                });
            });
            t.ident("item");
        });
    });
}

/// `if a == b: x += 1` where Standard has no such statement.
fn top_level(t: &mut Tables, _number: usize) {
    t.node(kind::IF_STATEMENT, |t| {
        t.node(kind::OP, |t| {
            t.ident("platform");
            t.leaf(kind::STRING);
        });
        t.node(kind::ASSIGN_MODIFY, |t| {
            t.ident("count");
            t.leaf(kind::INT);
        });
    });
}
