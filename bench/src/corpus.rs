//! The corpus: tables of real shape, each in turn. A round has every table once, so that no table is looked at twice running, as the cases of
//! `main` are; of each table the least time of all rounds counts, and the sum over all tables is given by the number of their nodes.

use std::fs;
use std::hint::black_box;
use std::path::Path;
use std::time::Instant;

use model::file;
use model::table::RECORD_BYTES;

use crate::cases;
use crate::port::Port;
use crate::scripts::Input;

/// What is done with table number i.
type Work = Box<dyn FnMut(usize)>;

fn inputs(folder: &Path) -> (Vec<&'static Input>, Vec<Vec<u8>>) {
    let entries = fs::read_dir(folder).unwrap_or_else(|error| panic!("{}: {error}", folder.display()));
    let mut paths: Vec<_> = entries.map(|entry| entry.expect("a folder is read").path()).collect();
    paths.sort();
    let files: Vec<Vec<u8>> = paths.iter().map(|path| fs::read(path).expect("a file is read")).collect();
    let input = |bytes: &Vec<u8>| {
        let contents = file::read(bytes).unwrap_or_else(|refusal| panic!("a file of the corpus is refused: {refusal:?}"));
        &*Box::leak(Box::new(Input { table: contents.table, names: contents.names, node: 0 }))
    };
    (files.iter().map(input).collect(), files)
}

/// The sums of the least times, of all works in turn.
fn least(works: &mut [Work], tables: usize, rounds: usize) -> Vec<f64> {
    let mut least = vec![vec![f64::INFINITY; tables]; works.len()];
    for _ in 0..rounds {
        for (work, least) in works.iter_mut().zip(&mut least) {
            for (at, least) in least.iter_mut().enumerate() {
                let began = Instant::now();
                work(at);
                *least = least.min(began.elapsed().as_nanos() as f64);
            }
        }
    }
    least.iter().map(|times| times.iter().sum()).collect()
}

/// Prints the table of the corpus in a folder: the port's jobs, and beside each the route that it is compared with.
pub fn print(folder: &Path, rounds: usize) {
    let dialect = &model::dialect::EXTENDED;
    let (inputs, files) = inputs(folder);
    let nodes: usize = inputs.iter().map(|input| input.table.len() / RECORD_BYTES).sum();
    println!("{} tables, {nodes} nodes, {rounds} rounds; nanoseconds a node\n", inputs.len());
    println!("| job | port | compared with | that | port / that |\n|---|---|---|---|---|");
    let port = |work: fn(&mut Port, &Input, &[u8]) -> u32| {
        let (mut port, inputs, files) = (Port::new(), inputs.clone(), files.clone());
        Box::new(move |at: usize| assert_eq!(black_box(work(&mut port, inputs[at], &files[at])), 0)) as Work
    };
    let (checked, routes) = (inputs.clone(), files.clone());
    let trees: Vec<_> = inputs.iter().map(|input| cases::ready(input)).collect();
    let record = judge::dialects::from_bytes(dialect);
    let rows: Vec<(&str, Work, &str, Work)> = vec![
        (
            "table check",
            port(|port, input, _| port.table(&input.table, &input.names)),
            "the oracle's check",
            Box::new(move |at| drop(black_box(cases::read(checked[at])))),
        ),
        (
            "module pass",
            port(|port, input, _| port.module(&input.table, &input.names, &model::dialect::EXTENDED)),
            "the crate on a ready tree",
            Box::new(move |at| assert_eq!(black_box(cases::validated(&trees[at], &record)), 0)),
        ),
        (
            "file to errors",
            port(|port, _, file| port.file(file)),
            "reading, check, tree, crate",
            Box::new(move |at| assert_eq!(black_box(cases::rust_route(&routes[at])), 0)),
        ),
        (
            "audit",
            port(|port, input, _| port.audit(&input.table, &input.names, &model::dialect::EXTENDED)),
            "the module pass",
            port(|port, input, _| port.module(&input.table, &input.names, &model::dialect::EXTENDED)),
        ),
    ];
    for (job, own, words, other) in rows {
        let sums = least(&mut [own, other], inputs.len(), rounds);
        let (own, other) = (sums[0] / nodes as f64, sums[1] / nodes as f64);
        println!("| {job} | {own:.1} | {words} | {other:.1} | {:.2} |", own / other);
    }
}
