//! faults.list says of each fault what it does: neither may have one that the other lacks.

#[test]
fn every_fault_is_listed_once() {
    let list = include_str!("../../faults.list");
    let lines = list.lines().filter(|line| !line.starts_with('#') && !line.is_empty());
    let listed: Vec<&str> = lines.filter_map(|line| line.split('|').next()).map(str::trim).collect();
    let known: Vec<&str> = model::planted::ALL.iter().map(|(name, _)| *name).collect();
    assert_eq!(listed, known);
}
