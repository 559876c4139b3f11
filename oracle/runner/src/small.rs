//! Every small tree that the rules of children (docs/FORMAT.md) permit.

use model::numbers::kind;
use model::table::children_rule;
use model::table::class;
use model::table::most_detail;
use model::table::Class;
use model::table::Part;

use crate::cells::Cell;
use crate::cells::TYPE;

const CLASSES: [Class; 4] = [Class::Statement, Class::Expression, Class::Parameter, Class::Argument];

fn place(class: Class) -> usize {
    CLASSES.iter().position(|c| *c == class).expect("one of four")
}

/// All trees of each class up to a number of records.
pub struct Small {
    trees: [Vec<Vec<Vec<Cell>>>; 4],
}

impl Small {
    pub fn up_to(records: usize) -> Small {
        let mut small = Small { trees: [const { Vec::new() }; 4] };
        small.trees.iter_mut().for_each(|of_class| of_class.push(Vec::new()));
        for size in 1..=records {
            let found = CLASSES.map(|class| {
                let mut found = Vec::new();
                small.each(class, size, &mut |tree| found.push(tree.to_vec()));
                found
            });
            small.trees.iter_mut().zip(found).for_each(|(of_class, found)| of_class.push(found));
        }
        small
    }

    /// Every tree of a class with the given number of records, at most one more than those made.
    pub fn each(&self, wanted: Class, size: usize, see: &mut dyn FnMut(&[Cell])) {
        for kind in kind::all().filter(|&kind| class(kind) == Some(wanted)) {
            for detail in 0..=most_detail(kind) {
                for &name in names(kind) {
                    let mut tree = vec![Cell { kind, detail, name, size: size as u16 }];
                    let rule = children_rule(kind, detail);
                    self.fill(kind, &rule, 0, size - 1, &mut tree, see);
                }
            }
        }
    }

    /// Adds children in every way that the rest of the rule permits and the records left allow.
    fn fill(
        &self,
        kind: u8,
        rule: &[Part],
        taken: usize,
        left: usize,
        tree: &mut Vec<Cell>,
        see: &mut dyn FnMut(&[Cell]),
    ) {
        let Some(part) = rule.first() else {
            if left == 0 {
                see(tree);
            }
            return;
        };
        let odd_dict = kind == kind::DICT && taken % 2 == 1;
        if taken >= part.least && !odd_dict {
            self.fill(kind, &rule[1..], 0, left, tree, see);
        }
        if taken < part.most {
            for size in 1..=left {
                for child in &self.trees[place(part.class)][size] {
                    let at = tree.len();
                    tree.extend_from_slice(child);
                    self.fill(kind, rule, taken + 1, left - size, tree, see);
                    tree.truncate(at);
                }
            }
        }
    }
}

/// The names to try: the field of a Dot matters, that of others not here.
fn names(kind: u8) -> &'static [u8] {
    match kind {
        kind::DOT => &[0, TYPE],
        _ => &[0],
    }
}
