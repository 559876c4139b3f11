//! Targets and assignments.

use crate::answer::Refusal;
use crate::numbers::kind;
use crate::numbers::number;
use crate::planted::planted;
use crate::planted::Fault;
use crate::table::Table;

/// The number of Identifier, Dot and Index leaves, or 30 at the first offender.
pub fn target(table: &Table, node: usize) -> Result<u32, Refusal> {
    match table.kind(node) {
        kind::INDEX if planted(Fault::LeavesInsideIndexCounted) => Ok(table.size(node) as u32),
        kind::IDENTIFIER | kind::DOT | kind::INDEX => Ok(1),
        kind::INDEX2 if planted(Fault::Index2IsTarget) => Ok(1),
        kind::TUPLE if planted(Fault::EmptyTupleNoTarget) && table.size(node) == 1 => {
            Err(table.refuse(number::INVALID_LHS, node))
        }
        kind::TUPLE | kind::LIST => table.children(node).map(|item| target(table, item)).sum(),
        _ => Err(table.refuse(number::INVALID_LHS, node)),
    }
}

/// 31, then 30, then 32, then 33.
pub fn assignment(table: &Table, node: usize) -> Result<u32, Refusal> {
    let is_modify = table.kind(node) == kind::ASSIGN_MODIFY;
    let lhs = table.child(node, 0);
    let is_many = matches!(table.kind(lhs), kind::TUPLE | kind::LIST);
    let list_allowed = table.kind(lhs) == kind::LIST && planted(Fault::ModifyListAllowed);
    let modifies_many = is_modify && is_many && !list_allowed;
    if modifies_many && !planted(Fault::InvalidLhsBeforeModify) {
        return Err(table.refuse(number::INVALID_MODIFY_LHS, lhs));
    }
    let leaves = target(table, lhs)?;
    if modifies_many {
        return Err(table.refuse(number::INVALID_MODIFY_LHS, lhs));
    }
    if table.records[node].detail == 1 {
        let ty = table.child(node, 1);
        if is_modify {
            return Err(table.refuse(number::TYPE_ON_AUGMENTED, ty));
        }
        if is_many && !(table.kind(lhs) == kind::LIST && planted(Fault::TypeOnListAllowed)) {
            return Err(table.refuse(number::TYPE_ON_TUPLE, ty));
        }
    }
    Ok(leaves)
}
