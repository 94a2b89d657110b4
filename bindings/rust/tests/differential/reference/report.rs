//! The bytes of a report (document 01, "A run").
use super::run::Ended;
use super::step::Cell;
use super::term::Value;

/// A record: its length, its kind, its fields as bytes.
fn record(kind: u16, fields: &[u8]) -> Vec<u8> {
    let length = 4 + fields.len() as u16;
    [&length.to_le_bytes(), &kind.to_le_bytes(), fields].concat()
}

/// "Leaves, left to right: kind 65 unit, 66 truth (2 bytes), 67 number (4 bytes)."
fn leaves(value: &Value) -> Vec<u8> {
    match value {
        Value::Unit => record(65, &[]),
        Value::Truth(truth) => record(66, &[u8::from(*truth), 0]),
        Value::Number(number) => record(67, &number.to_le_bytes()),
        Value::Pair(parts) => [leaves(&parts.0), leaves(&parts.1)].concat(),
        other => panic!("no leaves of {other:?}"),
    }
}

/// "A plain cell is kind 68, its domain, then its leaves inside its length; another cell is kind 69 and its domain."
fn cell(cell: &Cell) -> Vec<u8> {
    let domain = cell.domain.to_le_bytes();
    match cell.plain {
        true => record(68, &[&domain[..], &leaves(&cell.value)].concat()),
        false => record(69, &domain),
    }
}

/// "Report: length 10, kind 70, outcome, steps (4 bytes); if done, the result's leaves; then, done or not, each cell in
/// order of creation."
pub fn report(ended: &Ended) -> Vec<u8> {
    let mut bytes = record(70, &[&ended.outcome.to_le_bytes()[..], &ended.steps.to_le_bytes()].concat());
    bytes.extend(ended.value.iter().flat_map(leaves));
    bytes.extend(ended.cells.iter().flat_map(cell));
    bytes
}
