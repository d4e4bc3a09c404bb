//! The walk of a flow's nested sets through a list of kinds.

use crate::flows::named;
use crate::grammar::Kind;
use crate::refusal::Refusal;

#[derive(Clone, Debug, PartialEq, Eq)]
pub enum Step {
    /// The place, from 1, of the first kind behind which no completion exists.
    Stopped(usize),
    /// The list goes through: the kinds that may follow, in the grammar's order.
    Through { complete: bool, follow: Vec<Kind> },
}

/// Kinds are three bytes each, end to end. One cut short, or foreign, is no kind of the
/// flow, so nothing is left behind it.
pub fn step(flow: &[u8], kinds: &[u8]) -> Result<Step, Refusal> {
    let flow = named(flow)?;
    let mut left = flow.grammar.clone();
    for (place, kind) in kinds.chunks(3).enumerate() {
        left = match left.after(kind) {
            Some(left) => left,
            None => return Ok(Step::Stopped(place + 1)),
        };
    }
    let kinds = flow.layouts.iter().map(|layout| layout.kind);
    let follow = kinds.filter(|kind| left.after(kind).is_some()).collect();
    Ok(Step::Through { complete: left.is_complete(), follow })
}
