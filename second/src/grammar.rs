//! Nested sets of kinds, walked by what is left of a set after each kind (its derivative).
//! There is no follow table: the sets themselves are taken apart.

use std::sync::Arc;

/// A kind is three bytes.
pub type Kind = [u8; 3];

/// A set of lists of kinds. Each holds at least one list, for none of the forms is empty.
#[derive(Debug)]
pub enum Set {
    /// The list of no kinds.
    Done,
    One(Kind),
    /// A kind that heads a set, and what may come under it.
    Headed(Kind, Arc<Set>),
    Then(Arc<Set>, Arc<Set>),
    Either(Arc<Set>, Arc<Set>),
    AnyNumber(Arc<Set>),
}

pub fn one(kind: &[u8; 3]) -> Arc<Set> {
    Arc::new(Set::One(*kind))
}

/// The set that a kind heads: the kind, then what comes under it.
pub fn headed(head: &[u8; 3], under: Arc<Set>) -> Arc<Set> {
    Arc::new(Set::Headed(*head, under))
}

/// The sets one after the other.
pub fn in_turn(sets: impl IntoIterator<Item = Arc<Set>>) -> Arc<Set> {
    sets.into_iter().fold(Arc::new(Set::Done), then)
}

pub fn either(first: Arc<Set>, second: Arc<Set>) -> Arc<Set> {
    Arc::new(Set::Either(first, second))
}

/// Any number of the set, none included.
pub fn any_number(set: Arc<Set>) -> Arc<Set> {
    Arc::new(Set::AnyNumber(set))
}

pub fn one_or_more(set: Arc<Set>) -> Arc<Set> {
    then(set.clone(), any_number(set))
}

/// `Done` adds nothing, so it is left out, and the sets of a long walk do not grow.
fn then(first: Arc<Set>, second: Arc<Set>) -> Arc<Set> {
    match (&*first, &*second) {
        (Set::Done, _) => second,
        (_, Set::Done) => first,
        _ => Arc::new(Set::Then(first, second)),
    }
}

impl Set {
    /// Whether the list of no kinds stands under the set.
    pub fn is_complete(&self) -> bool {
        match self {
            Set::One(_) | Set::Headed(..) => false,
            Set::Done | Set::AnyNumber(_) => true,
            Set::Then(first, second) => first.is_complete() && second.is_complete(),
            Set::Either(first, second) => first.is_complete() || second.is_complete(),
        }
    }

    /// What may still come behind this kind: the rests of the set's lists that start with it.
    /// None where no list does, so where no completion exists.
    pub fn after(self: &Arc<Set>, kind: &[u8]) -> Option<Arc<Set>> {
        match &**self {
            Set::Done => None,
            Set::One(own) if own == kind => Some(Arc::new(Set::Done)),
            Set::Headed(head, under) if head == kind => Some(under.clone()),
            Set::One(_) | Set::Headed(..) => None,
            Set::Then(first, second) => {
                let within = first.after(kind).map(|left| then(left, second.clone()));
                let passed = if first.is_complete() { second.after(kind) } else { None };
                either_left(within, passed)
            }
            Set::Either(first, second) => either_left(first.after(kind), second.after(kind)),
            Set::AnyNumber(set) => set.after(kind).map(|left| then(left, self.clone())),
        }
    }

    /// What may come under this kind, all of it; None where the kind heads no set.
    pub fn under(&self, kind: &[u8]) -> Option<&Arc<Set>> {
        match self {
            Set::Done | Set::One(_) => None,
            Set::Headed(head, under) if head == kind => Some(under),
            Set::Headed(_, set) | Set::AnyNumber(set) => set.under(kind),
            Set::Then(first, second) | Set::Either(first, second) => {
                first.under(kind).or_else(|| second.under(kind))
            }
        }
    }
}

/// What is left by one way or the other.
fn either_left(one: Option<Arc<Set>>, other: Option<Arc<Set>>) -> Option<Arc<Set>> {
    match (one, other) {
        (Some(one), Some(other)) => Some(either(one, other)),
        (one, other) => one.or(other),
    }
}
