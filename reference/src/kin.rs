//! What a living process is to the caller that names it, for the generator and the counts.

use crate::desk::{Desk, Process};

#[derive(Clone, Copy, Debug, PartialEq, Eq)]
pub(crate) enum Kin {
    Itself,
    Child,
    /// A descendant that is no child.
    Deeper,
    Ancestor,
    /// Of the caller's customer, with the same parent.
    Sibling,
    /// Of the caller's customer, and nothing of the above.
    Cousin,
    /// Another customer's, and neither above nor below the caller.
    Stranger,
}

impl Kin {
    pub(crate) fn of(desk: &Desk, caller: &Process, named: &Process) -> Self {
        let is_above = |one: &Process, other| desk.descent(other).any(|process| process.id == one.id);
        if named.id == caller.id {
            Kin::Itself
        } else if named.parent == caller.id {
            Kin::Child
        } else if is_above(caller, named) {
            Kin::Deeper
        } else if is_above(named, caller) {
            Kin::Ancestor
        } else if named.customer != caller.customer {
            Kin::Stranger
        } else if named.parent == caller.parent {
            Kin::Sibling
        } else {
            Kin::Cousin
        }
    }
}
