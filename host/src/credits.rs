//! The corners of request T-04: the credits of the send endpoint that an accepted REPLY
//! names. `62 of 63` is a `cur_crd` of 62 and a `max_crd` of 63.

use crate::corners::Hit;
use crate::model::{Endpoint, Send};
use std::cmp::Ordering::{self, Equal, Greater, Less};
use std::ops::RangeInclusive;

/// A second reading of the rule, case by case: `cur_crd`, how it compares with
/// `max_crd`, and how many credits the reply adds.
const CASES: [(RangeInclusive<u8>, Ordering, u8, &str); 14] = [
    (0..=59, Less, 1, "REPLY: credit added, below max_crd"),
    (60..=60, Less, 1, "REPLY: credit added, 60 of more become 61"),
    (61..=61, Less, 1, "REPLY: credit added, 61 of more become 62"),
    (0..=59, Equal, 0, "REPLY: no credit added, at max_crd"),
    (0..=59, Greater, 0, "REPLY: no credit added, above max_crd"),
    (60..=60, Equal, 0, "REPLY: no credit added, 60 of 60"),
    (60..=60, Greater, 0, "REPLY: no credit added, 60 of fewer"),
    (61..=61, Equal, 0, "REPLY: no credit added, 61 of 61"),
    (61..=61, Greater, 0, "REPLY: no credit added, 61 of fewer"),
    (62..=62, Less, 0, "REPLY: no credit added, 62 of 63"),
    (62..=62, Equal, 0, "REPLY: no credit added, 62 of 62"),
    (62..=62, Greater, 0, "REPLY: no credit added, 62 of fewer"),
    (63..=63, Equal, 0, "REPLY: no credit added, unlimited of 63"),
    (63..=63, Greater, 0, "REPLY: no credit added, unlimited of fewer"),
];

/// Names the case, if what is there afterwards is what the case says: so this also
/// holds the model against the second reading.
pub(crate) fn visit_credit(before: &Send, after: &Endpoint, hit: Hit) {
    let to_max = before.cur_crd.cmp(&before.max_crd);
    let case = CASES
        .iter()
        .find(|(credits, order, _, _)| credits.contains(&before.cur_crd) && *order == to_max);
    hit(match case {
        Some((_, _, added, corner)) if *after == raised(before, *added) => corner,
        _ => "the two readings of the credit rule do not agree",
    });
}

/// The send endpoint with so many credits more, and otherwise as it is.
fn raised(ep: &Send, added: u8) -> Endpoint {
    Endpoint::Send(Send { cur_crd: ep.cur_crd + added, ..*ep })
}
