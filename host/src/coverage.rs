//! Counts which answers each command has given, and which corners of the rules
//! were reached. A run that leaves one out has not tested what it should.

use crate::call::{Action, Call};
use crate::corners::{self, Seen, CORNERS};
use crate::model::privileged;
use crate::stack::Stack;
use std::collections::BTreeMap;
use std::fmt::Write;

/// The answers that the documents give to each command and host call. The wiring
/// check answers 1 for yes and 0 for no.
pub const ANSWERS: [(&str, &[u32]); 18] = [
    ("IDLE", &[0, 100, 101]),
    ("SEND", &[0, 2, 3, 4, 5, 6, 7, 9, 10, 14, 16, 17, 19, 21, 22, 23, 100, 101]),
    ("REPLY", &[0, 2, 3, 4, 5, 6, 7, 8, 9, 12, 14, 16, 17, 18, 19, 21, 22, 23, 100, 101]),
    ("READ", &[0, 1, 4, 9, 11, 14, 22, 100, 101]),
    ("WRITE", &[0, 1, 4, 9, 11, 14, 22, 100, 101]),
    ("FETCH", &[0, 3, 4, 100, 101]),
    ("ACK_MSG", &[0, 3, 4, 12, 17, 100, 101]),
    ("other opcode", &[15, 100, 101]),
    ("configure", &[0, 100, 101, 102, 103]),
    ("invalidate", &[0, 100, 101, 102]),
    ("wiring", &[0, 1, 100]),
    ("unpack", &[0, 100, 103]),
    ("pack", &[0, 100, 103]),
    ("privileged idle", &[0, 100, 101]),
    ("XCHG_ACT", &[0, 100, 101]),
    ("other privileged", &[15, 100, 101]),
    ("respond", &[0, 100, 101]),
    ("waiting", &[0, 100, 101]),
];

fn row_of(call: &Call) -> usize {
    match &call.action {
        Action::Command(command) => command.opcode.min(7) as usize,
        Action::Configure { .. } => 8,
        Action::Invalidate { .. } => 9,
        Action::Wiring => 10,
        Action::Unpack { .. } => 11,
        Action::Pack { .. } => 12,
        Action::Privileged { opcode: privileged::IDLE, .. } => 13,
        Action::Privileged { opcode: privileged::XCHG_ACT, .. } => 14,
        Action::Privileged { .. } => 15,
        Action::Respond { .. } => 16,
        Action::Waiting { .. } => 17,
    }
}

#[derive(Default)]
pub struct Coverage {
    calls: u64,
    answers: BTreeMap<(usize, u32), u64>,
    corners: BTreeMap<&'static str, u64>,
    /// The most stack that a call of each function used.
    pub stack: Stack,
}

impl Coverage {
    /// Counts one call: its answer and the corners that it has reached.
    pub fn count(&mut self, seen: &Seen) {
        self.calls += 1;
        *self.answers.entry((row_of(seen.call), seen.outcome.answer)).or_default() += 1;
        let corners = &mut self.corners;
        corners::visit(seen, &mut |corner| *corners.entry(corner).or_default() += 1);
    }

    /// What is missing, or is there and should not be; nothing if all is well.
    pub fn gaps(&self) -> Vec<String> {
        let mut gaps = Vec::new();
        for (row, (name, answers)) in ANSWERS.iter().enumerate() {
            for answer in
                answers.iter().filter(|answer| !self.answers.contains_key(&(row, **answer)))
            {
                gaps.push(format!("{} never answered {}", name, answer));
            }
        }
        for (row, answer) in self.answers.keys() {
            let (name, answers) = ANSWERS[*row];
            if !answers.contains(answer) {
                gaps.push(format!("{} answered {}, which the rules do not give it", name, answer));
            }
        }
        for corner in CORNERS.iter().filter(|corner| !self.corners.contains_key(*corner)) {
            gaps.push(format!("never reached: {}", corner));
        }
        for corner in self.corners.keys().filter(|corner| !CORNERS.contains(corner)) {
            gaps.push(format!("not in the list of corners: {}", corner));
        }
        gaps
    }

    /// The counts as text: command by answer, then the corners.
    pub fn table(&self) -> String {
        let mut text = format!("{} calls; command, then answer:count\n", self.calls);
        for (row, (name, answers)) in ANSWERS.iter().enumerate() {
            let counts = answers.iter().map(|answer| {
                let count = self.answers.get(&(row, *answer)).copied().unwrap_or(0);
                format!(" {}:{}", answer, count)
            });
            let _ = writeln!(text, "  {:<17}{}", name, counts.collect::<String>());
        }
        text.push_str("corner, count\n");
        for corner in CORNERS {
            let count = self.corners.get(corner).copied().unwrap_or(0);
            let _ = writeln!(text, "  {:<60}{:>7}", corner, count);
        }
        text
    }
}
