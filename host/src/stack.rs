//! The stack that the calls use: what the runner has measured, and the most that
//! the machine code can need, as `host/stack` reads it.

use crate::call::FUNCTIONS;
use std::fmt::Write;

/// Bytes of stack, one number for each function; 0 where there is none yet.
#[derive(Clone, Debug, Default, PartialEq, Eq)]
pub struct Stack {
    bytes: [u64; FUNCTIONS.len()],
}

impl Stack {
    /// The lines of `host/stack --from call_`: the bytes, then the calls that need
    /// them, from the runner's own on. A line for another function is passed over.
    pub fn read(text: &str) -> Stack {
        let mut stack = Stack::default();
        for line in text.lines() {
            let mut words = line.split_whitespace();
            let bytes = words.next().and_then(|word| word.parse().ok());
            let name = words.next().and_then(|word| word.strip_prefix("call_"));
            let number = FUNCTIONS.iter().position(|function| Some(*function) == name);
            if let (Some(bytes), Some(number)) = (bytes, number) {
                stack.note(number, bytes);
            }
        }
        stack
    }

    /// Keeps the most for each function.
    pub fn note(&mut self, function: usize, bytes: u64) {
        self.bytes[function] = self.bytes[function].max(bytes);
    }

    /// What does not fit: a call that used more than its machine code needs at most,
    /// and a function of which one of the two numbers is not known.
    pub fn gaps(&self, limits: &Stack) -> Vec<String> {
        let mut gaps = Vec::new();
        for (name, (used, limit)) in FUNCTIONS.iter().zip(self.bytes.iter().zip(limits.bytes)) {
            if *used == 0 {
                gaps.push(format!("the stack of {} was never measured", name));
            } else if limit == 0 {
                gaps.push(format!("the stack of {} is not in host/stack's list", name));
            } else if *used > limit {
                gaps.push(format!(
                    "{} used {} bytes of stack, its code needs {}",
                    name, used, limit
                ));
            }
        }
        gaps
    }

    pub fn table(&self, limits: &Stack) -> String {
        let mut text = String::from("stack used at most, and what the machine code can need\n");
        for (name, (used, limit)) in FUNCTIONS.iter().zip(self.bytes.iter().zip(limits.bytes)) {
            let _ = writeln!(text, "  {:<15}{:>5}{:>6}", name, used, limit);
        }
        text
    }
}
