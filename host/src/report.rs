//! Writes the first difference out in full.

use crate::call::{Action, Call, Outcome, Sizes, State};
use crate::compare::Difference;
use crate::model::{acceptable, Endpoint, ENDPOINTS};
use crate::sharing::{self, SHARING_PER_TILE};
use crate::wire::FAULTS;
use std::fmt::Write;

/// How many differing words and bytes are written out at most.
const SHOWN: usize = 12;

/// A call with all its numbers, in decimal and, for words, in hexadecimal.
pub fn describe_call(call: &Call) -> String {
    let s = &call.sizes;
    let sizes = format!(
        "tiles {} pages {:?} words_len {} sharing_len {} mem_len {}",
        s.tiles, s.pages, s.words_len, s.sharing_len, s.mem_len
    );
    let action = match &call.action {
        Action::Command(c) => format!(
            "tcu_command: tile {} opcode {} endpoint {} arg0 {} data_addr {} data_size {} arg1 {}",
            c.tile, c.opcode, c.endpoint, c.arg0, c.data_addr, c.data_size, c.arg1
        ),
        Action::Configure { tile, endpoint, words } => {
            format!("tcu_configure: tile {} endpoint {} words {:#x?}", tile, endpoint, words)
        }
        Action::Invalidate { tile, endpoint } => {
            format!("tcu_invalidate: tile {} endpoint {}", tile, endpoint)
        }
        Action::Privileged { tile, opcode, arg0, arg1 } => {
            format!(
                "tcu_privileged: tile {} opcode {} arg0 {:#x} arg1 {}",
                tile, opcode, arg0, arg1
            )
        }
        Action::Respond { tile } => format!("tcu_respond: tile {}", tile),
        Action::Waiting { tile, list } => {
            format!("tcu_waiting: tile {} waiting_len {}", tile, list.len())
        }
        Action::Wiring => "tcu_wiring".to_string(),
        Action::Unpack { memory, words, fields } => {
            let length = fields.len();
            format!("tcu_unpack: memory {} words {:#x?} fields_len {}", memory, words, length)
        }
        Action::Pack { memory, fields, words } => {
            format!("tcu_pack: memory {} fields {:?} words_len {}", memory, fields, words.len())
        }
    };
    format!("{}\n  {}", action, sizes)
}

fn describe_outcome(outcome: &Outcome) -> String {
    format!(
        "answer {} arg1 {} fields {:?} packed {:#x?}",
        outcome.answer, outcome.arg1, outcome.fields, outcome.packed
    )
}

/// Everything about a difference: the call, the endpoints it was lent, what was
/// expected and what came.
pub fn describe(difference: &Difference) -> String {
    let d = difference;
    let mut text = format!(
        "DIFFERENT at call {} (call {} of session {})\n",
        d.before + 1,
        d.place + 1,
        d.session
    );
    let _ = writeln!(text, "  {}", describe_call(&d.call));
    let _ = writeln!(text, "expected: {}", describe_outcome(&d.expected));
    let _ = writeln!(text, "got:      {}", describe_outcome(&d.reply.outcome));
    for (bit, fault) in FAULTS.iter().enumerate() {
        if d.reply.faults >> bit & 1 == 1 {
            let _ = writeln!(text, "the library {}", fault);
        }
    }
    describe_words(&mut text, d);
    describe_sharing(&mut text, d);
    describe_bytes(&mut text, d);
    describe_records(&mut text, &d.lent);
    describe_table(&mut text, &d.lent, &d.call);
    text
}

fn describe_words(text: &mut String, d: &Difference) {
    let expected = d.expected_state.words.iter();
    let pairs = expected.zip(&d.reported_state.words).enumerate();
    for (place, (wanted, got)) in pairs.filter(|(_, (wanted, got))| wanted != got).take(SHOWN) {
        let _ = writeln!(
            text,
            "word {} (tile {} endpoint {} word {}): before {:#x} expected {:#x} got {:#x}",
            place,
            place / 192,
            place % 192 / 3,
            place % 3,
            d.lent.words[place],
            wanted,
            got
        );
    }
}

fn describe_sharing(text: &mut String, d: &Difference) {
    let expected = d.expected_state.sharing.iter();
    let pairs = expected.zip(&d.reported_state.sharing).enumerate();
    for (place, (wanted, got)) in pairs.filter(|(_, (wanted, got))| wanted != got).take(SHOWN) {
        let (tile, word) = (place / SHARING_PER_TILE as usize, place % SHARING_PER_TILE as usize);
        let before = d.lent.sharing[place];
        let _ = writeln!(
            text,
            "sharing word {} of tile {}: before {:#x} expected {:#x} got {:#x}",
            word, tile, before, wanted, got
        );
    }
}

fn describe_bytes(text: &mut String, d: &Difference) {
    let expected = d.expected_state.mem.iter();
    let pairs = expected.zip(&d.reported_state.mem).enumerate();
    for (place, (wanted, got)) in pairs.filter(|(_, (wanted, got))| wanted != got).take(SHOWN) {
        let (tile, address) = tile_and_address(&d.call.sizes, place as u64);
        let before = d.lent.mem[place];
        let _ = writeln!(
            text,
            "byte {} (tile {} address {}): before {} expected {} got {}",
            place, tile, address, before, wanted, got
        );
    }
}

/// The tile in whose memory a byte lies, and its address there; what lies behind the
/// last tile counts as a tile more.
fn tile_and_address(sizes: &Sizes, place: u64) -> (u64, u64) {
    let mut tile = 0;
    while tile < sizes.pages.len() as u64 && sizes.start_of(tile + 1) <= place {
        tile += 1;
    }
    (tile, place - sizes.start_of(tile))
}

fn describe_records(text: &mut String, lent: &State) {
    for (tile, record) in lent.sharing.chunks_exact(SHARING_PER_TILE as usize).enumerate() {
        let (id, count) = (sharing::current(record), sharing::count(record));
        let good = if sharing::acceptable(record) { "" } else { ", not acceptable" };
        let _ = writeln!(
            text,
            "lent: tile {} runs activity {}, {} unread, {} wait, the oldest at {}{}",
            tile,
            id,
            count,
            record[sharing::WAITING],
            record[sharing::OLDEST],
            good
        );
    }
}

fn describe_table(text: &mut String, lent: &State, call: &Call) {
    let _ = writeln!(text, "lent: the endpoints");
    for (place, words) in lent.words.chunks_exact(3).enumerate() {
        if words == [0; 3] {
            continue;
        }
        let tile = place as u64 / ENDPOINTS;
        let kind = if acceptable(words, call.sizes.size_of(tile)) {
            format!("{:?}", Endpoint::read(words))
        } else {
            format!("not acceptable {:#x?}", words)
        };
        let _ = writeln!(text, "  tile {} endpoint {}: {}", tile, place as u64 % ENDPOINTS, kind);
    }
}
