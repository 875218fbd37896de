//! The corners of request T-03, in which each tile has a size of its own. The acting
//! tile is the own one; an unequal memory is one of another size than the own tile's.

use crate::call::{bytes_of, Sizes};
use crate::corners::{hit_if, word_faults, Hit, Seen};
use crate::model::{opcode, Command, Memory, Send, ENDPOINTS, MAX_TILES, PAGE};

// ---------------------------------------------------------------- Ranges

/// The corners of a READ, in the order of `Ends::reached`.
const READ: [&str; 6] = [
    "READ: the remote range ends with an unequal memory",
    "READ: the remote range fits the target alone",
    "READ: the local range fits the own tile alone",
    "READ: 14, the remote range ends one past an unequal memory",
    "READ: 14, the remote range fits the own tile alone",
    "READ: 14, the local range fits the target alone",
];
const WRITE: [&str; 6] = [
    "WRITE: the remote range ends with an unequal memory",
    "WRITE: the remote range fits the target alone",
    "WRITE: the local range fits the own tile alone",
    "WRITE: 14, the remote range ends one past an unequal memory",
    "WRITE: 14, the remote range fits the own tile alone",
    "WRITE: 14, the local range fits the target alone",
];

/// Two unequal sizes, and where the ranges of a READ or WRITE end on these tiles.
struct Ends {
    own_size: u128,
    target_size: u128,
    local: u128,
    remote: u128,
}

impl Ends {
    /// Which of the six corners an answer of 0 or 14 has reached. A 14 must come from
    /// the one range alone.
    fn reached(&self, answer: u32) -> [bool; 6] {
        let accepted = answer == 0;
        let past_target = self.remote > self.target_size;
        let past_own = self.local > self.own_size;
        let remote_refused = answer == 14 && past_target && !past_own;
        let local_refused = answer == 14 && past_own && !past_target;
        [
            accepted && self.remote == self.target_size,
            accepted && self.remote > self.own_size,
            accepted && self.local > self.target_size,
            remote_refused && self.remote == self.target_size + 1,
            remote_refused && self.remote <= self.own_size,
            local_refused && self.local <= self.target_size,
        ]
    }
}

/// A READ or WRITE, not of size 0, that was accepted or refused with 14.
pub(crate) fn visit_ranges(seen: &Seen, c: &Command, ep: &Memory, hit: Hit) {
    let (s, target) = (seen.sizes(), u64::from(ep.tile));
    if seen.answer() == 0 {
        let names = [
            "transfer: the tile does not start at t times the own size",
            "transfer: the tile does not start at t times its size",
        ];
        visit_start(s, c.tile, target, names, hit);
    }
    let (own_size, target_size) = (s.size_of(c.tile), s.size_of(target));
    if ep.chip != 0 || target >= s.tiles || own_size == target_size {
        return;
    }
    let ends = Ends {
        own_size: own_size.into(),
        target_size: target_size.into(),
        local: u128::from(c.data_addr) + u128::from(c.data_size),
        remote: u128::from(ep.addr) + u128::from(c.arg1) + u128::from(c.data_size),
    };
    let names = if c.opcode == opcode::READ { READ } else { WRITE };
    for (reached, name) in ends.reached(seen.answer()).into_iter().zip(names) {
        hit_if(hit, reached, name);
    }
}

/// Whether the tile that a command aims at starts where equal sizes would have it: at
/// its number times the own tile's size, or times its own size.
fn visit_start(s: &Sizes, own: u64, target: u64, names: [&'static str; 2], hit: Hit) {
    let start = s.start_of(target);
    hit_if(hit, start != target * s.size_of(own), names[0]);
    hit_if(hit, start != target * s.size_of(target), names[1]);
}

/// The local range of a SEND or REPLY through an endpoint, and where it is delivered.
pub(crate) fn visit_payload(seen: &Seen, c: &Command, ep: &Send, hit: Hit) {
    let (s, target) = (seen.sizes(), u64::from(ep.tgt_tile));
    if ep.tgt_chip != 0 || target >= s.tiles {
        return;
    }
    let (own_size, target_size) = (s.size_of(c.tile), s.size_of(target));
    let end = u128::from(c.data_addr) + u128::from(c.data_size);
    let (fits_own, fits_target) = (end <= own_size.into(), end <= target_size.into());
    match seen.answer() {
        0 => {
            let names = [
                "delivery: the tile does not start at t times the own size",
                "delivery: the tile does not start at t times its size",
            ];
            visit_start(s, c.tile, target, names, hit);
            let at_end = own_size != target_size && c.data_size != 0 && end == own_size.into();
            hit_if(hit, at_end, "message: the payload ends with an unequal memory");
            hit_if(hit, !fits_target, "message: the payload fits the own tile alone");
        }
        14 => {
            let one_past = own_size != target_size && end == u128::from(own_size) + 1;
            hit_if(hit, one_past, "message: 14, the payload ends one past an unequal memory");
            let misleading = !fits_own && fits_target;
            hit_if(hit, misleading, "message: 14, the payload fits the target alone");
        }
        _ => {}
    }
}

// ---------------------------------------------------------------- Receive endpoints

/// Whether the words are acceptable on some other tile of the board, or on all.
fn elsewhere(s: &Sizes, tile: u64, words: &[u64]) -> (bool, bool) {
    let others = (0..s.tiles).filter(|other| *other != tile);
    let taken: Vec<bool> =
        others.map(|other| word_faults(words, s.size_of(other)).is_empty()).collect();
    (taken.contains(&true), !taken.contains(&false))
}

/// Words that configuring takes on one tile and would refuse on another one.
pub(crate) fn visit_configured(seen: &Seen, tile: u64, words: &[u64], hit: Hit) {
    let (on_some, on_all) = elsewhere(seen.sizes(), tile, words);
    let taken_here = seen.answer() == 0 && !on_all;
    hit_if(hit, taken_here, "configure: words that another tile refuses");
    let taken_there = seen.answer() == 103 && on_some;
    hit_if(hit, taken_there, "configure: 103 for words that another tile takes");
}

/// The one endpoint of a table that is not acceptable on its tile.
pub(crate) fn visit_bad_endpoint(seen: &Seen, place: u64, hit: Hit) {
    let words = &seen.words[place as usize * 3..][..3];
    let (on_some, _) = elsewhere(seen.sizes(), place / ENDPOINTS, words);
    hit_if(hit, on_some, "100: only an endpoint that another tile could have is bad");
}

// ---------------------------------------------------------------- Sizes

/// Page counts that are not allowed, one for each of 1 to 8 tiles. Where nothing else
/// is wrong, table and records are good for these counts too: a tile without memory
/// has no receive endpoint then.
pub(crate) fn visit_counts(s: &Sizes, contents_hold: bool, hit: Hit) {
    hit_if(hit, s.pages.contains(&255), "100: a page count of 255");
    if s.mem_len != bytes_of(&s.pages) || !contents_hold {
        return;
    }
    let bad: Vec<usize> =
        (0..s.pages.len()).filter(|tile| !(1..=16).contains(&s.pages[*tile])).collect();
    if let [tile] = bad[..] {
        let count = s.pages[tile];
        hit_if(hit, count == 0, "100: a page count of 0, other sizes to match");
        hit_if(hit, count == 17, "100: a page count of 17, other sizes to match");
        let last = s.pages.len() - 1;
        hit_if(hit, last != 0 && tile == 0, "100: only the first page count is bad");
        hit_if(hit, last != 0 && tile == last, "100: only the last page count is bad");
    }
}

/// A list with more or fewer page counts than tiles, each of them allowed, where the
/// table and the records have their lengths.
pub(crate) fn visit_list(s: &Sizes, hit: Hit) {
    let counts = s.pages.len() as u64;
    let (too_few, too_many) = (counts < s.tiles, counts > s.tiles);
    if s.tiles > MAX_TILES {
        hit_if(hit, too_few, "100: tiles above 8, too few page counts");
        hit_if(hit, too_many, "100: tiles above 8, too many page counts");
    } else if s.tiles != 0 {
        let for_list = s.mem_len == bytes_of(&s.pages);
        let for_more = s.mem_len > bytes_of(&s.pages);
        let for_tiles = s.mem_len == s.start_of(s.tiles);
        hit_if(hit, too_few && for_list, "100: too few page counts, mem to match");
        hit_if(hit, too_few && for_more, "100: too few page counts, mem for more tiles");
        hit_if(hit, too_many && for_list, "100: too many page counts, mem to match");
        hit_if(hit, too_many && for_tiles, "100: too many page counts, mem for the tiles");
    }
}

/// Lent memory of another length than the pages have, where nothing else is wrong with
/// the sizes.
pub(crate) fn visit_mem_length(s: &Sizes, hit: Hit) {
    let (lent, right) = (s.mem_len, bytes_of(&s.pages));
    hit_if(hit, lent + 1 == right, "100: mem a byte too short");
    hit_if(hit, lent == right + 1, "100: mem a byte too long");
    hit_if(hit, lent + PAGE == right, "100: mem a page too short");
    hit_if(hit, lent == right + PAGE, "100: mem a page too long");
    let one_size = (0..s.tiles).any(|tile| lent == s.tiles * s.size_of(tile));
    hit_if(hit, lent != right && one_size, "100: mem for tiles of one size, and they are not");
}
