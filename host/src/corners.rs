//! The corners of the rules that a run must reach besides every answer: places
//! where a wrong machine could give the right number for another reason, or the
//! right number and a wrong end state.

use crate::call::{bytes_of, Action, Call, Outcome, Sizes};
use crate::credits;
use crate::model::WORDS_PER_TILE;
use crate::model::{find_slot, opcode, privileged, Command, Endpoint, Memory, Receive, Send};
use crate::model::{
    ENDPOINTS, FIELDS, HEADER, MAX_MEMORY, MAX_TILES, NO_ENDPOINT, PAGE, UNLIMITED,
};
use crate::sharing::SHARING_PER_TILE;
use crate::unequal;

/// Every corner. `visit` names no other.
pub const CORNERS: &[&str] = &[
    "delivery: the search goes round",
    "delivery: wpos is 2^slots",
    "delivery: 32 slots",
    "delivery: slot 31",
    "delivery: the last free slot",
    "delivery: largest message, 2016 bytes",
    "delivery: empty payload",
    "delivery: empty payload at address M",
    "delivery: payload ends with the memory",
    "delivery: to the own tile",
    "delivery: payload overlaps its header's place",
    "delivery: payload overlaps its own place",
    "delivery: a full slot ends with the memory",
    "delivery: a full slot ends with an unequal memory",
    "delivery: the tile does not start at t times the own size",
    "delivery: the tile does not start at t times its size",
    "delivery: counted",
    "delivery: the count goes from 65535 to 0",
    "delivery: counted while the queue is full",
    "delivery: counted, from another activity",
    "delivery: queued",
    "delivery: queued, the sender's activity runs there",
    "delivery: queued where none waits",
    "delivery: queued as the 64th request",
    "delivery: queued at place 63",
    "delivery: queued behind place 63",
    "delivery: queued at the own tile",
    "delivery: queue and slots are full",
    "delivery: 16 while the queue is full",
    "delivery: 17 while the queue is full",
    "SEND: 7 for the queue alone",
    "SEND: unlimited credits",
    "SEND: the last credit",
    "SEND: 62 credits",
    "SEND: replies to an endpoint of another activity",
    "SEND: reply wanted, receiver has no range",
    "SEND: reply endpoint over the sender",
    "SEND: reply endpoint over the unlimited sender",
    "SEND: reply endpoint over the receive endpoint",
    "SEND: reply endpoint over a third endpoint in use",
    "SEND: aims at the endpoint it names for replies",
    "SEND: 3 for an arg0 that is right in its low 16 bits",
    "SEND: the largest message, upwards over itself",
    "SEND: the largest message, downwards over itself",
    "REPLY: credit added, below max_crd",
    "REPLY: credit added, 60 of more become 61",
    "REPLY: credit added, 61 of more become 62",
    "REPLY: no credit added, at max_crd",
    "REPLY: no credit added, above max_crd",
    "REPLY: no credit added, 60 of 60",
    "REPLY: no credit added, 60 of fewer",
    "REPLY: no credit added, 61 of 61",
    "REPLY: no credit added, 61 of fewer",
    "REPLY: no credit added, 62 of 63",
    "REPLY: no credit added, 62 of 62",
    "REPLY: no credit added, 62 of fewer",
    "REPLY: no credit added, unlimited of 63",
    "REPLY: no credit added, unlimited of fewer",
    "REPLY: credit place is no send endpoint",
    "REPLY: no credit place",
    "REPLY: into its own endpoint",
    "REPLY: credit for the reply endpoint itself",
    "REPLY: slot still unread",
    "REPLY: slot is free",
    "REPLY: 7 for the queue alone",
    "REPLY: lost, the count goes from 65535 to 0",
    "REPLY: into the free slot that it names",
    "REPLY: unread, and counted at the own tile",
    "REPLY: unread, and queued at the own tile",
    "REPLY: unread, the count goes from 0 to 65535",
    "REPLY: 8 before 4",
    "REPLY: 17 before 4",
    "REPLY: 17 from the receiver",
    "message: 14 for an empty payload",
    "message: 9 where DATA_SIZE + 32 passes 2^64",
    "message: 9 where msg_sz is below 5",
    "message: DATA_SIZE at the limit of msg_sz",
    "message: the payload ends with an unequal memory",
    "message: the payload fits the own tile alone",
    "message: 14, the payload ends one past an unequal memory",
    "message: 14, the payload fits the target alone",
    "FETCH: nothing unread",
    "FETCH: the search goes round",
    "FETCH: rpos is 2^slots",
    "FETCH: slot 31",
    "FETCH: the count goes from 0 to 65535",
    "FETCH: nothing unread and a count of 0",
    "ACK_MSG: the slot is free",
    "ACK_MSG: the slot is unread",
    "ACK_MSG: the slot is read",
    "ACK_MSG: the count goes from 0 to 65535",
    "ACK_MSG: clears its own endpoint",
    "ACK_MSG: clears an endpoint in use",
    "ACK_MSG: no reply range",
    "ACK_MSG: 17 before 4",
    "slot: 12 for the first offset past the slots",
    "slot: last byte of the last slot",
    "transfer: size 0 beyond the region",
    "transfer: size 0 outside the memory",
    "transfer: upwards over itself",
    "transfer: downwards over itself",
    "transfer: a whole page",
    "READ: a whole page, upwards over itself",
    "READ: a whole page, downwards over itself",
    "READ: a whole page, onto itself",
    "WRITE: a whole page, upwards over itself",
    "WRITE: a whole page, downwards over itself",
    "WRITE: a whole page, onto itself",
    "transfer: up to the end of the region",
    "transfer: 9 where DATA_SIZE + ARG_1 passes 2^64",
    "transfer: 14 for the chip alone",
    "transfer: 14 for the tile alone",
    "transfer: 14 for the remote range alone",
    "transfer: 14 where the remote sum passes 2^64",
    "transfer: 14 for the local range alone",
    "transfer: the tile does not start at t times the own size",
    "transfer: the tile does not start at t times its size",
    "READ: the remote range ends with an unequal memory",
    "READ: the remote range fits the target alone",
    "READ: the local range fits the own tile alone",
    "READ: 14, the remote range ends one past an unequal memory",
    "READ: 14, the remote range fits the own tile alone",
    "READ: 14, the local range fits the target alone",
    "WRITE: the remote range ends with an unequal memory",
    "WRITE: the remote range fits the target alone",
    "WRITE: the local range fits the own tile alone",
    "WRITE: 14, the remote range ends one past an unequal memory",
    "WRITE: 14, the remote range fits the own tile alone",
    "WRITE: 14, the local range fits the target alone",
    "configure: words that another tile refuses",
    "configure: 103 for words that another tile takes",
    "endpoint number right in its low bits only",
    "opcode right in its low bits only",
    "XCHG_ACT: another activity",
    "XCHG_ACT: the count alone",
    "XCHG_ACT: arg0 has bits above 32",
    "XCHG_ACT: while requests wait",
    "privileged opcode right in its low bits only",
    "respond: none waits",
    "respond: the last one that waits",
    "respond: 64 wait",
    "respond: the oldest at place 63",
    "waiting: none",
    "waiting: 64",
    "waiting: the oldest at place 63",
    "waiting: list of another length",
    "waiting: list of another length and no such tile",
    "100: tiles 0",
    "100: tiles above 8, other sizes to match",
    "100: 192 * tiles wraps to the right length",
    "100: tiles above 8, too few page counts",
    "100: tiles above 8, too many page counts",
    "100: a page count of 0, other sizes to match",
    "100: a page count of 17, other sizes to match",
    "100: a page count of 255",
    "100: only the first page count is bad",
    "100: only the last page count is bad",
    "100: too few page counts, mem to match",
    "100: too few page counts, mem for more tiles",
    "100: too many page counts, mem to match",
    "100: too many page counts, mem for the tiles",
    "100: words too short",
    "100: words too long",
    "100: sharing too short",
    "100: sharing too long",
    "100: mem too short",
    "100: mem too long",
    "100: mem a byte too short",
    "100: mem a byte too long",
    "100: mem a page too short",
    "100: mem a page too long",
    "100: mem for tiles of one size, and they are not",
    "100: only the last endpoint of the last tile is bad",
    "100: only the first endpoint is bad",
    "100: only an endpoint that another tile could have is bad",
    "record: CUR_ACT above 32 bits",
    "record: the oldest at 64 or above",
    "record: 65 wait",
    "record: far more than 64 wait",
    "record: a request of another type",
    "record: a request's endpoint is 64 or above",
    "record: a request with an unnamed bit",
    "record: only the oldest request is bad",
    "record: only the newest request is bad",
    "record: only the 64th request is bad",
    "record: only that of the first tile is bad",
    "record: only that of the last tile is bad",
    "record: good, with no request where none waits",
    "words: type 4 to 7",
    "words: INVALID with a bit set",
    "words: unnamed bit in the first word of SEND",
    "words: unnamed bit in the second word of SEND",
    "words: unnamed bit in RECEIVE",
    "words: unnamed bit in MEMORY",
    "words: slots above 5",
    "words: slot_size below 5",
    "words: slot_size above 11",
    "words: wpos above 2^slots",
    "words: rpos above 2^slots",
    "words: mask bit at 2^slots or above",
    "words: unread and not occupied",
    "words: buffer no multiple of 8",
    "words: buffer past M",
    "words: buffer end passes 2^64",
    "pack: kind above 3",
    "pack: a field too large",
    "pack: an unused number is not zero",
    "pack: a receive endpoint breaks a rule",
    "pack: fields of another length",
    "pack: words of another length",
    "pack: M 0",
    "pack: M no multiple of 4096",
    "pack: M above 65536",
    "unpack: fields of another length",
    "unpack: M 0",
    "unpack: M no multiple of 4096",
    "unpack: M above 65536",
    "wiring: a reply endpoint",
    "wiring: an occupied bit",
    "wiring: a range past 64",
    "wiring: a range over an endpoint in use",
    "wiring: two ranges share an endpoint",
    "wiring: cur_crd is not max_crd",
    "wiring: aims at no receive endpoint",
    "wiring: too much promised",
];

/// A call with the words and records it was lent, the words afterwards and what came
/// back.
pub struct Seen<'a> {
    pub call: &'a Call,
    pub words: &'a [u64],
    pub sharing: &'a [u64],
    pub words_after: &'a [u64],
    pub outcome: &'a Outcome,
}

/// What is told each corner that was reached.
pub(crate) type Hit<'a> = &'a mut dyn FnMut(&'static str);

/// Names each corner that the call has reached.
pub fn visit(seen: &Seen, hit: Hit) {
    if matches!(seen.call.action, Action::Respond { .. }) && seen.answer() == 0 {
        visit_good_records(seen, hit);
    }
    match &seen.call.action {
        Action::Unpack { memory, words, fields } => {
            let names = ["unpack: M 0", "unpack: M no multiple of 4096", "unpack: M above 65536"];
            hit_if(hit, fields.len() != FIELDS, "unpack: fields of another length");
            visit_memory(*memory, names, fields.len() == FIELDS, hit);
            visit_refused_words(seen, words, *memory, hit);
        }
        Action::Pack { memory, fields, words } => {
            let names = ["pack: M 0", "pack: M no multiple of 4096", "pack: M above 65536"];
            visit_memory(*memory, names, fields.len() == FIELDS && words.len() == 3, hit);
            visit_pack(seen, fields, words, hit);
        }
        Action::Waiting { tile, list } if list.len() != 3 => {
            hit("waiting: list of another length");
            let no_tile = *tile >= seen.sizes().tiles;
            hit_if(hit, no_tile, "waiting: list of another length and no such tile");
        }
        _ if seen.outcome.answer == 100 => visit_bad_machine(seen, hit),
        _ if seen.outcome.answer == 101 => {}
        Action::Command(command) => visit_command(seen, command, hit),
        Action::Privileged { tile, opcode, arg0, .. } => {
            visit_privileged(seen, *tile, *opcode, *arg0, hit);
        }
        Action::Respond { tile } => visit_respond(&seen.record(*tile), hit),
        Action::Waiting { tile, .. } => visit_waiting(&seen.record(*tile), hit),
        Action::Configure { tile, words, .. } => {
            visit_refused_words(seen, words, seen.sizes().size_of(*tile), hit);
            unequal::visit_configured(seen, *tile, words, hit);
        }
        Action::Wiring if seen.outcome.answer == 0 => visit_unsound(seen, hit),
        _ => {}
    }
}

pub(crate) fn hit_if(hit: Hit, reached: bool, corner: &'static str) {
    if reached {
        hit(corner);
    }
}

impl Seen<'_> {
    pub(crate) fn sizes(&self) -> &Sizes {
        &self.call.sizes
    }

    fn endpoint(&self, tile: u64, id: u64) -> Endpoint {
        self.endpoint_in(self.words, tile, id)
    }

    fn endpoint_after(&self, tile: u64, id: u64) -> Endpoint {
        self.endpoint_in(self.words_after, tile, id)
    }

    fn endpoint_in(&self, words: &[u64], tile: u64, id: u64) -> Endpoint {
        if tile >= self.sizes().tiles || id >= ENDPOINTS {
            return Endpoint::Invalid;
        }
        let at = (tile * WORDS_PER_TILE + id * 3) as usize;
        Endpoint::read(&words[at..at + 3])
    }

    fn own(&self, tile: u64) -> u16 {
        self.record(tile).id
    }

    /// The head of a tile's sharing record, taken apart by a second reading.
    fn record(&self, tile: u64) -> Head {
        let words = &self.sharing[(tile * SHARING_PER_TILE) as usize..];
        Head {
            id: (words[0] % 65_536) as u16,
            count: (words[0] / 65_536 % 65_536) as u16,
            oldest: words[1],
            waiting: words[2],
        }
    }

    pub(crate) fn answer(&self) -> u32 {
        self.outcome.answer
    }
}

/// Whether a place where none waits held no request, and the record was accepted;
/// also holds the model against the second test of the records below.
fn visit_good_records(seen: &Seen, hit: Hit) {
    for record in seen.sharing[..seen.sizes().sharing_len as usize].chunks_exact(67) {
        let agree = record_faults(record).is_empty();
        hit_if(hit, !agree, "the two tests of the records do not agree");
        let stray = record[3..].iter().any(|word| !request_faults(*word).is_empty());
        hit_if(hit, stray, "record: good, with no request where none waits");
    }
}

/// What stands before the requests in a sharing record.
struct Head {
    id: u16,
    count: u16,
    oldest: u64,
    waiting: u64,
}

// ---------------------------------------------------------------- Sharing

fn visit_privileged(seen: &Seen, tile: u64, opcode: u64, arg0: u64, hit: Hit) {
    let low_opcode = seen.answer() == 15 && opcode % 256 == privileged::XCHG_ACT;
    hit_if(hit, low_opcode, "privileged opcode right in its low bits only");
    if opcode != privileged::XCHG_ACT {
        return;
    }
    let before = seen.record(tile);
    let (id, count) = (arg0 as u16, (arg0 >> 16) as u16);
    hit_if(hit, id != before.id, "XCHG_ACT: another activity");
    let count_alone = id == before.id && count != before.count;
    hit_if(hit, count_alone, "XCHG_ACT: the count alone");
    hit_if(hit, arg0 >> 32 != 0, "XCHG_ACT: arg0 has bits above 32");
    hit_if(hit, before.waiting != 0, "XCHG_ACT: while requests wait");
}

fn visit_respond(before: &Head, hit: Hit) {
    match before.waiting {
        0 => hit("respond: none waits"),
        1 => hit("respond: the last one that waits"),
        64 => hit("respond: 64 wait"),
        _ => {}
    }
    let goes_round = before.waiting != 0 && before.oldest == 63;
    hit_if(hit, goes_round, "respond: the oldest at place 63");
}

fn visit_waiting(before: &Head, hit: Hit) {
    hit_if(hit, before.waiting == 0, "waiting: none");
    hit_if(hit, before.waiting == 64, "waiting: 64");
    let at_end = before.waiting != 0 && before.oldest == 63;
    hit_if(hit, at_end, "waiting: the oldest at place 63");
}

/// What an accepted or refused delivery meets in the receiving tile's record.
fn visit_arrival(seen: &Seen, c: &Command, sender: &Send, receiver: &Receive, hit: Hit) {
    let tile = u64::from(sender.tgt_tile);
    let before = seen.record(tile);
    let foreign = receiver.act != before.id;
    let full = before.waiting == 64;
    let all = u64::from(receiver.occupied.count_ones()) == receiver.count();
    match seen.answer() {
        0 if foreign => {
            hit("delivery: queued");
            let misleading = sender.act == before.id;
            hit_if(hit, misleading, "delivery: queued, the sender's activity runs there");
            hit_if(hit, before.waiting == 0, "delivery: queued where none waits");
            hit_if(hit, before.waiting == 63, "delivery: queued as the 64th request");
            let behind = before.oldest + before.waiting;
            hit_if(hit, behind == 63, "delivery: queued at place 63");
            hit_if(hit, behind > 63, "delivery: queued behind place 63");
            hit_if(hit, tile == c.tile, "delivery: queued at the own tile");
        }
        0 => {
            hit("delivery: counted");
            hit_if(hit, before.count == 65_535, "delivery: the count goes from 65535 to 0");
            hit_if(hit, full, "delivery: counted while the queue is full");
            let misleading = sender.act != before.id;
            hit_if(hit, misleading, "delivery: counted, from another activity");
        }
        7 if foreign && full && all => hit("delivery: queue and slots are full"),
        7 if foreign && full => hit(match c.opcode {
            opcode::SEND => "SEND: 7 for the queue alone",
            _ => "REPLY: 7 for the queue alone",
        }),
        16 if foreign && full => hit("delivery: 16 while the queue is full"),
        17 if foreign && full => hit("delivery: 17 while the queue is full"),
        _ => {}
    }
}

// ---------------------------------------------------------------- Commands

fn visit_command(seen: &Seen, c: &Command, hit: Hit) {
    let answer = seen.answer();
    let low_id = seen.endpoint(c.tile, c.endpoint % 64);
    let right_kind = match answer {
        1 => low_id.memory().is_some(),
        2 => low_id.send().is_some(),
        3 => low_id.receive().is_some(),
        _ => false,
    };
    let far = c.endpoint >= ENDPOINTS;
    hit_if(hit, far && right_kind, "endpoint number right in its low bits only");
    let low_opcode = answer == 15 && (1..7).contains(&(c.opcode % 256));
    hit_if(hit, low_opcode, "opcode right in its low bits only");
    match (c.opcode, seen.endpoint(c.tile, c.endpoint)) {
        (opcode::SEND, Endpoint::Send(ep)) => visit_send(seen, c, &ep, hit),
        (opcode::REPLY, Endpoint::Receive(ep)) => visit_reply(seen, c, &ep, hit),
        (opcode::FETCH, Endpoint::Receive(ep)) => visit_fetch(seen, c, &ep, hit),
        (opcode::ACK_MSG, Endpoint::Receive(ep)) => visit_acknowledge(seen, c, &ep, hit),
        (opcode::READ, Endpoint::Memory(ep)) => visit_transfer(seen, c, &ep, hit),
        (opcode::WRITE, Endpoint::Memory(ep)) => visit_transfer(seen, c, &ep, hit),
        _ => {}
    }
}

fn visit_send(seen: &Seen, c: &Command, ep: &Send, hit: Hit) {
    visit_message(seen, c, ep, hit);
    let low = c.arg0 % 65_536;
    let low_is_right =
        low == u64::from(NO_ENDPOINT) || seen.endpoint(c.tile, low).receive().is_some();
    let cut = seen.answer() == 3 && c.arg0 >= 65_536 && low_is_right;
    hit_if(hit, cut, "SEND: 3 for an arg0 that is right in its low 16 bits");
    if seen.answer() != 0 {
        return;
    }
    hit_if(hit, ep.cur_crd == UNLIMITED, "SEND: unlimited credits");
    hit_if(hit, ep.cur_crd == 1, "SEND: the last credit");
    hit_if(hit, ep.cur_crd == 62, "SEND: 62 credits");
    let (tile, id) = (u64::from(ep.tgt_tile), u64::from(ep.tgt_ep));
    let named = seen.endpoint(c.tile, c.arg0).receive();
    if let (Some(named), Some(receiver)) = (named, seen.endpoint(tile, id).receive()) {
        let foreign = named.act != seen.own(c.tile);
        hit_if(hit, foreign, "SEND: replies to an endpoint of another activity");
        let aims_there = (tile, id) == (c.tile, c.arg0);
        hit_if(hit, aims_there, "SEND: aims at the endpoint it names for replies");
        visit_reply_endpoint(seen, c, ep, &receiver, hit);
    }
}

/// Where the reply endpoint of an accepted SEND was written.
fn visit_reply_endpoint(seen: &Seen, c: &Command, ep: &Send, receiver: &Receive, hit: Hit) {
    if !receiver.has_reply_range() {
        hit("SEND: reply wanted, receiver has no range");
        return;
    }
    let tile = u64::from(ep.tgt_tile);
    let idx = find_slot(receiver.occupied, receiver.wpos, receiver.slots, false).unwrap_or(0);
    let place = (tile, u64::from(receiver.rpl_eps) + idx);
    if place == (c.tile, c.endpoint) {
        hit(match ep.cur_crd {
            UNLIMITED => "SEND: reply endpoint over the unlimited sender",
            _ => "SEND: reply endpoint over the sender",
        });
    } else if place == (tile, u64::from(ep.tgt_ep)) {
        hit("SEND: reply endpoint over the receive endpoint");
    } else if seen.endpoint(place.0, place.1) != Endpoint::Invalid {
        hit("SEND: reply endpoint over a third endpoint in use");
    }
}

fn visit_reply(seen: &Seen, c: &Command, ep: &Receive, hit: Hit) {
    let foreign = ep.act != seen.own(c.tile);
    hit_if(hit, foreign && seen.answer() == 8, "REPLY: 8 before 4");
    let own_range = ep.range_past_end();
    hit_if(hit, foreign && own_range && seen.answer() == 17, "REPLY: 17 before 4");
    hit_if(hit, !own_range && seen.answer() == 17, "REPLY: 17 from the receiver");
    visit_slot(seen, c, ep, hit);
    let idx = c.arg0 >> ep.slot_size;
    if !ep.has_reply_range() || own_range || foreign || idx >= ep.count() {
        return;
    }
    let reply_id = u64::from(ep.rpl_eps) + idx;
    if let Endpoint::Send(sender) = seen.endpoint(c.tile, reply_id) {
        visit_message(seen, c, &sender, hit);
        if seen.answer() == 0 {
            visit_accepted_reply(seen, c, ep, &sender, hit);
            visit_credit_place(seen, (c.tile, reply_id), &sender, hit);
        }
    }
}

fn visit_accepted_reply(seen: &Seen, c: &Command, ep: &Receive, sender: &Send, hit: Hit) {
    let idx = c.arg0 >> ep.slot_size;
    hit_if(hit, ep.unread >> idx & 1 == 1, "REPLY: slot still unread");
    hit_if(hit, ep.occupied >> idx & 1 == 0, "REPLY: slot is free");
    visit_counts_of_reply(seen, c, ep, sender, hit);
    let target = (u64::from(sender.tgt_tile), u64::from(sender.tgt_ep));
    hit_if(hit, target == (c.tile, c.endpoint), "REPLY: into its own endpoint");
}

/// Where an accepted REPLY by the reply endpoint at a place brought its credit.
fn visit_credit_place(seen: &Seen, reply_place: (u64, u64), sender: &Send, hit: Hit) {
    if sender.crd_ep == NO_ENDPOINT {
        hit("REPLY: no credit place");
        return;
    }
    let (tile, id) = (u64::from(sender.tgt_tile), u64::from(sender.crd_ep));
    match seen.endpoint(tile, id) {
        // It is INVALID afterwards, whatever its credits were.
        Endpoint::Send(_) if (tile, id) == reply_place => {
            hit("REPLY: credit for the reply endpoint itself");
        }
        Endpoint::Send(before) => {
            credits::visit_credit(&before, &seen.endpoint_after(tile, id), hit);
        }
        _ => hit("REPLY: credit place is no send endpoint"),
    }
}

/// How an accepted REPLY changes the acting tile's count, once or twice.
fn visit_counts_of_reply(seen: &Seen, c: &Command, ep: &Receive, sender: &Send, hit: Hit) {
    let idx = c.arg0 >> ep.slot_size;
    let before = seen.record(c.tile);
    let unread = ep.unread >> idx & 1 == 1;
    let (tile, id) = (u64::from(sender.tgt_tile), u64::from(sender.tgt_ep));
    if (tile, id) == (c.tile, c.endpoint) {
        let turns = before.count == 65_535 && !unread;
        hit_if(hit, turns, "REPLY: lost, the count goes from 65535 to 0");
        let next = find_slot(ep.occupied, ep.wpos, ep.slots, false);
        hit_if(hit, next == Some(idx), "REPLY: into the free slot that it names");
    }
    if !unread {
        return;
    }
    match seen.endpoint(tile, id) {
        Endpoint::Receive(receiver) if tile == c.tile && receiver.act == before.id => {
            hit("REPLY: unread, and counted at the own tile");
        }
        Endpoint::Receive(_) if tile == c.tile => {
            hit("REPLY: unread, and queued at the own tile");
        }
        _ => hit_if(hit, before.count == 0, "REPLY: unread, the count goes from 0 to 65535"),
    }
}

/// What SEND and REPLY share: the size and the address, and the delivery.
fn visit_message(seen: &Seen, c: &Command, ep: &Send, hit: Hit) {
    let answer = seen.answer();
    hit_if(hit, answer == 14 && c.data_size == 0, "message: 14 for an empty payload");
    let passes = c.data_size.checked_add(HEADER).is_none();
    hit_if(hit, answer == 9 && passes, "message: 9 where DATA_SIZE + 32 passes 2^64");
    hit_if(hit, answer == 9 && ep.msg_sz < 5, "message: 9 where msg_sz is below 5");
    let target = seen.endpoint(ep.tgt_tile.into(), ep.tgt_ep.into());
    if let Endpoint::Receive(receiver) = target {
        visit_arrival(seen, c, ep, &receiver, hit);
    }
    unequal::visit_payload(seen, c, ep, hit);
    if answer != 0 {
        return;
    }
    let at_limit = c.data_size + HEADER == 1 << ep.msg_sz;
    hit_if(hit, at_limit, "message: DATA_SIZE at the limit of msg_sz");
    if let Endpoint::Receive(receiver) = target {
        visit_search(&receiver, hit);
        visit_bytes(seen, c, u64::from(ep.tgt_tile), &receiver, hit);
    }
}

fn visit_search(receiver: &Receive, hit: Hit) {
    let (wpos, count) = (u64::from(receiver.wpos), receiver.count());
    let idx = find_slot(receiver.occupied, receiver.wpos, receiver.slots, false).unwrap_or(0);
    hit_if(hit, idx < wpos && wpos < count, "delivery: the search goes round");
    hit_if(hit, wpos == count, "delivery: wpos is 2^slots");
    hit_if(hit, count == 32, "delivery: 32 slots");
    hit_if(hit, idx == 31, "delivery: slot 31");
    let last_free = u64::from(receiver.occupied.count_ones()) + 1 == count;
    hit_if(hit, last_free, "delivery: the last free slot");
}

fn visit_bytes(seen: &Seen, c: &Command, tile: u64, receiver: &Receive, hit: Hit) {
    let (own, target) = (seen.sizes().size_of(c.tile), seen.sizes().size_of(tile));
    let idx = find_slot(receiver.occupied, receiver.wpos, receiver.slots, false).unwrap_or(0);
    let slot = receiver.buffer + (idx << receiver.slot_size);
    let payload = slot + HEADER;
    let (from, size) = (c.data_addr, c.data_size);
    hit_if(hit, size == 2016, "delivery: largest message, 2016 bytes");
    hit_if(hit, size == 0, "delivery: empty payload");
    hit_if(hit, size == 0 && from == own, "delivery: empty payload at address M");
    hit_if(hit, size != 0 && from + size == own, "delivery: payload ends with the memory");
    let ends_memory = payload + size == target && HEADER + size == receiver.slot_bytes();
    hit_if(hit, ends_memory, "delivery: a full slot ends with the memory");
    let unequal = ends_memory && own != target;
    hit_if(hit, unequal, "delivery: a full slot ends with an unequal memory");
    if tile == c.tile {
        hit("delivery: to the own tile");
        let over_header = from < payload && slot < from + size;
        hit_if(hit, over_header && size != 0, "delivery: payload overlaps its header's place");
        let upwards = from < payload && payload < from + size;
        let downwards = payload < from && from < payload + size;
        hit_if(hit, upwards || downwards, "delivery: payload overlaps its own place");
        // Only msg_sz and slot_size of 11 let so much through.
        let largest = c.opcode == opcode::SEND && size == 2016;
        hit_if(hit, largest && upwards, "SEND: the largest message, upwards over itself");
        hit_if(hit, largest && downwards, "SEND: the largest message, downwards over itself");
    }
}

fn visit_fetch(seen: &Seen, c: &Command, ep: &Receive, hit: Hit) {
    if seen.answer() != 0 {
        return;
    }
    let (rpos, count) = (u64::from(ep.rpos), ep.count());
    let none_counted = seen.record(c.tile).count == 0;
    match find_slot(ep.unread, ep.rpos, ep.slots, true) {
        None => {
            hit("FETCH: nothing unread");
            hit_if(hit, none_counted, "FETCH: nothing unread and a count of 0");
        }
        Some(idx) => {
            hit_if(hit, none_counted, "FETCH: the count goes from 0 to 65535");
            hit_if(hit, idx < rpos && rpos < count, "FETCH: the search goes round");
            hit_if(hit, rpos == count, "FETCH: rpos is 2^slots");
            hit_if(hit, idx == 31, "FETCH: slot 31");
        }
    }
}

/// How REPLY and ACK_MSG name a slot.
fn visit_slot(seen: &Seen, c: &Command, ep: &Receive, hit: Hit) {
    let end = ep.count() << ep.slot_size;
    let first_past = seen.answer() == 12 && c.arg0 == end;
    hit_if(hit, first_past, "slot: 12 for the first offset past the slots");
    let last_inside = seen.answer() == 0 && c.arg0 == end - 1;
    hit_if(hit, last_inside, "slot: last byte of the last slot");
}

fn visit_acknowledge(seen: &Seen, c: &Command, ep: &Receive, hit: Hit) {
    let foreign = ep.act != seen.own(c.tile);
    hit_if(hit, foreign && seen.answer() == 17, "ACK_MSG: 17 before 4");
    visit_slot(seen, c, ep, hit);
    if seen.answer() != 0 {
        return;
    }
    let idx = c.arg0 >> ep.slot_size;
    hit_if(hit, ep.occupied >> idx & 1 == 0, "ACK_MSG: the slot is free");
    let unread = ep.unread >> idx & 1 == 1;
    hit_if(hit, unread, "ACK_MSG: the slot is unread");
    let read = ep.occupied >> idx & 1 == 1 && !unread;
    hit_if(hit, read, "ACK_MSG: the slot is read");
    let turns = unread && seen.record(c.tile).count == 0;
    hit_if(hit, turns, "ACK_MSG: the count goes from 0 to 65535");
    if !ep.has_reply_range() {
        hit("ACK_MSG: no reply range");
        return;
    }
    let reply_id = u64::from(ep.rpl_eps) + idx;
    if reply_id == c.endpoint {
        hit("ACK_MSG: clears its own endpoint");
    } else if seen.endpoint(c.tile, reply_id) != Endpoint::Invalid {
        hit("ACK_MSG: clears an endpoint in use");
    }
}

fn visit_transfer(seen: &Seen, c: &Command, ep: &Memory, hit: Hit) {
    let end = u128::from(c.data_size) + u128::from(c.arg1);
    let passes = end >> 64 != 0 && c.data_size.wrapping_add(c.arg1) <= ep.size;
    let refused = seen.answer() == 9;
    hit_if(hit, refused && passes, "transfer: 9 where DATA_SIZE + ARG_1 passes 2^64");
    match seen.answer() {
        0 if c.data_size == 0 => {
            hit_if(hit, c.arg1 > ep.size, "transfer: size 0 beyond the region");
            let outside = c.data_addr > seen.sizes().size_of(c.tile);
            hit_if(hit, outside, "transfer: size 0 outside the memory");
        }
        0 => {
            visit_copied(c, ep, hit);
            unequal::visit_ranges(seen, c, ep, hit);
        }
        14 => {
            visit_aborted(seen, c, ep, hit);
            unequal::visit_ranges(seen, c, ep, hit);
        }
        _ => {}
    }
}

fn visit_copied(c: &Command, ep: &Memory, hit: Hit) {
    let (from, to) = match c.opcode {
        opcode::READ => (ep.addr + c.arg1, c.data_addr),
        _ => (c.data_addr, ep.addr + c.arg1),
    };
    let one_tile = u64::from(ep.tile) == c.tile;
    let upwards = from < to && to < from + c.data_size;
    let downwards = to < from && from < to + c.data_size;
    hit_if(hit, one_tile && upwards, "transfer: upwards over itself");
    hit_if(hit, one_tile && downwards, "transfer: downwards over itself");
    hit_if(hit, c.data_size == PAGE, "transfer: a whole page");
    if one_tile && c.data_size == PAGE {
        let [up, down, same] = match c.opcode {
            opcode::READ => [
                "READ: a whole page, upwards over itself",
                "READ: a whole page, downwards over itself",
                "READ: a whole page, onto itself",
            ],
            _ => [
                "WRITE: a whole page, upwards over itself",
                "WRITE: a whole page, downwards over itself",
                "WRITE: a whole page, onto itself",
            ],
        };
        hit_if(hit, upwards, up);
        hit_if(hit, downwards, down);
        hit_if(hit, from == to, same);
    }
    let to_the_end = c.data_size + c.arg1 == ep.size;
    hit_if(hit, to_the_end, "transfer: up to the end of the region");
}

fn visit_aborted(seen: &Seen, c: &Command, ep: &Memory, hit: Hit) {
    let s = seen.sizes();
    let own = u128::from(s.size_of(c.tile));
    let target = u128::from(s.size_of(ep.tile.into()));
    let exists = u64::from(ep.tile) < s.tiles;
    let size = u128::from(c.data_size);
    let remote_end = u128::from(ep.addr) + u128::from(c.arg1) + size;
    let reasons = [
        (ep.chip != 0, "transfer: 14 for the chip alone"),
        (!exists, "transfer: 14 for the tile alone"),
        (exists && remote_end > target, "transfer: 14 for the remote range alone"),
        (u128::from(c.data_addr) + size > own, "transfer: 14 for the local range alone"),
    ];
    hit_single(&reasons, hit);
    let passes = exists && remote_end >> 64 != 0 && remote_end - (1 << 64) <= target;
    hit_if(hit, passes, "transfer: 14 where the remote sum passes 2^64");
}

/// Names the one reason that holds, if only one does.
fn hit_single(reasons: &[(bool, &'static str)], hit: Hit) {
    let mut holding = reasons.iter().filter(|(holds, _)| *holds);
    if let (Some((_, reason)), None) = (holding.next(), holding.next()) {
        hit(reason);
    }
}

// ---------------------------------------------------------------- Host refusals

fn visit_bad_machine(seen: &Seen, hit: Hit) {
    let s = seen.sizes();
    let words = u128::from(s.tiles) * 192;
    let sharing_matches = u128::from(s.sharing_len) == u128::from(s.tiles) * 67;
    let tables_match = u128::from(s.words_len) == words && sharing_matches;
    let list_matches = s.pages.len() as u64 == s.tiles;
    let tiles_hold = (1..=MAX_TILES).contains(&s.tiles);
    let counts_hold = s.pages.iter().all(|count| (1..=16).contains(count));
    let match_all = tables_match && list_matches && s.mem_len == bytes_of(&s.pages);
    let wrapped_words = words >> 64 != 0 && words as u64 == s.words_len;
    hit_if(hit, s.tiles == 0, "100: tiles 0");
    let only_tiles = match_all && counts_hold && s.tiles > MAX_TILES;
    hit_if(hit, only_tiles, "100: tiles above 8, other sizes to match");
    hit_if(hit, wrapped_words, "100: 192 * tiles wraps to the right length");
    if tables_match && tiles_hold && list_matches {
        unequal::visit_counts(s, contents_hold(seen), hit);
    }
    if tables_match && counts_hold {
        unequal::visit_list(s, hit);
    }
    if tiles_hold && counts_hold && list_matches {
        visit_lengths(s, hit);
        if tables_match {
            unequal::visit_mem_length(s, hit);
        }
        if match_all {
            visit_bad_table(seen, hit);
            visit_bad_records(seen, hit);
        }
    }
}

fn visit_lengths(s: &Sizes, hit: Hit) {
    let (words, mem) = (WORDS_PER_TILE * s.tiles, bytes_of(&s.pages));
    let sharing = SHARING_PER_TILE * s.tiles;
    hit_single(
        &[
            (s.words_len < words, "100: words too short"),
            (s.words_len > words, "100: words too long"),
            (s.sharing_len < sharing, "100: sharing too short"),
            (s.sharing_len > sharing, "100: sharing too long"),
            (s.mem_len < mem, "100: mem too short"),
            (s.mem_len > mem, "100: mem too long"),
        ],
        hit,
    );
}

/// The places of the endpoints that are not acceptable on their tile.
fn bad_endpoints(seen: &Seen) -> Vec<u64> {
    let s = seen.sizes();
    let table = (0..).zip(seen.words[..s.words_len as usize].chunks_exact(3));
    let bad = table.filter(|(place, words)| {
        let size = s.size_of(place / ENDPOINTS);
        !word_faults(words, size).is_empty()
    });
    bad.map(|(place, _)| place).collect()
}

/// Whether the table and the records are good, for the sizes that the call states.
fn contents_hold(seen: &Seen) -> bool {
    let mut records = seen.sharing[..seen.sizes().sharing_len as usize].chunks_exact(67);
    bad_endpoints(seen).is_empty() && records.all(|record| record_faults(record).is_empty())
}

fn visit_bad_table(seen: &Seen, hit: Hit) {
    let bad = bad_endpoints(seen);
    let last = seen.sizes().tiles * ENDPOINTS - 1;
    hit_if(hit, bad == [last], "100: only the last endpoint of the last tile is bad");
    hit_if(hit, bad == [0], "100: only the first endpoint is bad");
    if let [place] = bad[..] {
        unequal::visit_bad_endpoint(seen, place, hit);
    }
}

/// Records that are refused for one fault in one of them, where the table is good.
fn visit_bad_records(seen: &Seen, hit: Hit) {
    let s = seen.sizes();
    let records = seen.sharing[..s.sharing_len as usize].chunks_exact(67).enumerate();
    let bad: Vec<(usize, Vec<&'static str>)> = records
        .map(|(tile, record)| (tile, record_faults(record)))
        .filter(|(_, faults)| !faults.is_empty())
        .collect();
    let good_table = bad_endpoints(seen).is_empty();
    match &bad[..] {
        [] if good_table => hit("100 where sizes, table and records are good"),
        [(tile, faults)] if good_table => {
            hit_if(hit, *tile == 0, "record: only that of the first tile is bad");
            let last = *tile as u64 + 1 == s.tiles;
            hit_if(hit, last, "record: only that of the last tile is bad");
            if let [fault] = faults[..] {
                hit(fault);
                visit_bad_requests(&seen.sharing[tile * 67..][..67], hit);
            }
        }
        _ => {}
    }
}

/// Which of the requests that wait is the one that is none.
fn visit_bad_requests(record: &[u64], hit: Hit) {
    let waiting = requests(record);
    let bad: Vec<usize> =
        (0..waiting.len()).filter(|k| request_faults(waiting[*k]).len() == 1).collect();
    if bad.len() == 1 && waiting.len() > 1 {
        hit_if(hit, bad[0] == 0, "record: only the oldest request is bad");
        hit_if(hit, bad[0] + 1 == waiting.len(), "record: only the newest request is bad");
        hit_if(hit, bad[0] == 63, "record: only the 64th request is bad");
    }
}

/// The requests that wait, the oldest first; none where the head is wrong.
fn requests(record: &[u64]) -> Vec<u64> {
    if record[1] > 63 || record[2] > 64 {
        return Vec::new();
    }
    let mut places = record[3..67].to_vec();
    places.rotate_left(record[1] as usize);
    places.truncate(record[2] as usize);
    places
}

fn request_faults(word: u64) -> Vec<&'static str> {
    let faults = [
        (word % 4 != 2, "record: a request of another type"),
        (word % (1 << 18) / 4 > 63, "record: a request's endpoint is 64 or above"),
        (word % (1 << 48) / (1 << 18) != 0, "record: a request with an unnamed bit"),
    ];
    faults.iter().filter(|(holds, _)| *holds).map(|(_, fault)| *fault).collect()
}

/// What is wrong with a sharing record: a second test, apart from the model's.
pub fn record_faults(record: &[u64]) -> Vec<&'static str> {
    let head = [
        (record[0] > 0xFFFF_FFFF, "record: CUR_ACT above 32 bits"),
        (record[1] > 63, "record: the oldest at 64 or above"),
        (record[2] == 65, "record: 65 wait"),
        (record[2] > 65, "record: far more than 64 wait"),
    ];
    let mut faults: Vec<&'static str> =
        head.iter().filter(|(holds, _)| *holds).map(|(_, fault)| *fault).collect();
    faults.extend(requests(record).into_iter().flat_map(request_faults));
    faults
}

/// What is wrong with three words: a second test, apart from the model's.
pub fn word_faults(words: &[u64], memory: u64) -> Vec<&'static str> {
    let (first, second, third) = (words[0], words[1], words[2]);
    let unnamed_in_memory = first & (0x3 << 21) != 0 || first >> 37 != 0;
    let faults: Vec<(bool, &'static str)> = match first % 8 {
        0 => vec![(first != 0 || second != 0 || third != 0, "words: INVALID with a bit set")],
        1 => vec![
            (first >> 54 != 0, "words: unnamed bit in the first word of SEND"),
            (second >> 30 != 0, "words: unnamed bit in the second word of SEND"),
        ],
        2 => receive_faults(words, memory),
        3 => vec![(unnamed_in_memory, "words: unnamed bit in MEMORY")],
        _ => vec![(true, "words: type 4 to 7")],
    };
    let holding = faults.into_iter().filter(|(holds, _)| *holds);
    holding.map(|(_, fault)| fault).collect()
}

fn receive_faults(words: &[u64], memory: u64) -> Vec<(bool, &'static str)> {
    let field = |low: u32| words[0] >> low & 63;
    let (slots, slot_size, wpos, rpos) = (field(35), field(41), field(47), field(53));
    let count = 1u128 << slots;
    let (occupied, unread) = (words[2] & 0xFFFF_FFFF, words[2] >> 32);
    let masks = u128::from(occupied | unread);
    let end = u128::from(words[1]) + (1u128 << (slots + slot_size).min(100));
    let passes = end >> 64 != 0 && end - (1 << 64) <= u128::from(memory);
    vec![
        (words[0] >> 59 != 0, "words: unnamed bit in RECEIVE"),
        (slots > 5, "words: slots above 5"),
        (slot_size < 5, "words: slot_size below 5"),
        (slot_size > 11, "words: slot_size above 11"),
        (u128::from(wpos) > count, "words: wpos above 2^slots"),
        (u128::from(rpos) > count, "words: rpos above 2^slots"),
        (slots <= 5 && masks >> count != 0, "words: mask bit at 2^slots or above"),
        (unread & !occupied != 0, "words: unread and not occupied"),
        (words[1] % 8 != 0, "words: buffer no multiple of 8"),
        (passes, "words: buffer end passes 2^64"),
        (!passes && end > u128::from(memory), "words: buffer past M"),
    ]
}

/// Words that are refused for one fault; also holds the model against the
/// second test of the words above.
fn visit_refused_words(seen: &Seen, words: &[u64; 3], memory: u64, hit: Hit) {
    let faults = word_faults(words, memory);
    match (seen.answer(), &faults[..]) {
        (103, [fault]) => hit(fault),
        (103, []) | (0, [_, ..]) => hit("the two tests of the words do not agree"),
        _ => {}
    }
}

/// The memory of `tcu_pack` and `tcu_unpack` that is not allowed, where it is the only
/// fault.
fn visit_memory(memory: u64, names: [&'static str; 3], lists_match: bool, hit: Hit) {
    let reasons = [memory == 0, memory % PAGE != 0, memory > MAX_MEMORY];
    if lists_match {
        hit_single(&[0, 1, 2].map(|at| (reasons[at], names[at])), hit);
    }
}

fn visit_pack(seen: &Seen, fields: &[u64], words: &[u64], hit: Hit) {
    hit_if(hit, fields.len() != FIELDS, "pack: fields of another length");
    hit_if(hit, words.len() != 3, "pack: words of another length");
    if seen.answer() != 103 {
        return;
    }
    let widths: &[u32] = match fields[0] {
        0 => &[],
        1 => &[16, 6, 6, 6, 16, 1, 16, 8, 6, 64],
        2 => &[16, 16, 6, 6, 6, 6, 64, 32, 32],
        3 => &[16, 2, 8, 6, 64, 64],
        _ => {
            hit("pack: kind above 3");
            return;
        }
    };
    let (used, unused) = fields[1..].split_at(widths.len());
    let too_large =
        used.iter().zip(widths).any(|(field, width)| *width < 64 && field >> width != 0);
    let stray = unused.iter().any(|number| *number != 0);
    hit_if(hit, too_large && !stray, "pack: a field too large");
    hit_if(hit, stray && !too_large, "pack: an unused number is not zero");
    let rule = fields[0] == 2 && !too_large && !stray;
    hit_if(hit, rule, "pack: a receive endpoint breaks a rule");
}

// ---------------------------------------------------------------- Wiring

/// The one rule that an unsound wiring breaks, by a test apart from the model's. No
/// table breaks only the rule that credits are at most 62: a receive endpoint
/// has at most 32 slots, so such a sender also promises too much.
fn visit_unsound(seen: &Seen, hit: Hit) {
    let mut senders = Vec::new();
    let mut receivers = Vec::new();
    for tile in 0..seen.sizes().tiles {
        for id in 0..ENDPOINTS {
            match seen.endpoint(tile, id) {
                Endpoint::Send(ep) => senders.push(ep),
                Endpoint::Receive(ep) => receivers.push((tile, id, ep)),
                _ => {}
            }
        }
    }
    let aims = |ep: &Send, tile: u64, id: u64| {
        ep.tgt_chip == 0 && (u64::from(ep.tgt_tile), u64::from(ep.tgt_ep)) == (tile, id)
    };
    let lost = |ep: &Send| !receivers.iter().any(|(tile, id, _)| aims(ep, *tile, *id));
    let overfull = |(tile, id, ep): &(u64, u64, Receive)| {
        let aimed = senders.iter().filter(|sender| aims(sender, *tile, *id));
        aimed.map(|sender| u64::from(sender.max_crd)).sum::<u64>() > ep.count()
    };
    let past = receivers.iter().any(|(_, _, ep)| ep.range_past_end());
    hit_single(
        &[
            (senders.iter().any(|ep| ep.reply), "wiring: a reply endpoint"),
            (receivers.iter().any(|(_, _, ep)| ep.occupied != 0), "wiring: an occupied bit"),
            (past, "wiring: a range past 64"),
            (range_in_use(seen, &receivers), "wiring: a range over an endpoint in use"),
            (ranges_share(&receivers), "wiring: two ranges share an endpoint"),
            (senders.iter().any(|ep| ep.cur_crd != ep.max_crd), "wiring: cur_crd is not max_crd"),
            (senders.iter().any(lost), "wiring: aims at no receive endpoint"),
            (receivers.iter().any(overfull), "wiring: too much promised"),
        ],
        hit,
    );
}

fn range_in_use(seen: &Seen, receivers: &[(u64, u64, Receive)]) -> bool {
    receivers.iter().filter(|(_, _, ep)| ep.has_reply_range()).any(|(tile, _, ep)| {
        let start = u64::from(ep.rpl_eps);
        (start..start + ep.count()).any(|id| seen.endpoint(*tile, id) != Endpoint::Invalid)
    })
}

fn ranges_share(receivers: &[(u64, u64, Receive)]) -> bool {
    let ranges = receivers.iter().filter(|(_, _, ep)| ep.has_reply_range());
    let ranges: Vec<(u64, u64, u64, u64)> = ranges
        .map(|(tile, id, ep)| {
            (*tile, *id, u64::from(ep.rpl_eps), u64::from(ep.rpl_eps) + ep.count())
        })
        .collect();
    ranges.iter().any(|(tile, id, start, end)| {
        let apart = |other: &&(u64, u64, u64, u64)| other.0 == *tile && other.1 != *id;
        ranges.iter().filter(apart).any(|other| other.2 < *end && *start < other.3)
    })
}
