//! The rules of the TCU reference machine as document 01 has them, in the order of
//! its sentences, and those of requests T-01, T-03 and T-04 of document 02. Everything
//! works on slices that the host lends. Where document 01 says M, each tile has a
//! size of its own: `size_of`, and `start_of`, which adds up the sizes before it.
//! Sums of free 64-bit numbers are taken in 128 bits, so none of them wraps.
//!
//! `endpoint.rs` has the endpoints' words and fields, `sharing.rs` the sharing
//! records. A field `wrong` can switch on one wrong reading (see `wrong.rs`); with
//! `Wrong::Nothing` the model is the document.

pub use crate::endpoint::{acceptable, pack, unpack};
pub use crate::endpoint::{Endpoint, Memory, Receive, Send, FIELDS};
use crate::sharing::{self, Request, SHARING_PER_TILE};
use crate::wrong::Wrong;

// ---------------------------------------------------------------- Sizes

pub const MAX_TILES: u64 = 8;
pub const ENDPOINTS: u64 = 64;
pub const WORDS_PER_TILE: u64 = 192;
pub const PAGE: u64 = 4096;
pub const MAX_MEMORY: u64 = 65_536;
/// The header of a message, in bytes.
pub const HEADER: u64 = 32;
/// The endpoint number that names no endpoint.
pub const NO_ENDPOINT: u16 = 65_535;
/// The `cur_crd` that means unlimited.
pub const UNLIMITED: u8 = 63;
/// The largest `cur_crd` that a reply adds one to: at 62 one more would be unlimited.
pub const LAST_RAISED: u8 = 61;

/// The memory of a tile, in bytes, is a multiple of 4,096, from 4,096 to 65,536.
pub fn memory_allowed(memory: u64) -> bool {
    memory % PAGE == 0 && (PAGE..=MAX_MEMORY).contains(&memory)
}

/// The sum of two free numbers, which never wraps.
pub(crate) fn sum(left: u64, right: u64) -> u128 {
    u128::from(left) + u128::from(right)
}

// ---------------------------------------------------------------- Answers

#[derive(Clone, Copy, Debug, PartialEq, Eq)]
#[repr(u32)]
pub enum Answer {
    None = 0,
    NoMep = 1,
    NoSep = 2,
    NoRep = 3,
    ForeignEp = 4,
    SendReplyEp = 5,
    RecvGone = 6,
    RecvNoSpace = 7,
    RepliesDisabled = 8,
    OutOfBounds = 9,
    NoCredits = 10,
    NoPerm = 11,
    InvMsgOff = 12,
    Abort = 14,
    UnknownCmd = 15,
    RecvOutOfBounds = 16,
    RecvInvRplEps = 17,
    SendInvCrdEp = 18,
    SendInvMsgSz = 19,
    TimeoutNoc = 21,
    PageBoundary = 22,
    MsgUnaligned = 23,
    BadMachine = 100,
    NoSuchTile = 101,
    BadEp = 102,
    BadConfig = 103,
}

pub(crate) type Checked<T> = Result<T, Answer>;

pub(crate) fn demand(holds: bool, otherwise: Answer) -> Checked<()> {
    if holds {
        Ok(())
    } else {
        Err(otherwise)
    }
}

// ---------------------------------------------------------------- Messages

/// What a message's header carries; the sender's chip is always 0.
struct Message {
    is_reply: bool,
    rsize: u8,
    stile: u64,
    length: u64,
    sep: u16,
    rep: u16,
    rlabel: u64,
    label: u64,
}

impl Message {
    fn header(&self) -> [u8; HEADER as usize] {
        let first = u64::from(self.is_reply)
            | u64::from(self.rsize) << 2
            | self.stile << 6
            | self.length << 20
            | u64::from(self.sep) << 32
            | u64::from(self.rep) << 48;
        let mut header = [0; HEADER as usize];
        header[0..8].copy_from_slice(&first.to_le_bytes());
        header[8..16].copy_from_slice(&self.rlabel.to_le_bytes());
        header[16..24].copy_from_slice(&self.label.to_le_bytes());
        header
    }
}

/// The first slot from `position`, going round, whose mask bit is `wanted`.
/// A position of 2^slots is one past the last slot, so it starts at 0.
pub fn find_slot(mask: u32, position: u8, slots: u8, wanted: bool) -> Option<u64> {
    let count = 1 << slots;
    (0..count)
        .map(|step| (u64::from(position) + step) % count)
        .find(|idx| (mask >> idx & 1 == 1) == wanted)
}

// ---------------------------------------------------------------- The machine

/// What the host lends for one call.
pub struct Machine<'a> {
    pub tiles: u64,
    /// For each tile, how many pages its memory has.
    pub pages: &'a [u8],
    pub words: &'a mut [u64],
    pub sharing: &'a mut [u64],
    pub mem: &'a mut [u8],
    pub wrong: Wrong,
}

pub mod opcode {
    pub const IDLE: u64 = 0;
    pub const SEND: u64 = 1;
    pub const REPLY: u64 = 2;
    pub const READ: u64 = 3;
    pub const WRITE: u64 = 4;
    pub const FETCH: u64 = 5;
    pub const ACK_MSG: u64 = 6;
}

/// The opcodes of privileged commands.
pub mod privileged {
    pub const IDLE: u64 = 0;
    pub const XCHG_ACT: u64 = 4;
}

/// The permission bits of a memory endpoint.
const MAY_READ: u8 = 1;
const MAY_WRITE: u8 = 2;

#[derive(Clone, Copy, Debug, PartialEq, Eq)]
pub struct Command {
    pub tile: u64,
    pub opcode: u64,
    pub endpoint: u64,
    pub arg0: u64,
    pub data_addr: u64,
    pub data_size: u64,
    pub arg1: u64,
}

impl Machine<'_> {
    /// BAD_MACHINE: a size is broken, or the table or a sharing record is not good.
    fn check(&self) -> Checked<()> {
        let right = self.sizes_hold() && self.table_is_good() && self.records_are_good();
        demand(right, Answer::BadMachine)
    }

    /// The first two tests come first: the products cannot wrap then, and each tile
    /// has a page count.
    fn sizes_hold(&self) -> bool {
        (1..=MAX_TILES).contains(&self.tiles)
            && self.pages_hold()
            && self.words.len() as u64 == WORDS_PER_TILE * self.tiles
            && self.sharing.len() as u64 == SHARING_PER_TILE * self.tiles
            && self.mem_length_holds()
    }

    /// A count of 1 to 16 pages for each tile.
    fn pages_hold(&self) -> bool {
        let counts = self.pages.len() as u64;
        let one_for_each = match self.wrong {
            Wrong::LongerListTaken => counts >= self.tiles,
            Wrong::ShorterListTaken => (1..=self.tiles).contains(&counts),
            _ => counts == self.tiles,
        };
        let allowed = match self.wrong {
            Wrong::NoPagesTaken => 0..=16,
            Wrong::SeventeenPagesTaken => 1..=17,
            _ => 1..=16,
        };
        one_for_each && self.pages.iter().all(|count| allowed.contains(count))
    }

    /// The lent memory ends where that of the last tile does.
    fn mem_length_holds(&self) -> bool {
        let (lent, end) = (self.mem.len() as u64, self.start_of(self.tiles));
        lent == end || (self.wrong == Wrong::LongerMemoryTaken && lent > end)
    }

    /// The bytes of a tile's memory.
    fn size_of(&self, tile: u64) -> u64 {
        let place = match self.wrong {
            Wrong::ShorterListTaken => (tile as usize).min(self.pages.len() - 1),
            _ => tile as usize,
        };
        u64::from(self.pages[place]) * PAGE
    }

    /// A tile's memory starts where those of the tiles before it end.
    fn start_of(&self, tile: u64) -> u64 {
        (0..tile).map(|before| self.size_of(before)).sum()
    }

    /// So many bytes from a tile's start on, or as many as are lent: a wrong reading
    /// must differ, but not leave the lent memory.
    fn at_most_lent(&self, tile: u64, bytes: u64) -> u64 {
        bytes.min(self.mem.len() as u64 - self.start_of(tile))
    }

    fn table_is_good(&self) -> bool {
        let tested = if self.wrong == Wrong::SkipLastEndpoint { 63 } else { 64 };
        (0..).zip(self.words.chunks_exact(WORDS_PER_TILE as usize)).all(|(tile, table)| {
            let size = self.receive_size(tile);
            table.chunks_exact(3).take(tested).all(|words| acceptable(words, size))
        })
    }

    /// The size that the receive buffers of a tile must fit into: its own.
    fn receive_size(&self, tile: u64) -> u64 {
        match self.wrong {
            Wrong::FirstTileDecides => self.at_most_lent(tile, self.size_of(0)),
            _ => self.size_of(tile),
        }
    }

    fn records_are_good(&self) -> bool {
        let mut records = self.sharing.chunks_exact(SHARING_PER_TILE as usize);
        match self.wrong {
            Wrong::SkipLastRecord => records.take(self.tiles as usize - 1).all(sharing::acceptable),
            Wrong::FreePlacesTested => records.all(|record| {
                let all_places = &record[3..];
                let requests = all_places.iter().all(|word| Request::read(*word).is_some());
                sharing::acceptable(record) && requests
            }),
            Wrong::OnlyOldestTested => records.all(|record| {
                let mut shortened = record.to_vec();
                if record[sharing::WAITING] <= sharing::QUEUE {
                    shortened[sharing::WAITING] = record[sharing::WAITING].min(1);
                }
                sharing::acceptable(&shortened)
            }),
            _ => records.all(sharing::acceptable),
        }
    }

    /// An endpoint number of 64 or more reads as INVALID.
    pub fn endpoint(&self, tile: u64, id: u64) -> Endpoint {
        if id >= ENDPOINTS {
            return Endpoint::Invalid;
        }
        let at = (tile * WORDS_PER_TILE + id * 3) as usize;
        let words = &self.words[at..at + 3];
        if self.wrong == Wrong::SkipLastEndpoint && !acceptable(words, self.size_of(tile)) {
            return Endpoint::Invalid;
        }
        Endpoint::read(words)
    }

    fn write_words(&mut self, tile: u64, id: u64, words: [u64; 3]) {
        let at = (tile * WORDS_PER_TILE + id * 3) as usize;
        self.words[at..at + 3].copy_from_slice(&words);
    }

    fn write_endpoint(&mut self, tile: u64, id: u64, endpoint: Endpoint) {
        self.write_words(tile, id, endpoint.words());
    }

    /// The sharing record of a tile.
    fn record(&self, tile: u64) -> &[u64] {
        let start = (tile * SHARING_PER_TILE) as usize;
        &self.sharing[start..start + SHARING_PER_TILE as usize]
    }

    fn record_mut(&mut self, tile: u64) -> &mut [u64] {
        let start = (tile * SHARING_PER_TILE) as usize;
        &mut self.sharing[start..start + SHARING_PER_TILE as usize]
    }

    /// The acting tile's activity id: the one in CUR_ACT.
    fn own(&self, tile: u64) -> u16 {
        sharing::current(self.record(tile))
    }

    /// The place in the lent memory of an address within a tile.
    fn place(&self, tile: u64, address: u64) -> usize {
        (self.start_of(tile) + address) as usize
    }

    /// The same for the tile that a command of the acting tile aims at.
    fn target_place(&self, acting: u64, tile: u64, address: u64) -> usize {
        let start = match self.wrong {
            Wrong::StartByOwnSize => tile * self.size_of(acting),
            Wrong::StartByTargetSize => tile * self.size_of(tile),
            _ => return self.place(tile, address),
        };
        let last_start = self.mem.len() as u64 - self.size_of(tile);
        (start.min(last_start) + address) as usize
    }

    // ------------------------------------------------------------ Host calls

    pub fn configure(&mut self, tile: u64, endpoint: u64, words: [u64; 3]) -> Answer {
        let checked = self.check_place(tile, endpoint).and_then(|()| {
            let fits = acceptable(&words, self.receive_size(tile));
            demand(fits, Answer::BadConfig)
        });
        match checked {
            Err(refusal) => refusal,
            Ok(()) => {
                self.write_words(tile, endpoint, words);
                Answer::None
            }
        }
    }

    pub fn invalidate(&mut self, tile: u64, endpoint: u64) -> Answer {
        match self.check_place(tile, endpoint) {
            Err(refusal) => refusal,
            Ok(()) => {
                self.write_words(tile, endpoint, [0; 3]);
                Answer::None
            }
        }
    }

    fn check_place(&self, tile: u64, endpoint: u64) -> Checked<()> {
        self.check_tile(tile)?;
        demand(endpoint < ENDPOINTS, Answer::BadEp)
    }

    fn check_tile(&self, tile: u64) -> Checked<()> {
        self.check()?;
        demand(tile < self.tiles, Answer::NoSuchTile)
    }

    /// A response from the tile takes its oldest request away; where none waits,
    /// nothing changes.
    pub fn respond(&mut self, tile: u64) -> Answer {
        if let Err(refusal) = self.check_tile(tile) {
            return refusal;
        }
        let wrong = self.wrong;
        let record = self.record_mut(tile);
        match wrong {
            Wrong::LastInFirstOut => {
                record[sharing::WAITING] = record[sharing::WAITING].saturating_sub(1);
            }
            Wrong::ResponseWraps if record[sharing::WAITING] == 0 => {
                record[sharing::OLDEST] = (record[sharing::OLDEST] + 1) % sharing::QUEUE;
                record[sharing::WAITING] = sharing::QUEUE - 1;
            }
            Wrong::FreedPlaceCleared if record[sharing::WAITING] != 0 => {
                let freed = sharing::place(record, 0);
                record[freed] = 0;
                sharing::dequeue(record);
            }
            _ => sharing::dequeue(record),
        }
        Answer::None
    }

    /// How many requests wait at a tile, and the endpoint and activity of the
    /// oldest. The length of the list is tested first.
    pub fn waiting(&self, tile: u64, list: &mut [u64]) -> Answer {
        let right_length = list.len() == 3;
        if !right_length && self.wrong != Wrong::WaitingTileFirst {
            return Answer::BadMachine;
        }
        if let Err(refusal) = self.check_tile(tile) {
            return refusal;
        }
        if !right_length {
            return Answer::BadMachine;
        }
        let record = self.record(tile);
        list.copy_from_slice(&match sharing::oldest(record) {
            None => [0; 3],
            Some(request) => {
                [record[sharing::WAITING], request.endpoint.into(), request.act.into()]
            }
        });
        Answer::None
    }

    /// A privileged command: the answer, and its second argument afterwards.
    pub fn privileged(&mut self, tile: u64, op: u64, arg0: u64, arg1: u64) -> (Answer, u64) {
        if let Err(refusal) = self.check_tile(tile) {
            return (refusal, arg1);
        }
        match op {
            privileged::IDLE => (Answer::None, arg1),
            privileged::XCHG_ACT => (Answer::None, self.exchange(tile, arg0)),
            _ => (Answer::UnknownCmd, arg1),
        }
    }

    /// Hands back the old word of CUR_ACT and sets it from arg0's low 32 bits.
    fn exchange(&mut self, tile: u64, arg0: u64) -> u64 {
        let wrong = self.wrong;
        let word = &mut self.record_mut(tile)[sharing::CUR_ACT];
        let old = *word;
        *word = match wrong {
            Wrong::ExchangeForgetsCount => arg0 & 0xFFFF,
            Wrong::ExchangeKeepsCount => old & 0xFFFF_0000 | arg0 & 0xFFFF,
            Wrong::ExchangeAllBits => arg0,
            _ => arg0 & 0xFFFF_FFFF,
        };
        old
    }

    // ------------------------------------------------------------ Commands

    /// The answer, and ARG_1 afterwards.
    pub fn command(&mut self, call: &Command) -> (Answer, u64) {
        match self.checked_command(call) {
            Ok(arg1) => (Answer::None, arg1),
            Err(refusal) => (refusal, call.arg1),
        }
    }

    fn checked_command(&mut self, call: &Command) -> Checked<u64> {
        self.check_tile(call.tile)?;
        match call.opcode {
            opcode::IDLE => Ok(call.arg1),
            opcode::SEND => self.send(call).map(|()| call.arg1),
            opcode::REPLY => self.reply(call).map(|()| call.arg1),
            opcode::READ => self.transfer(call, MAY_READ).map(|()| call.arg1),
            opcode::WRITE => self.transfer(call, MAY_WRITE).map(|()| call.arg1),
            opcode::FETCH => self.fetch(call),
            opcode::ACK_MSG => self.acknowledge(call).map(|()| call.arg1),
            _ => Err(Answer::UnknownCmd),
        }
    }

    /// READ and WRITE, which differ in the permission and the direction.
    fn transfer(&mut self, call: &Command, permission: u8) -> Checked<()> {
        let ep = self.endpoint(call.tile, call.endpoint).memory().ok_or(Answer::NoMep)?;
        demand(ep.act == self.own(call.tile), Answer::ForeignEp)?;
        demand(ep.rw & permission != 0, Answer::NoPerm)?;
        if call.data_size == 0 {
            return Ok(());
        }
        let end = match self.wrong {
            Wrong::WrappingBounds => u128::from(call.data_size.wrapping_add(call.arg1)),
            _ => sum(call.data_size, call.arg1),
        };
        demand(end <= u128::from(ep.size), Answer::OutOfBounds)?;
        page_rule(call)?;
        let target = u64::from(ep.tile);
        demand(ep.chip == 0 && target < self.tiles, Answer::Abort)?;
        let remote_size = match self.wrong {
            Wrong::OwnSizeForRemote => self.at_most_lent(target, self.size_of(call.tile)),
            _ => self.size_of(target),
        };
        let remote_end = sum(ep.addr, call.arg1) + u128::from(call.data_size);
        demand(remote_end <= u128::from(remote_size), Answer::Abort)?;
        self.local_range(call)?;

        let remote = self.target_place(call.tile, target, ep.addr + call.arg1);
        let local = self.place(call.tile, call.data_addr);
        match permission {
            MAY_READ => self.copy(remote, local, call.data_size as usize),
            _ => self.copy(local, remote, call.data_size as usize),
        }
        Ok(())
    }

    /// All bytes are read before any is written.
    fn copy(&mut self, from: usize, to: usize, length: usize) {
        if self.wrong == Wrong::ForwardCopy {
            for step in 0..length {
                self.mem[to + step] = self.mem[from + step];
            }
            return;
        }
        self.mem.copy_within(from..from + length, to);
    }

    fn local_range(&self, call: &Command) -> Checked<()> {
        let end = sum(call.data_addr, call.data_size);
        demand(end <= u128::from(self.size_of(call.tile)), Answer::Abort)
    }

    /// The local range of a message, which is looked at for size 0 too.
    fn message_range(&self, call: &Command) -> Checked<()> {
        if self.wrong == Wrong::EmptyMessageAnywhere && call.data_size == 0 {
            return Ok(());
        }
        self.local_range(call)
    }

    fn send(&mut self, call: &Command) -> Checked<()> {
        let ep = self.endpoint(call.tile, call.endpoint).send().ok_or(Answer::NoSep)?;
        demand(!ep.reply, Answer::SendReplyEp)?;
        demand(ep.act == self.own(call.tile), Answer::ForeignEp)?;
        message_rules(call, ep.msg_sz)?;
        let rsize = self.reply_size(call)?;
        self.message_range(call)?;
        demand(ep.cur_crd != 0, Answer::NoCredits)?;

        let limited = ep.cur_crd != UNLIMITED;
        let names_itself = limited || self.wrong == Wrong::UnlimitedNamed;
        let message = Message {
            is_reply: false,
            rsize,
            stile: call.tile,
            length: call.data_size,
            sep: if names_itself { call.endpoint as u16 } else { NO_ENDPOINT },
            rep: call.arg0 as u16,
            rlabel: call.arg1,
            label: ep.label,
        };
        let delivered = self.deliver(&message, &ep, call);
        let takes_credit = delivered.is_ok() || self.wrong == Wrong::CreditForRefusedSend;
        if limited && takes_credit {
            self.take_credit(call, ep);
        }
        delivered
    }

    /// The record read at the start is written back with one credit less.
    fn take_credit(&mut self, call: &Command, at_start: Send) {
        let record = match self.wrong {
            Wrong::SendKeepsDelivered => {
                self.endpoint(call.tile, call.endpoint).send().unwrap_or(at_start)
            }
            _ => at_start,
        };
        let lowered = Send { cur_crd: record.cur_crd - 1, ..record };
        self.write_endpoint(call.tile, call.endpoint, Endpoint::Send(lowered));
    }

    /// The size of a reply's slot, or of a bare header if no reply is wanted.
    fn reply_size(&self, call: &Command) -> Checked<u8> {
        if call.arg0 == u64::from(NO_ENDPOINT) {
            return Ok(5);
        }
        let ep = self.endpoint(call.tile, call.arg0).receive().ok_or(Answer::NoRep)?;
        Ok(ep.slot_size)
    }

    fn reply(&mut self, call: &Command) -> Checked<()> {
        let ep = self.endpoint(call.tile, call.endpoint).receive().ok_or(Answer::NoRep)?;
        if self.wrong == Wrong::ActFirstInReply {
            demand(ep.act == self.own(call.tile), Answer::ForeignEp)?;
        }
        demand(ep.has_reply_range(), Answer::RepliesDisabled)?;
        demand(!ep.range_past_end(), Answer::RecvInvRplEps)?;
        demand(ep.act == self.own(call.tile), Answer::ForeignEp)?;
        let idx = ep.slot_at(call.arg0)?;
        let reply_id = u64::from(ep.rpl_eps) + idx;
        let reply_ep = self.endpoint(call.tile, reply_id).send().ok_or(Answer::NoSep)?;
        demand(reply_ep.reply, Answer::SendReplyEp)?;
        let credit = reply_ep.crd_ep;
        demand(credit == NO_ENDPOINT || u64::from(credit) < ENDPOINTS, Answer::SendInvCrdEp)?;
        message_rules(call, reply_ep.msg_sz)?;
        self.message_range(call)?;

        let message = Message {
            is_reply: true,
            rsize: 0,
            stile: call.tile,
            length: call.data_size,
            sep: call.endpoint as u16,
            rep: credit,
            rlabel: 0,
            label: reply_ep.label,
        };
        self.deliver(&message, &reply_ep, call)?;
        let unread = match self.wrong {
            Wrong::UnreadAfterDelivery => self.endpoint(call.tile, call.endpoint).receive(),
            Wrong::ReplyTakesNone => None,
            _ => Some(ep),
        };
        if unread.map_or(false, |ep| ep.is_unread(idx)) {
            self.take_unread(call.tile);
        }
        self.write_endpoint(call.tile, reply_id, Endpoint::Invalid);
        self.free_slot(call, ep, idx);
        Ok(())
    }

    /// The receive record read at the start is written back with `idx` cleared;
    /// a reply that came into the same endpoint is thereby lost.
    fn free_slot(&mut self, call: &Command, at_start: Receive, idx: u64) {
        let record = match self.wrong {
            Wrong::OwnReplyKept => {
                self.endpoint(call.tile, call.endpoint).receive().unwrap_or(at_start)
            }
            _ => at_start,
        };
        self.write_endpoint(call.tile, call.endpoint, Endpoint::Receive(record.without(idx)));
    }

    fn fetch(&mut self, call: &Command) -> Checked<u64> {
        let ep = self.endpoint(call.tile, call.endpoint).receive().ok_or(Answer::NoRep)?;
        demand(ep.act == self.own(call.tile), Answer::ForeignEp)?;
        let idx = match self.search(ep.unread, ep.rpos, ep.slots, true) {
            None => {
                if self.wrong == Wrong::EmptyFetchCounts {
                    self.take_unread(call.tile);
                }
                return Ok(u64::MAX);
            }
            Some(idx) => idx,
        };
        self.take_unread(call.tile);
        let fetched = Receive { unread: ep.unread & !(1 << idx), rpos: idx as u8 + 1, ..ep };
        self.write_endpoint(call.tile, call.endpoint, Endpoint::Receive(fetched));
        Ok(idx << ep.slot_size)
    }

    fn acknowledge(&mut self, call: &Command) -> Checked<()> {
        let ep = self.endpoint(call.tile, call.endpoint).receive().ok_or(Answer::NoRep)?;
        demand(!ep.range_past_end(), Answer::RecvInvRplEps)?;
        demand(ep.act == self.own(call.tile), Answer::ForeignEp)?;
        let idx = ep.slot_at(call.arg0)?;
        if ep.is_unread(idx) || self.wrong == Wrong::AckOfReadCounts {
            self.take_unread(call.tile);
        }
        self.write_endpoint(call.tile, call.endpoint, Endpoint::Receive(ep.without(idx)));
        if ep.has_reply_range() {
            self.write_endpoint(call.tile, u64::from(ep.rpl_eps) + idx, Endpoint::Invalid);
        }
        if self.wrong == Wrong::AckClearsRangeFirst {
            self.write_endpoint(call.tile, call.endpoint, Endpoint::Receive(ep.without(idx)));
        }
        Ok(())
    }

    fn search(&self, mask: u32, position: u8, slots: u8, wanted: bool) -> Option<u64> {
        match self.wrong {
            Wrong::SearchFromZero => find_slot(mask, 0, slots, wanted),
            Wrong::SearchWithoutTurn => {
                let found = find_slot(mask, position, slots, wanted);
                found.filter(|idx| *idx >= u64::from(position))
            }
            _ => find_slot(mask, position, slots, wanted),
        }
    }

    // ------------------------------------------------------------ Delivery

    /// Brings a message from the acting tile's memory to the endpoint that the
    /// send endpoint `sender` aims at.
    fn deliver(&mut self, message: &Message, sender: &Send, call: &Command) -> Checked<()> {
        let tile = u64::from(sender.tgt_tile);
        let id = u64::from(sender.tgt_ep);
        demand(sender.tgt_chip == 0 && tile < self.tiles, Answer::TimeoutNoc)?;
        let ep = self.endpoint(tile, id).receive().ok_or(Answer::RecvGone)?;
        if self.wrong == Wrong::QueueTestedFirst {
            self.room_for_request(tile, &ep)?;
        }
        demand(HEADER + message.length <= ep.slot_bytes(), Answer::RecvOutOfBounds)?;
        demand(!ep.range_past_end(), Answer::RecvInvRplEps)?;
        let free = self.search(ep.occupied, ep.wpos, ep.slots, false);
        let idx = free.ok_or(Answer::RecvNoSpace)?;
        self.room_for_request(tile, &ep)?;
        if self.wrong == Wrong::CreditRefused {
            self.room_for_credit(message, tile)?;
        }

        let filled = Receive {
            occupied: ep.occupied | 1 << idx,
            unread: ep.unread | 1 << idx,
            wpos: idx as u8 + 1,
            ..ep
        };
        self.write_endpoint(tile, id, Endpoint::Receive(filled));
        let slot = self.target_place(call.tile, tile, ep.buffer + (idx << ep.slot_size));
        self.store(message, call.data_addr, slot);
        if message.is_reply {
            self.give_credit(message, tile);
        } else if message.rep != NO_ENDPOINT && ep.has_reply_range() {
            let reply_ep = reply_endpoint(message, &ep);
            self.write_endpoint(tile, u64::from(ep.rpl_eps) + idx, Endpoint::Send(reply_ep));
        }
        let lost = message.is_reply && (tile, id) == (call.tile, call.endpoint);
        if !(lost && self.wrong == Wrong::LostReplyNotCounted) {
            let act = if self.wrong == Wrong::SendersActivity { sender.act } else { ep.act };
            self.arrive(tile, id, ep.act, act == self.own(tile), call.tile);
        }
        Ok(())
    }

    /// A message for another activity needs a place for its request.
    fn room_for_request(&self, tile: u64, receiver: &Receive) -> Checked<()> {
        let foreign = receiver.act != self.own(tile);
        let full = sharing::is_full(self.record(tile)) && self.wrong != Wrong::QueueOf65;
        demand(!(foreign && full), Answer::RecvNoSpace)
    }

    /// A message came into an endpoint: the current activity has one more unread
    /// message; for another activity a request is queued.
    fn arrive(&mut self, tile: u64, id: u64, act: u16, is_current: bool, sending_tile: u64) {
        if is_current {
            let counting = match self.wrong {
                Wrong::CountAtSender => sending_tile,
                _ => tile,
            };
            self.change_count(counting, 1);
            return;
        }
        if self.wrong == Wrong::ForeignCounted {
            self.change_count(tile, 1);
        }
        sharing::enqueue(self.record_mut(tile), Request { endpoint: id as u8, act });
    }

    /// One unread message of the acting tile was fetched, answered or acknowledged.
    fn take_unread(&mut self, tile: u64) {
        self.change_count(tile, -1);
    }

    /// The count is modulo 65,536.
    fn change_count(&mut self, tile: u64, by: i16) {
        let wrong = self.wrong;
        let record = self.record_mut(tile);
        let count = sharing::count(record);
        let changed = match wrong {
            Wrong::CountDoesNotWrap if by < 0 => count.saturating_sub(1),
            Wrong::CountDoesNotWrap => count.saturating_add(1),
            _ => count.wrapping_add(by as u16),
        };
        sharing::set_count(record, changed);
    }

    /// The payload goes first: the header may be stored over its old place.
    fn store(&mut self, message: &Message, data_addr: u64, slot: usize) {
        let after_header = slot + HEADER as usize;
        let length = message.length as usize;
        if self.wrong == Wrong::HeaderBeforePayload {
            self.mem[slot..after_header].copy_from_slice(&message.header());
        }
        if length != 0 {
            let payload = self.place(message.stile, data_addr);
            self.mem.copy_within(payload..payload + length, after_header);
        }
        self.mem[slot..after_header].copy_from_slice(&message.header());
    }

    /// The send endpoint on the receiving tile that a reply's `rep` names, where there is
    /// one, and its number.
    fn credit_place(&self, message: &Message, tile: u64) -> Option<(u64, Send)> {
        if !message.is_reply || message.rep == NO_ENDPOINT {
            return None;
        }
        let id = match self.wrong {
            Wrong::CreditElsewhere => u64::from(message.sep),
            _ => u64::from(message.rep),
        };
        self.endpoint(tile, id).send().map(|ep| (id, ep))
    }

    /// Whether a reply adds a credit to a send endpoint: not beyond `max_crd`, and never
    /// so that the credits become unlimited.
    fn gets_credit(&self, ep: &Send) -> bool {
        let below_max = ep.cur_crd < ep.max_crd;
        match self.wrong {
            // No other than the test of `max_crd` alone, which is at most 63.
            Wrong::CreditCap62 => below_max && ep.cur_crd <= 62,
            Wrong::CreditCap60 => below_max && ep.cur_crd <= 60,
            Wrong::CreditWithoutMax => ep.cur_crd <= LAST_RAISED,
            Wrong::CreditAtMax => ep.cur_crd <= ep.max_crd && ep.cur_crd <= LAST_RAISED,
            Wrong::CreditUnlessUnlimited => ep.cur_crd != UNLIMITED,
            _ => below_max && ep.cur_crd <= LAST_RAISED,
        }
    }

    /// A reply adds one to `cur_crd` of the send endpoint that it names.
    fn give_credit(&mut self, message: &Message, tile: u64) {
        if let Some((id, ep)) = self.credit_place(message, tile) {
            let cur_crd = match self.wrong {
                Wrong::CreditClamped if ep.cur_crd != UNLIMITED => {
                    (ep.cur_crd + 1).min(ep.max_crd).min(LAST_RAISED + 1)
                }
                _ if self.gets_credit(&ep) => ep.cur_crd + 1,
                _ => return,
            };
            self.write_endpoint(tile, id, Endpoint::Send(Send { cur_crd, ..ep }));
        }
    }

    /// What only a wrong model asks of a reply: that a limited sender gets its credit.
    fn room_for_credit(&self, message: &Message, tile: u64) -> Checked<()> {
        let left_out = |ep: Send| ep.cur_crd != UNLIMITED && !self.gets_credit(&ep);
        let refused = self.credit_place(message, tile).map_or(false, |(_, ep)| left_out(ep));
        demand(!refused, Answer::RecvNoSpace)
    }

    // ------------------------------------------------------------ Sound wiring

    /// Whether the wiring is sound, or BAD_MACHINE.
    pub fn wiring(&self) -> Checked<bool> {
        self.check()?;
        Ok((0..self.tiles).all(|tile| {
            self.holds_no_message(tile)
                && self.ranges_are_apart(tile)
                && self.ranges_are_free(tile)
                && self.senders_are_sound(tile)
        }) && self.promises_fit())
    }

    fn endpoints(&self, tile: u64) -> impl Iterator<Item = Endpoint> + '_ {
        (0..ENDPOINTS).map(move |id| self.endpoint(tile, id))
    }

    /// No reply endpoint and no occupied bit.
    fn holds_no_message(&self, tile: u64) -> bool {
        self.endpoints(tile).all(|endpoint| match endpoint {
            Endpoint::Send(ep) => !ep.reply,
            Endpoint::Receive(ep) => ep.occupied == 0,
            _ => true,
        })
    }

    /// Each reply range ends at or below 64 and holds only INVALID endpoints.
    fn ranges_are_free(&self, tile: u64) -> bool {
        self.endpoints(tile).filter_map(Endpoint::receive).all(|ep| {
            let start = u64::from(ep.rpl_eps);
            let is_free = |id| self.endpoint(tile, id) == Endpoint::Invalid;
            !ep.has_reply_range()
                || (!ep.range_past_end() && (start..start + ep.count()).all(is_free))
        })
    }

    /// No reply range shares an endpoint with another one on its tile.
    fn ranges_are_apart(&self, tile: u64) -> bool {
        let mut taken = [false; ENDPOINTS as usize];
        for ep in self.endpoints(tile).filter_map(Endpoint::receive) {
            if !ep.has_reply_range() || ep.range_past_end() {
                continue;
            }
            for place in &mut taken[ep.rpl_eps as usize..][..ep.count() as usize] {
                if *place && self.wrong != Wrong::SharedRangesSound {
                    return false;
                }
                *place = true;
            }
        }
        true
    }

    /// Each send endpoint has its credits, at most 62, and aims at an existing
    /// receive endpoint.
    fn senders_are_sound(&self, tile: u64) -> bool {
        self.endpoints(tile).filter_map(Endpoint::send).all(|ep| {
            let receiver = self.aimed_at(&ep);
            ep.cur_crd == ep.max_crd && ep.max_crd < UNLIMITED && receiver.is_some()
        })
    }

    fn aimed_at(&self, ep: &Send) -> Option<Receive> {
        let exists = ep.tgt_chip == 0 && u64::from(ep.tgt_tile) < self.tiles;
        let target = if exists {
            self.endpoint(ep.tgt_tile.into(), ep.tgt_ep.into())
        } else {
            Endpoint::Invalid
        };
        target.receive()
    }

    /// Per receive endpoint, the `max_crd` aimed at it sum to at most 2^slots.
    fn promises_fit(&self) -> bool {
        let mut promised = [0; (MAX_TILES * ENDPOINTS) as usize];
        let senders = (0..self.tiles).flat_map(|tile| self.endpoints(tile));
        for ep in senders.filter_map(Endpoint::send) {
            if self.aimed_at(&ep).is_some() {
                let receiver = u64::from(ep.tgt_tile) * ENDPOINTS + u64::from(ep.tgt_ep);
                promised[receiver as usize] += u64::from(ep.max_crd);
            }
        }
        let receivers = (0..self.tiles).flat_map(|tile| self.endpoints(tile));
        receivers.zip(promised).all(|(endpoint, promise)| match endpoint {
            Endpoint::Receive(ep) => promise <= ep.count(),
            _ => true,
        })
    }
}

/// (DATA_ADDR mod 4096) + DATA_SIZE above 4096 gives 22.
fn page_rule(call: &Command) -> Checked<()> {
    let end = sum(call.data_addr % PAGE, call.data_size);
    demand(end <= u128::from(PAGE), Answer::PageBoundary)
}

/// What SEND and REPLY ask of a message's size and address.
fn message_rules(call: &Command, msg_sz: u8) -> Checked<()> {
    demand(msg_sz <= 11, Answer::SendInvMsgSz)?;
    demand(sum(call.data_size, HEADER) <= 1 << msg_sz, Answer::OutOfBounds)?;
    demand(call.data_addr % 16 == 0, Answer::MsgUnaligned)?;
    page_rule(call)
}

/// The endpoint through which the receiver may answer a request.
fn reply_endpoint(message: &Message, receiver: &Receive) -> Send {
    Send {
        act: receiver.act,
        cur_crd: 1,
        max_crd: 1,
        msg_sz: message.rsize,
        crd_ep: message.sep,
        reply: true,
        tgt_ep: message.rep,
        tgt_tile: message.stile as u8,
        tgt_chip: 0,
        label: message.rlabel,
    }
}
