//! Endpoints: the words of document 01's table, and the fields in them.

use crate::model::{demand, memory_allowed, sum, Answer, Checked, ENDPOINTS, NO_ENDPOINT};

/// The numbers in the list that `unpack` fills and `pack` reads.
pub const FIELDS: usize = 11;

#[derive(Clone, Copy, Debug, PartialEq, Eq)]
pub struct Send {
    pub act: u16,
    pub cur_crd: u8,
    pub max_crd: u8,
    pub msg_sz: u8,
    pub crd_ep: u16,
    pub reply: bool,
    pub tgt_ep: u16,
    pub tgt_tile: u8,
    pub tgt_chip: u8,
    pub label: u64,
}

#[derive(Clone, Copy, Debug, PartialEq, Eq)]
pub struct Receive {
    pub act: u16,
    pub rpl_eps: u16,
    pub slots: u8,
    pub slot_size: u8,
    pub wpos: u8,
    pub rpos: u8,
    pub buffer: u64,
    pub occupied: u32,
    pub unread: u32,
}

#[derive(Clone, Copy, Debug, PartialEq, Eq)]
pub struct Memory {
    pub act: u16,
    pub rw: u8,
    pub tile: u8,
    pub chip: u8,
    pub addr: u64,
    pub size: u64,
}

#[derive(Clone, Copy, Debug, PartialEq, Eq)]
pub enum Endpoint {
    Invalid,
    Send(Send),
    Receive(Receive),
    Memory(Memory),
}

/// The bits `low` to `low + width - 1` of a word.
fn bits(word: u64, low: u32, width: u32) -> u64 {
    (word >> low) & (u64::MAX >> (64 - width))
}

/// A field's value, if it fits into its bits.
fn narrow<T: TryFrom<u64>>(value: u64, width: u32) -> Option<T> {
    if width < 64 && value >> width != 0 {
        return None;
    }
    T::try_from(value).ok()
}

impl Send {
    fn read(words: &[u64]) -> Send {
        let (first, second) = (words[0], words[1]);
        Send {
            act: bits(first, 3, 16) as u16,
            cur_crd: bits(first, 19, 6) as u8,
            max_crd: bits(first, 25, 6) as u8,
            msg_sz: bits(first, 31, 6) as u8,
            crd_ep: bits(first, 37, 16) as u16,
            reply: bits(first, 53, 1) == 1,
            tgt_ep: bits(second, 0, 16) as u16,
            tgt_tile: bits(second, 16, 8) as u8,
            tgt_chip: bits(second, 24, 6) as u8,
            label: words[2],
        }
    }

    fn words(&self) -> [u64; 3] {
        let first = 1
            | u64::from(self.act) << 3
            | u64::from(self.cur_crd) << 19
            | u64::from(self.max_crd) << 25
            | u64::from(self.msg_sz) << 31
            | u64::from(self.crd_ep) << 37
            | u64::from(self.reply) << 53;
        let second = u64::from(self.tgt_ep)
            | u64::from(self.tgt_tile) << 16
            | u64::from(self.tgt_chip) << 24;
        [first, second, self.label]
    }

    fn fields(&self) -> [u64; FIELDS] {
        let mut fields = [0; FIELDS];
        fields[0] = 1;
        fields[1] = self.act.into();
        fields[2] = self.cur_crd.into();
        fields[3] = self.max_crd.into();
        fields[4] = self.msg_sz.into();
        fields[5] = self.crd_ep.into();
        fields[6] = self.reply.into();
        fields[7] = self.tgt_ep.into();
        fields[8] = self.tgt_tile.into();
        fields[9] = self.tgt_chip.into();
        fields[10] = self.label;
        fields
    }

    fn from_fields(fields: &[u64]) -> Option<Send> {
        Some(Send {
            act: narrow(fields[1], 16)?,
            cur_crd: narrow(fields[2], 6)?,
            max_crd: narrow(fields[3], 6)?,
            msg_sz: narrow(fields[4], 6)?,
            crd_ep: narrow(fields[5], 16)?,
            reply: narrow::<u8>(fields[6], 1)? == 1,
            tgt_ep: narrow(fields[7], 16)?,
            tgt_tile: narrow(fields[8], 8)?,
            tgt_chip: narrow(fields[9], 6)?,
            label: fields[10],
        })
    }
}

impl Receive {
    fn read(words: &[u64]) -> Receive {
        let (first, third) = (words[0], words[2]);
        Receive {
            act: bits(first, 3, 16) as u16,
            rpl_eps: bits(first, 19, 16) as u16,
            slots: bits(first, 35, 6) as u8,
            slot_size: bits(first, 41, 6) as u8,
            wpos: bits(first, 47, 6) as u8,
            rpos: bits(first, 53, 6) as u8,
            buffer: words[1],
            occupied: bits(third, 0, 32) as u32,
            unread: bits(third, 32, 32) as u32,
        }
    }

    fn words(&self) -> [u64; 3] {
        let first = 2
            | u64::from(self.act) << 3
            | u64::from(self.rpl_eps) << 19
            | u64::from(self.slots) << 35
            | u64::from(self.slot_size) << 41
            | u64::from(self.wpos) << 47
            | u64::from(self.rpos) << 53;
        let third = u64::from(self.occupied) | u64::from(self.unread) << 32;
        [first, self.buffer, third]
    }

    fn fields(&self) -> [u64; FIELDS] {
        let mut fields = [0; FIELDS];
        fields[0] = 2;
        fields[1] = self.act.into();
        fields[2] = self.rpl_eps.into();
        fields[3] = self.slots.into();
        fields[4] = self.slot_size.into();
        fields[5] = self.wpos.into();
        fields[6] = self.rpos.into();
        fields[7] = self.buffer;
        fields[8] = self.occupied.into();
        fields[9] = self.unread.into();
        fields
    }

    fn from_fields(fields: &[u64]) -> Option<Receive> {
        Some(Receive {
            act: narrow(fields[1], 16)?,
            rpl_eps: narrow(fields[2], 16)?,
            slots: narrow(fields[3], 6)?,
            slot_size: narrow(fields[4], 6)?,
            wpos: narrow(fields[5], 6)?,
            rpos: narrow(fields[6], 6)?,
            buffer: fields[7],
            occupied: narrow(fields[8], 32)?,
            unread: narrow(fields[9], 32)?,
        })
    }

    /// The rules of a receive endpoint. An unread bit at 2^slots or above would
    /// also be occupied, so one test of the masks against 2^slots is enough.
    fn acceptable(&self, memory: u64) -> bool {
        self.slots <= 5
            && (5..=11).contains(&self.slot_size)
            && u64::from(self.wpos) <= self.count()
            && u64::from(self.rpos) <= self.count()
            && u64::from(self.occupied) >> self.count() == 0
            && self.unread & !self.occupied == 0
            && self.buffer % 8 == 0
            && sum(self.buffer, 1 << (self.slots + self.slot_size)) <= u128::from(memory)
    }

    /// The number of slots, 2^slots.
    pub fn count(&self) -> u64 {
        1 << self.slots
    }

    /// The bytes in a slot, 2^slot_size.
    pub fn slot_bytes(&self) -> u64 {
        1 << self.slot_size
    }

    pub fn has_reply_range(&self) -> bool {
        self.rpl_eps != NO_ENDPOINT
    }

    /// Whether the reply range, if there is one, ends above 64.
    pub fn range_past_end(&self) -> bool {
        self.has_reply_range() && u64::from(self.rpl_eps) + self.count() > ENDPOINTS
    }

    /// The slot that an arg0 names, if there is such a slot.
    pub fn slot_at(&self, arg0: u64) -> Checked<u64> {
        let idx = arg0 >> self.slot_size;
        demand(idx < self.count(), Answer::InvMsgOff)?;
        Ok(idx)
    }

    pub fn is_unread(&self, idx: u64) -> bool {
        self.unread >> idx & 1 == 1
    }

    pub fn without(self, idx: u64) -> Receive {
        let kept = !(1 << idx);
        Receive { occupied: self.occupied & kept, unread: self.unread & kept, ..self }
    }
}

impl Memory {
    fn read(words: &[u64]) -> Memory {
        let first = words[0];
        Memory {
            act: bits(first, 3, 16) as u16,
            rw: bits(first, 19, 2) as u8,
            tile: bits(first, 23, 8) as u8,
            chip: bits(first, 31, 6) as u8,
            addr: words[1],
            size: words[2],
        }
    }

    fn words(&self) -> [u64; 3] {
        let first = 3
            | u64::from(self.act) << 3
            | u64::from(self.rw) << 19
            | u64::from(self.tile) << 23
            | u64::from(self.chip) << 31;
        [first, self.addr, self.size]
    }

    fn fields(&self) -> [u64; FIELDS] {
        let mut fields = [0; FIELDS];
        fields[0] = 3;
        fields[1] = self.act.into();
        fields[2] = self.rw.into();
        fields[3] = self.tile.into();
        fields[4] = self.chip.into();
        fields[5] = self.addr;
        fields[6] = self.size;
        fields
    }

    fn from_fields(fields: &[u64]) -> Option<Memory> {
        Some(Memory {
            act: narrow(fields[1], 16)?,
            rw: narrow(fields[2], 2)?,
            tile: narrow(fields[3], 8)?,
            chip: narrow(fields[4], 6)?,
            addr: fields[5],
            size: fields[6],
        })
    }
}

/// The bits of a memory endpoint's first word that have a name.
const MEMORY_NAMED: u64 = 0x7 | 0xFFFF << 3 | 0x3 << 19 | 0xFF << 23 | 0x3F << 31;

/// Whether three words are acceptable as an endpoint of a tile with so much memory.
pub fn acceptable(words: &[u64], memory: u64) -> bool {
    match words[0] & 7 {
        0 => words[0] | words[1] | words[2] == 0,
        1 => words[0] >> 54 == 0 && words[1] >> 30 == 0,
        2 => words[0] >> 59 == 0 && Receive::read(words).acceptable(memory),
        3 => words[0] & !MEMORY_NAMED == 0,
        _ => false,
    }
}

impl Endpoint {
    /// The endpoint in three acceptable words.
    pub fn read(words: &[u64]) -> Endpoint {
        match words[0] & 7 {
            1 => Endpoint::Send(Send::read(words)),
            2 => Endpoint::Receive(Receive::read(words)),
            3 => Endpoint::Memory(Memory::read(words)),
            _ => Endpoint::Invalid,
        }
    }

    pub fn words(&self) -> [u64; 3] {
        match self {
            Endpoint::Invalid => [0; 3],
            Endpoint::Send(send) => send.words(),
            Endpoint::Receive(receive) => receive.words(),
            Endpoint::Memory(memory) => memory.words(),
        }
    }

    pub fn send(self) -> Option<Send> {
        match self {
            Endpoint::Send(send) => Some(send),
            _ => None,
        }
    }

    pub fn receive(self) -> Option<Receive> {
        match self {
            Endpoint::Receive(receive) => Some(receive),
            _ => None,
        }
    }

    pub fn memory(self) -> Option<Memory> {
        match self {
            Endpoint::Memory(memory) => Some(memory),
            _ => None,
        }
    }

    /// The kind's number and its fields, the rest zero.
    pub fn fields(&self) -> [u64; FIELDS] {
        match self {
            Endpoint::Invalid => [0; FIELDS],
            Endpoint::Send(send) => send.fields(),
            Endpoint::Receive(receive) => receive.fields(),
            Endpoint::Memory(memory) => memory.fields(),
        }
    }

    /// The endpoint with these fields, if they are acceptable.
    fn from_fields(fields: &[u64], memory: u64) -> Option<Endpoint> {
        let (endpoint, used) = match fields[0] {
            0 => (Endpoint::Invalid, 1),
            1 => (Endpoint::Send(Send::from_fields(fields)?), 11),
            2 => (Endpoint::Receive(Receive::from_fields(fields)?), 10),
            3 => (Endpoint::Memory(Memory::from_fields(fields)?), 7),
            _ => return None,
        };
        let rest_is_zero = fields[used..].iter().all(|number| *number == 0);
        let rules_hold = match endpoint {
            Endpoint::Receive(receive) => receive.acceptable(memory),
            _ => true,
        };
        Some(endpoint).filter(|_| rest_is_zero && rules_hold)
    }
}

/// Words into fields; `memory` is that of the tile that has the endpoint.
pub fn unpack(memory: u64, words: [u64; 3], fields: &mut [u64]) -> Answer {
    if !memory_allowed(memory) || fields.len() != FIELDS {
        return Answer::BadMachine;
    }
    if !acceptable(&words, memory) {
        return Answer::BadConfig;
    }
    fields.copy_from_slice(&Endpoint::read(&words).fields());
    Answer::None
}

/// Fields into words; `memory` is that of the tile that has the endpoint.
pub fn pack(memory: u64, fields: &[u64], words: &mut [u64]) -> Answer {
    if !memory_allowed(memory) || fields.len() != FIELDS || words.len() != 3 {
        return Answer::BadMachine;
    }
    match Endpoint::from_fields(fields, memory) {
        None => Answer::BadConfig,
        Some(endpoint) => {
            words.copy_from_slice(&endpoint.words());
            Answer::None
        }
    }
}
