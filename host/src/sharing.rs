//! The sharing record of a tile, request T-01 of document 02: the activity that the
//! tile runs, with its unread messages, and the requests that wait because a
//! message came for another activity.
//!
//! A record is 67 words: CUR_ACT, the place of the oldest request, how many wait,
//! and 64 places that requests use in turn, going round. All functions change the
//! words where they stand and leave alone what they do not name.

/// The words of a record.
pub const SHARING_PER_TILE: u64 = 67;
/// How many requests can wait at a tile.
pub const QUEUE: u64 = 64;

/// The places of the words in a record.
pub const CUR_ACT: usize = 0;
pub const OLDEST: usize = 1;
pub const WAITING: usize = 2;
const REQUESTS: usize = 3;

/// Says that a message came into an endpoint of an activity that is not running.
#[derive(Clone, Copy, Debug, PartialEq, Eq)]
pub struct Request {
    pub endpoint: u8,
    pub act: u16,
}

impl Request {
    pub fn word(&self) -> u64 {
        u64::from(self.act) << 48 | u64::from(self.endpoint) << 2 | 2
    }

    /// The request in a word, if the word is one: it is where the word has no bit
    /// but those that a request has.
    pub fn read(word: u64) -> Option<Request> {
        let request = Request { endpoint: (word >> 2) as u8 & 63, act: (word >> 48) as u16 };
        Some(request).filter(|request| request.word() == word)
    }
}

/// The id of the activity that runs.
pub fn current(record: &[u64]) -> u16 {
    record[CUR_ACT] as u16
}

/// The number of its unread messages.
pub fn count(record: &[u64]) -> u16 {
    (record[CUR_ACT] >> 16) as u16
}

pub fn set_count(record: &mut [u64], count: u16) {
    record[CUR_ACT] = u64::from(count) << 16 | u64::from(current(record));
}

/// The word at which request `k` stands, the oldest being request 0.
pub fn place(record: &[u64], k: u64) -> usize {
    REQUESTS + ((record[OLDEST] % QUEUE + k) % QUEUE) as usize
}

/// The oldest request, if one waits.
pub fn oldest(record: &[u64]) -> Option<Request> {
    if record[WAITING] == 0 {
        return None;
    }
    Request::read(record[place(record, 0)])
}

pub fn is_full(record: &[u64]) -> bool {
    record[WAITING] >= QUEUE
}

/// Puts a request behind those that wait.
pub fn enqueue(record: &mut [u64], request: Request) {
    let free = place(record, record[WAITING]);
    record[free] = request.word();
    record[WAITING] += 1;
}

/// Takes the oldest request away, if one waits.
pub fn dequeue(record: &mut [u64]) {
    if record[WAITING] != 0 {
        record[OLDEST] = (record[OLDEST] + 1) % QUEUE;
        record[WAITING] -= 1;
    }
}

/// Whether 67 words are a record. Places where no request waits may hold anything.
pub fn acceptable(record: &[u64]) -> bool {
    let waits = |k| Request::read(record[place(record, k)]).is_some();
    record[CUR_ACT] < 1 << 32
        && record[OLDEST] < QUEUE
        && record[WAITING] <= QUEUE
        && (0..record[WAITING]).all(waits)
}
