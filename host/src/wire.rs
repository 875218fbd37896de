//! The line to a runner: a child process that makes the calls. A session goes
//! out as one batch, and the runner answers with one reply for each call.
//!
//! Everything is 64-bit numbers, least byte first, but for the bytes of memory and
//! the page counts, which are bytes too. A batch is
//!
//!   mark, lengths of words, sharing and mem, number of calls, bytes of all calls,
//!   the words, the sharing records, the memory, the calls;
//!
//! a call is fifteen numbers (see `encode_call`), the page counts, and the two lists
//! of `tcu_pack` and `tcu_unpack`, the first also that of `tcu_waiting`; a reply is
//!
//!   answer, ARG_1, faults, bytes of stack used, number of changed words, of
//!   changed words of sharing records, and of changed ranges, each word as place
//!   and value, each range as place, length and bytes, and the two lists as they
//!   are afterwards.
//!
//! The runner takes in a whole batch before it answers, so that neither side
//! waits for the other to empty its pipe.

use crate::call::{Action, Call, Outcome, Sizes, State};
use crate::generate::Session;
use crate::model::Command;
use crate::wrong::Wrong;
use std::io::{self, BufReader, BufWriter, Read, Write};
use std::process::{Child, ChildStdin, ChildStdout, Command as Process, Stdio};

/// Starts every batch: "tcubatch".
const MARK: u64 = u64::from_le_bytes(*b"tcubatch");

/// What the runner found wrong besides the results, one bit each.
pub const FAULTS: [&str; 12] = [
    "wrote beside words",
    "wrote beside sharing",
    "wrote beside mem",
    "wrote beside fields",
    "wrote beside the packed words",
    "wrote beside arg1",
    "wrote into sharing that is only read",
    "wrote into words that are only read",
    "wrote into mem that is only read",
    "wrote into fields that are only read",
    "wrote beside pages",
    "wrote into pages, which are only read",
];

/// The runner's answer to one call.
#[derive(Clone, Debug, Default)]
pub struct Reply {
    pub outcome: Outcome,
    pub faults: u64,
    /// The bytes of the small stack that were used; 0 where the model plays the runner.
    pub stack: u64,
    pub words: Vec<(u64, u64)>,
    pub sharing: Vec<(u64, u64)>,
    pub ranges: Vec<(u64, Vec<u8>)>,
}

impl Reply {
    /// Carries the reported changes over to a copy of the state.
    pub fn apply(&self, state: &mut State) {
        for (place, word) in &self.words {
            state.words[*place as usize] = *word;
        }
        for (place, word) in &self.sharing {
            state.sharing[*place as usize] = *word;
        }
        for (place, bytes) in &self.ranges {
            let start = *place as usize;
            state.mem[start..start + bytes.len()].copy_from_slice(bytes);
        }
    }
}

// ---------------------------------------------------------------- Numbers

fn put(out: &mut Vec<u8>, numbers: &[u64]) {
    for number in numbers {
        out.extend_from_slice(&number.to_le_bytes());
    }
}

fn take(input: &mut impl Read) -> io::Result<u64> {
    let mut bytes = [0; 8];
    input.read_exact(&mut bytes)?;
    Ok(u64::from_le_bytes(bytes))
}

fn take_list(input: &mut impl Read, length: u64) -> io::Result<Vec<u64>> {
    (0..length).map(|_| take(input)).collect()
}

fn take_bytes(input: &mut impl Read, length: u64) -> io::Result<Vec<u8>> {
    let mut bytes = vec![0; length as usize];
    input.read_exact(&mut bytes)?;
    Ok(bytes)
}

fn bad_data(what: &str) -> io::Error {
    io::Error::new(io::ErrorKind::InvalidData, what)
}

// ---------------------------------------------------------------- Calls

/// The two lists that a call lends besides the machine.
fn lists(call: &Call) -> (&[u64], &[u64]) {
    match &call.action {
        Action::Unpack { fields, .. } => (fields, &[]),
        Action::Waiting { list, .. } => (list, &[]),
        Action::Pack { fields, words, .. } => (fields, words),
        _ => (&[], &[]),
    }
}

/// Function, tiles, four lengths of slices, tile, endpoint, five numbers, two lengths
/// of lists; the page counts; the lists.
fn encode_call(out: &mut Vec<u8>, call: &Call) {
    let (tile, endpoint, numbers) = match &call.action {
        Action::Command(c) => {
            (c.tile, c.endpoint, [c.opcode, c.arg0, c.data_addr, c.data_size, c.arg1])
        }
        Action::Configure { tile, endpoint, words: [first, second, third] } => {
            (*tile, *endpoint, [*first, *second, *third, 0, 0])
        }
        Action::Invalidate { tile, endpoint } => (*tile, *endpoint, [0; 5]),
        Action::Unpack { memory, words: [first, second, third], .. } => {
            (0, 0, [*first, *second, *third, *memory, 0])
        }
        Action::Pack { memory, .. } => (0, 0, [0, 0, 0, *memory, 0]),
        Action::Wiring => (0, 0, [0; 5]),
        Action::Privileged { tile, opcode, arg0, arg1 } => {
            (*tile, 0, [*opcode, *arg0, 0, 0, *arg1])
        }
        Action::Respond { tile } | Action::Waiting { tile, .. } => (*tile, 0, [0; 5]),
    };
    let s = &call.sizes;
    put(out, &[call.action.function() as u64, s.tiles]);
    put(out, &[s.pages.len() as u64, s.words_len, s.sharing_len, s.mem_len]);
    put(out, &[tile, endpoint]);
    put(out, &numbers);
    let (fields, packed) = lists(call);
    put(out, &[fields.len() as u64, packed.len() as u64]);
    out.extend_from_slice(&s.pages);
    put(out, fields);
    put(out, packed);
}

fn decode_call(input: &mut impl Read) -> io::Result<Call> {
    let head = take_list(input, 15)?;
    let pages = take_bytes(input, head[2])?;
    let fields = take_list(input, head[13])?;
    let packed = take_list(input, head[14])?;
    let (tile, endpoint) = (head[6], head[7]);
    let words = [head[8], head[9], head[10]];
    let action = match head[0] {
        0 => Action::Command(Command {
            tile,
            opcode: head[8],
            endpoint,
            arg0: head[9],
            data_addr: head[10],
            data_size: head[11],
            arg1: head[12],
        }),
        1 => Action::Configure { tile, endpoint, words },
        2 => Action::Invalidate { tile, endpoint },
        3 => Action::Wiring,
        4 => Action::Unpack { memory: head[11], words, fields },
        5 => Action::Pack { memory: head[11], fields, words: packed },
        6 => Action::Privileged { tile, opcode: head[8], arg0: head[9], arg1: head[12] },
        7 => Action::Respond { tile },
        8 => Action::Waiting { tile, list: fields },
        _ => return Err(bad_data("no such function")),
    };
    let sizes =
        Sizes { tiles: head[1], pages, words_len: head[3], sharing_len: head[4], mem_len: head[5] };
    Ok(Call { sizes, action })
}

// ---------------------------------------------------------------- Replies

fn encode_reply(out: &mut Vec<u8>, reply: &Reply) {
    let outcome = &reply.outcome;
    put(out, &[u64::from(outcome.answer), outcome.arg1, reply.faults, reply.stack]);
    let counts = [reply.words.len(), reply.sharing.len(), reply.ranges.len()];
    put(out, &counts.map(|count| count as u64));
    for (place, word) in reply.words.iter().chain(&reply.sharing) {
        put(out, &[*place, *word]);
    }
    for (place, bytes) in &reply.ranges {
        put(out, &[*place, bytes.len() as u64]);
        out.extend_from_slice(bytes);
    }
    put(out, &outcome.fields);
    put(out, &outcome.packed);
}

fn take_changes(input: &mut impl Read, count: u64) -> io::Result<Vec<(u64, u64)>> {
    (0..count).map(|_| Ok((take(input)?, take(input)?))).collect()
}

fn decode_reply(input: &mut impl Read, call: &Call) -> io::Result<Reply> {
    let answer = take(input)?;
    let arg1 = take(input)?;
    let faults = take(input)?;
    let stack = take(input)?;
    let changed_words = take(input)?;
    let changed_sharing = take(input)?;
    let changed_ranges = take(input)?;
    let words = take_changes(input, changed_words)?;
    let sharing = take_changes(input, changed_sharing)?;
    let mut ranges = Vec::new();
    for _ in 0..changed_ranges {
        let place = take(input)?;
        let length = take(input)?;
        ranges.push((place, take_bytes(input, length)?));
    }
    let (fields, packed) = lists(call);
    let fields = take_list(input, fields.len() as u64)?;
    let packed = take_list(input, packed.len() as u64)?;
    let outcome = Outcome { answer: answer as u32, arg1, fields, packed };
    Ok(Reply { outcome, faults, stack, words, sharing, ranges })
}

// ---------------------------------------------------------------- Our end

/// A running runner.
pub struct Runner {
    child: Child,
    to: Option<BufWriter<ChildStdin>>,
    from: BufReader<ChildStdout>,
}

impl Runner {
    /// Starts a program with its arguments as the runner.
    pub fn start(program: &[String]) -> io::Result<Runner> {
        let mut child = Process::new(&program[0])
            .args(&program[1..])
            .stdin(Stdio::piped())
            .stdout(Stdio::piped())
            .spawn()?;
        let to = child.stdin.take().map(BufWriter::new);
        let from = child.stdout.take().ok_or_else(|| bad_data("the runner has no output"))?;
        Ok(Runner { child, to, from: BufReader::with_capacity(1 << 18, from) })
    }

    /// Has the first `count` calls of a session made.
    pub fn run(&mut self, session: &Session, count: usize) -> io::Result<Vec<Reply>> {
        let calls = &session.calls[..count];
        let batch = encode_batch(&session.state, calls);
        let to = self.to.as_mut().ok_or_else(|| bad_data("the runner has no input"))?;
        to.write_all(&batch)?;
        to.flush()?;
        calls.iter().map(|call| decode_reply(&mut self.from, call)).collect()
    }
}

impl Drop for Runner {
    /// The end of its input ends the runner.
    fn drop(&mut self) {
        self.to = None;
        let _ = self.child.wait();
    }
}

fn encode_batch(state: &State, calls: &[Call]) -> Vec<u8> {
    let mut encoded = Vec::new();
    for call in calls {
        encode_call(&mut encoded, call);
    }
    let (words, sharing, mem) = (state.words.len(), state.sharing.len(), state.mem.len());
    let bytes = encoded.len();
    let mut out = Vec::with_capacity((words + sharing) * 8 + mem + bytes + 64);
    put(&mut out, &[MARK]);
    put(&mut out, &[words, sharing, mem, calls.len(), bytes].map(|length| length as u64));
    put(&mut out, &state.words);
    put(&mut out, &state.sharing);
    out.extend_from_slice(&state.mem);
    out.extend_from_slice(&encoded);
    out
}

// ---------------------------------------------------------------- The other end

/// Plays the runner with the model, to test the comparison itself.
pub fn serve(input: &mut impl Read, output: &mut impl Write) -> io::Result<()> {
    loop {
        match take(input) {
            Ok(MARK) => {}
            Ok(_) => return Err(bad_data("no batch")),
            Err(end) if end.kind() == io::ErrorKind::UnexpectedEof => return Ok(()),
            Err(error) => return Err(error),
        }
        let (mut state, calls) = decode_batch(input)?;
        let mut out = Vec::new();
        for call in calls {
            let before = state.clone();
            let outcome = call.run(&mut state, Wrong::Nothing);
            encode_reply(&mut out, &difference(&before, &state, outcome));
        }
        output.write_all(&out)?;
        output.flush()?;
    }
}

fn decode_batch(input: &mut impl Read) -> io::Result<(State, Vec<Call>)> {
    let head = take_list(input, 5)?;
    let words = take_list(input, head[0])?;
    let sharing = take_list(input, head[1])?;
    let mem = take_bytes(input, head[2])?;
    let encoded = take_bytes(input, head[4])?;
    let mut rest = &encoded[..];
    let calls: io::Result<Vec<Call>> = (0..head[3]).map(|_| decode_call(&mut rest)).collect();
    Ok((State { words, sharing, mem }, calls?))
}

/// The words that differ, each with its place.
fn changes(before: &[u64], after: &[u64]) -> Vec<(u64, u64)> {
    let pairs = (0..).zip(before.iter().zip(after));
    pairs.filter(|(_, (old, new))| old != new).map(|(place, (_, new))| (place, *new)).collect()
}

fn difference(before: &State, after: &State, outcome: Outcome) -> Reply {
    let words = changes(&before.words, &after.words);
    let sharing = changes(&before.sharing, &after.sharing);
    let changed = |place: &usize| before.mem[*place] != after.mem[*place];
    let mut ranges = Vec::new();
    if before.mem != after.mem {
        let first = (0..after.mem.len()).find(changed).unwrap_or(0);
        let last = (0..after.mem.len()).rev().find(changed).unwrap_or(0);
        ranges.push((first as u64, after.mem[first..=last].to_vec()));
    }
    Reply { outcome, faults: 0, stack: 0, words, sharing, ranges }
}
