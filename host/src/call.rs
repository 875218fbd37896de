//! Calls of the library as data: what the host lends, the numbers it passes, and
//! what comes back. A call can be run by the model or sent to a runner.

use crate::model::{self, Command, Machine, PAGE, WORDS_PER_TILE};
use crate::sharing::SHARING_PER_TILE;
use crate::wrong::Wrong;

/// What the host lends. A call may be given less of it than there is.
#[derive(Clone, Debug, Default, PartialEq, Eq)]
pub struct State {
    pub words: Vec<u64>,
    pub sharing: Vec<u64>,
    pub mem: Vec<u8>,
}

/// The sizes as a call states them: the number of tiles, the list of page counts,
/// which is lent with the call, and the lengths of the other slices.
#[derive(Clone, Debug, PartialEq, Eq)]
pub struct Sizes {
    pub tiles: u64,
    pub pages: Vec<u8>,
    pub words_len: u64,
    pub sharing_len: u64,
    pub mem_len: u64,
}

impl Sizes {
    /// The sizes that belong to a list of page counts.
    pub fn of(pages: &[u8]) -> Sizes {
        let tiles = pages.len() as u64;
        Sizes {
            tiles,
            pages: pages.to_vec(),
            words_len: WORDS_PER_TILE * tiles,
            sharing_len: SHARING_PER_TILE * tiles,
            mem_len: bytes_of(pages),
        }
    }

    /// The bytes of memory of a tile; none where the list has no count for it.
    pub fn size_of(&self, tile: u64) -> u64 {
        let count = usize::try_from(tile).ok().and_then(|tile| self.pages.get(tile));
        count.map_or(0, |count| bytes_of(&[*count]))
    }

    /// Where the memory of a tile starts in the lent one.
    pub fn start_of(&self, tile: u64) -> u64 {
        let before = self.pages.len().min(tile as usize);
        bytes_of(&self.pages[..before])
    }
}

/// The bytes of memory that so many pages have together.
pub fn bytes_of(pages: &[u8]) -> u64 {
    pages.iter().map(|count| u64::from(*count) * PAGE).sum()
}

/// What is called, with its own numbers and lists. The memory of `Unpack` and `Pack` is
/// that of the tile that has the endpoint.
#[derive(Clone, Debug, PartialEq, Eq)]
pub enum Action {
    Command(Command),
    Configure { tile: u64, endpoint: u64, words: [u64; 3] },
    Invalidate { tile: u64, endpoint: u64 },
    Privileged { tile: u64, opcode: u64, arg0: u64, arg1: u64 },
    Respond { tile: u64 },
    Waiting { tile: u64, list: Vec<u64> },
    Wiring,
    Unpack { memory: u64, words: [u64; 3], fields: Vec<u64> },
    Pack { memory: u64, fields: Vec<u64>, words: Vec<u64> },
}

/// The functions of the library, each at its number on the line to the runner.
pub const FUNCTIONS: [&str; 9] = [
    "tcu_command",
    "tcu_configure",
    "tcu_invalidate",
    "tcu_wiring",
    "tcu_unpack",
    "tcu_pack",
    "tcu_privileged",
    "tcu_respond",
    "tcu_waiting",
];

impl Action {
    /// The number of the function that is called.
    pub fn function(&self) -> usize {
        match self {
            Action::Command(_) => 0,
            Action::Configure { .. } => 1,
            Action::Invalidate { .. } => 2,
            Action::Wiring => 3,
            Action::Unpack { .. } => 4,
            Action::Pack { .. } => 5,
            Action::Privileged { .. } => 6,
            Action::Respond { .. } => 7,
            Action::Waiting { .. } => 8,
        }
    }
}

#[derive(Clone, Debug, PartialEq, Eq)]
pub struct Call {
    pub sizes: Sizes,
    pub action: Action,
}

/// What a call gives back, besides what it did to the lent state. The lists are
/// those lent to `tcu_unpack` and `tcu_pack`, as they are afterwards; `fields` is
/// also the list lent to `tcu_waiting`.
#[derive(Clone, Debug, Default, PartialEq, Eq)]
pub struct Outcome {
    pub answer: u32,
    pub arg1: u64,
    pub fields: Vec<u64>,
    pub packed: Vec<u64>,
}

impl State {
    /// The part of the state that a call with these sizes is lent.
    pub fn machine<'a>(&'a mut self, sizes: &'a Sizes, wrong: Wrong) -> Machine<'a> {
        Machine {
            tiles: sizes.tiles,
            pages: &sizes.pages,
            words: &mut self.words[..sizes.words_len as usize],
            sharing: &mut self.sharing[..sizes.sharing_len as usize],
            mem: &mut self.mem[..sizes.mem_len as usize],
            wrong,
        }
    }
}

impl Call {
    /// Runs the call on the model.
    pub fn run(&self, state: &mut State, wrong: Wrong) -> Outcome {
        match &self.action {
            Action::Unpack { memory, words, fields } => {
                let mut fields = fields.clone();
                let answer = model::unpack(*memory, *words, &mut fields) as u32;
                Outcome { answer, fields, ..Outcome::default() }
            }
            Action::Pack { memory, fields, words } => {
                let mut packed = words.clone();
                let answer = model::pack(*memory, fields, &mut packed) as u32;
                Outcome { answer, fields: fields.clone(), packed, ..Outcome::default() }
            }
            on_machine => run_on_machine(on_machine, state.machine(&self.sizes, wrong)),
        }
    }
}

fn run_on_machine(action: &Action, mut machine: Machine) -> Outcome {
    let mut arg1 = 0;
    let mut fields = Vec::new();
    let answer = match action {
        Action::Command(command) => {
            let (answer, after) = machine.command(command);
            arg1 = after;
            answer as u32
        }
        Action::Configure { tile, endpoint, words } => {
            machine.configure(*tile, *endpoint, *words) as u32
        }
        Action::Invalidate { tile, endpoint } => machine.invalidate(*tile, *endpoint) as u32,
        Action::Privileged { tile, opcode, arg0, arg1: given } => {
            let (answer, after) = machine.privileged(*tile, *opcode, *arg0, *given);
            arg1 = after;
            answer as u32
        }
        Action::Respond { tile } => machine.respond(*tile) as u32,
        Action::Waiting { tile, list } => {
            fields.clone_from(list);
            machine.waiting(*tile, &mut fields) as u32
        }
        _ => machine.wiring().map_or_else(|refusal| refusal as u32, u32::from),
    };
    Outcome { answer, arg1, fields, ..Outcome::default() }
}
