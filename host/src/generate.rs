//! Random sessions: a machine and some tens of calls on it, one after the other.
//! The generator follows the session on the model, so that it can name slots
//! that hold messages, endpoints that have credits, and sizes at their limits.

use crate::call::{Action, Call, State};
use crate::machines::{self, Place, World};
use crate::model::{find_slot, opcode, privileged, Command, Endpoint, Memory, Receive, Send};
use crate::model::{ENDPOINTS, FIELDS, HEADER, MAX_MEMORY, NO_ENDPOINT, PAGE};
use crate::random::Random;
use crate::sharing::{self, SHARING_PER_TILE};
use crate::sizes;
use crate::wrong::Wrong;

/// A machine as it is at first, and the calls to make on it in turn.
pub struct Session {
    pub number: u64,
    pub state: State,
    pub calls: Vec<Call>,
}

/// The session with a number; it depends on the seed and the number alone.
pub fn session(seed: u64, number: u64) -> Session {
    let mut random = Random::new(seed, number);
    let plan = machines::any_plan(&mut random);
    let world = plan.world;
    let mut state = world.state.clone();
    let mut calls = Vec::with_capacity(plan.calls as usize);
    if plan.wiring_first {
        calls.push(Call { sizes: world.sizes(), action: Action::Wiring });
    }
    for _ in 0..plan.calls {
        let call = Scene::new(&mut random, &world, &state).call();
        call.run(&mut state, Wrong::Nothing);
        calls.push(call);
    }
    Session { number, state: world.state, calls }
}

/// A machine in its present state, from which the next call is chosen.
struct Scene<'a> {
    random: &'a mut Random,
    world: &'a World,
    table: Vec<Endpoint>,
    /// The activity that each tile runs.
    acts: Vec<u16>,
}

/// A slot of a receive endpoint.
type Slot = (Place, Receive, u64);

impl<'a> Scene<'a> {
    fn new(random: &'a mut Random, world: &'a World, state: &State) -> Scene<'a> {
        let places = (0..world.tiles).flat_map(|tile| (0..ENDPOINTS).map(move |id| (tile, id)));
        let table = places.map(|place| world.endpoint(state, place)).collect();
        let records = state.sharing.chunks_exact(SHARING_PER_TILE as usize);
        Scene { random, world, table, acts: records.map(sharing::current).collect() }
    }

    /// The endpoints of the table in order, each with its place.
    fn placed(&self) -> impl Iterator<Item = (Place, &Endpoint)> {
        let numbered = (0..).zip(&self.table);
        numbered.map(|(at, endpoint): (u64, _)| ((at / ENDPOINTS, at % ENDPOINTS), endpoint))
    }

    fn call(&mut self) -> Call {
        let action = match self.random.weighted(&[67, 6, 3, 5, 4, 4, 5, 4, 2]) {
            0 => Action::Command(self.command()),
            1 => self.configure(),
            2 => Action::Invalidate { tile: self.tile(), endpoint: self.any_id() },
            3 => Action::Wiring,
            4 => self.unpack(),
            5 => self.pack(),
            6 => self.privileged(),
            7 => Action::Respond { tile: self.tile() },
            _ => self.waiting(),
        };
        Call { sizes: sizes::any_sizes(self.random, self.world), action }
    }

    // ------------------------------------------------------------ Places

    fn tile(&mut self) -> u64 {
        if self.random.chance(97) {
            return self.random.below(self.world.tiles);
        }
        self.odd_tile()
    }

    fn odd_tile(&mut self) -> u64 {
        let tiles = self.world.tiles;
        self.random.pick(&[tiles, tiles + 1, 8, 255, 256, 1 << 32, u64::MAX])
    }

    fn any_id(&mut self) -> u64 {
        if self.random.chance(94) {
            return self.random.below(ENDPOINTS);
        }
        let low = self.random.below(ENDPOINTS);
        self.random.pick(&[64, 65, 256 + low, 65_535, 65_536 + low, (1 << 32) + low, u64::MAX])
    }

    /// An endpoint that `wanted` chooses, mostly; where there is none, one that
    /// `possible` chooses; otherwise any place.
    fn actor(
        &mut self,
        wanted: impl Fn(&Endpoint) -> bool,
        possible: impl Fn(&Endpoint) -> bool,
    ) -> Place {
        let some = |scene: &Scene, test: &dyn Fn(&Endpoint) -> bool| -> Vec<Place> {
            scene.placed().filter(|(_, ep)| test(ep)).map(|(place, _)| place).collect()
        };
        let mut chosen = some(self, &wanted);
        if chosen.is_empty() {
            chosen = some(self, &possible);
        }
        let usable: Vec<Place> =
            chosen.iter().filter(|place| self.is_own(**place)).copied().collect();
        if !usable.is_empty() && self.random.chance(60) {
            chosen = usable;
        }
        if chosen.is_empty() || self.random.chance(4) {
            let tile = self.tile();
            return (tile, self.any_id());
        }
        let (tile, id) = self.random.pick(&chosen);
        match self.random.below(200) {
            0 => (self.odd_tile(), id),
            1 => (tile, id + self.random.pick(&[64, 256, 65_536, 1 << 32])),
            _ => (tile, id),
        }
    }

    fn endpoint(&self, (tile, id): Place) -> Endpoint {
        if tile >= self.world.tiles || id >= ENDPOINTS {
            return Endpoint::Invalid;
        }
        self.table[(tile * ENDPOINTS + id) as usize]
    }

    /// Whether an endpoint belongs to the activity that its tile runs.
    fn is_own(&self, place: Place) -> bool {
        let own = self.acts[place.0 as usize];
        match self.endpoint(place) {
            Endpoint::Invalid => false,
            Endpoint::Send(ep) => ep.act == own,
            Endpoint::Receive(ep) => ep.act == own,
            Endpoint::Memory(ep) => ep.act == own,
        }
    }

    /// The slots, of all receive endpoints, that `wanted` chooses.
    fn slots(&self, wanted: impl Fn(&Scene, Place, &Receive, u64) -> bool) -> Vec<Slot> {
        let mut found = Vec::new();
        for (place, endpoint) in self.placed() {
            if let Endpoint::Receive(ep) = *endpoint {
                let all = (0..ep.count()).filter(|idx| wanted(self, place, &ep, *idx));
                found.extend(all.map(|idx| (place, ep, idx)));
            }
        }
        found
    }

    // ------------------------------------------------------------ Commands

    fn command(&mut self) -> Command {
        match self.random.weighted(&[31, 23, 9, 9, 15, 10, 2, 1]) {
            0 => self.send(),
            1 => self.reply(),
            2 => self.transfer(opcode::READ),
            3 => self.transfer(opcode::WRITE),
            4 => self.fetch(),
            5 => self.acknowledge(),
            6 => self.plain(opcode::IDLE),
            _ => {
                let unknown = [7, 8, 255, 256 + 1, 65_536 + 5, (1 << 32) + 1, u64::MAX];
                let opcode = self.random.pick(&unknown);
                self.plain(opcode)
            }
        }
    }

    /// A command with no thought about its numbers.
    fn plain(&mut self, opcode: u64) -> Command {
        Command {
            tile: self.tile(),
            opcode,
            endpoint: self.any_id(),
            arg0: self.any_number(),
            data_addr: self.any_number(),
            data_size: self.any_number(),
            arg1: self.any_number(),
        }
    }

    fn any_number(&mut self) -> u64 {
        let random = self.random.number();
        self.random.pick(&[0, 16, random % 5000, random, 1 << 63, u64::MAX])
    }

    fn send(&mut self) -> Command {
        let ready = self.random.chance(85);
        let (tile, endpoint) = self.actor(
            |ep| match ep {
                Endpoint::Send(ep) => !ready || (!ep.reply && ep.cur_crd != 0),
                _ => false,
            },
            |ep| ep.send().is_some(),
        );
        let sender = self.endpoint((tile, endpoint)).send();
        let over_itself = sender.and_then(|ep| self.message_over_itself(tile, &ep));
        let (data_addr, data_size) =
            over_itself.unwrap_or_else(|| self.message(tile, sender.map_or(6, |ep| ep.msg_sz)));
        let arg0 = self.reply_place(tile);
        let arg1 = self.any_number();
        Command { tile, opcode: opcode::SEND, endpoint, arg0, data_addr, data_size, arg1 }
    }

    /// The arg0 of a SEND: no endpoint, a receive endpoint, or something else.
    fn reply_place(&mut self, tile: u64) -> u64 {
        let receivers: Vec<u64> =
            (0..ENDPOINTS).filter(|id| self.endpoint((tile, *id)).receive().is_some()).collect();
        match self.random.below(50) {
            0..=11 => u64::from(NO_ENDPOINT),
            12 => self.any_id(),
            13 if !receivers.is_empty() => {
                let far = self.random.pick(&[64, 256, 65_536, 1 << 32, 1 << 63]);
                self.random.pick(&receivers) + far
            }
            14 => self.random.pick(&[(1 << 32) + 65_535, 65_534, 131_071]),
            _ if receivers.is_empty() => u64::from(NO_ENDPOINT),
            _ => self.random.pick(&receivers),
        }
    }

    /// DATA_ADDR and DATA_SIZE of a message of a tile, through an endpoint with `msg_sz`.
    fn message(&mut self, tile: u64, msg_sz: u8) -> (u64, u64) {
        let most = (1 << msg_sz.min(11)) - HEADER.min(1 << msg_sz.min(11));
        let size = match self.random.weighted(&[54, 18, 10, 12, 3, 3]) {
            0 => self.random.between(0, most.min(96)),
            1 => most,
            2 => self.random.between(0, most),
            3 => 0,
            4 => most + 1,
            _ => self.random.pick(&[PAGE, 2017, u64::MAX, u64::MAX - 31, u64::MAX - 32, 1 << 63]),
        };
        let memory = self.world.size_near(self.random, tile);
        if self.random.chance(1) {
            // Ends one byte past the memory.
            return (memory, 1);
        }
        let page = self.random.below(memory / PAGE) * PAGE;
        let at_page_end = page + PAGE - size.min(PAGE);
        let random = self.random.number();
        let addr = match self.random.weighted(&[62, 16, 8, 3, 6, 3, 2]) {
            0 => page + self.random.between(0, (PAGE - size.min(PAGE)) / 16) * 16,
            1 => at_page_end / 16 * 16,
            2 => (at_page_end + 15) / 16 * 16,
            3 => self.random.below(memory),
            4 => self.random.pick(&[memory, memory + 16, memory + PAGE, memory + PAGE - 16]),
            5 => random / 16 * 16,
            _ => self.random.pick(&[u64::MAX - 15, u64::MAX, 1 << 63, 1 << 32]),
        };
        (addr, size)
    }

    /// Now and then, where an endpoint aims at its own tile: DATA_ADDR and DATA_SIZE
    /// of a message as large as it can be, most of which lies where it is stored.
    fn message_over_itself(&mut self, tile: u64, ep: &Send) -> Option<(u64, u64)> {
        if u64::from(ep.tgt_tile) != tile || !self.random.chance(40) {
            return None;
        }
        let receiver = self.endpoint((tile, ep.tgt_ep.into())).receive()?;
        let idx = find_slot(receiver.occupied, receiver.wpos, receiver.slots, false)?;
        let place = receiver.buffer + (idx << receiver.slot_size) + HEADER;
        let size = (1 << ep.msg_sz.min(receiver.slot_size)).max(HEADER) - HEADER;
        let step = self.random.pick(&[0, 16, 16, 32, 64, size / 2]);
        let near = self.random.pick(&[place.saturating_sub(step), place + step]) / 16 * 16;
        // A message lies within a page.
        let last = near / PAGE * PAGE + (PAGE - size);
        Some((near.min(last / 16 * 16), size))
    }

    fn reply(&mut self) -> Command {
        // Without the reply mark a send endpoint gives 5, and nothing else is tested.
        let only_marked = self.random.chance(70);
        let answerable = self.slots(|scene, (tile, _), ep, idx| {
            let place = (tile, u64::from(ep.rpl_eps) + idx);
            let sender = scene.endpoint(place).send();
            let wanted = |sender: Send| sender.reply || !only_marked;
            !ep.range_past_end() && sender.map_or(false, wanted)
        });
        if answerable.is_empty() && self.random.chance(60) {
            return self.send();
        }
        let (tile, endpoint, arg0) = self.slot(answerable, 90);
        let ep = self.endpoint((tile, endpoint)).receive();
        let reply_ep = ep.map(|ep| (tile, u64::from(ep.rpl_eps) + (arg0 >> ep.slot_size)));
        let msg_sz = match reply_ep.map(|place| self.endpoint(place)) {
            Some(Endpoint::Send(ep)) => ep.msg_sz,
            _ => 6,
        };
        let (data_addr, data_size) = self.message(tile, msg_sz);
        let arg1 = self.any_number();
        Command { tile, opcode: opcode::REPLY, endpoint, arg0, data_addr, data_size, arg1 }
    }

    fn acknowledge(&mut self) -> Command {
        let occupied = self.slots(|_, _, ep, idx| ep.occupied >> idx & 1 == 1);
        let (tile, endpoint, arg0) = self.slot(occupied, 70);
        let plain = self.plain(opcode::ACK_MSG);
        Command { tile, endpoint, arg0, ..plain }
    }

    /// One of the given slots, or any slot, or one that does not exist: tile,
    /// endpoint and an arg0 that names the slot.
    fn slot(&mut self, given: Vec<Slot>, percent: u64) -> (u64, u64, u64) {
        if !given.is_empty() && self.random.chance(percent) {
            let usable: Vec<Slot> =
                given.iter().filter(|(place, _, _)| self.is_own(*place)).copied().collect();
            let only_usable = !usable.is_empty() && self.random.chance(60);
            let given = if only_usable { usable } else { given };
            let ((tile, id), ep, idx) = self.random.pick(&given);
            let inside = self.random.pick(&[0, 0, 0, 1, ep.slot_bytes() - 1]);
            return (tile, id, (idx << ep.slot_size) + inside);
        }
        let is_receive = |endpoint: &Endpoint| endpoint.receive().is_some();
        let (tile, id) = self.actor(is_receive, is_receive);
        let ep = match self.endpoint((tile, id)) {
            Endpoint::Receive(ep) => ep,
            _ => return (tile, id, self.any_number()),
        };
        let end = ep.count() << ep.slot_size;
        let inside = self.random.below(end);
        let wrapping = (1 << 32 << ep.slot_size) + inside;
        let any = self.any_number();
        let arg0 = self.random.pick(&[inside, inside, inside, end - 1, end, wrapping, any]);
        (tile, id, arg0)
    }

    fn fetch(&mut self) -> Command {
        let unread = self.random.chance(80);
        let (tile, endpoint) = self.actor(
            |ep| match ep {
                Endpoint::Receive(ep) => !unread || ep.unread != 0,
                _ => false,
            },
            |ep| ep.receive().is_some(),
        );
        let plain = self.plain(opcode::FETCH);
        Command { tile, endpoint, ..plain }
    }

    fn transfer(&mut self, opcode: u64) -> Command {
        let is_memory = |endpoint: &Endpoint| endpoint.memory().is_some();
        let (tile, endpoint) = self.actor(is_memory, is_memory);
        let ep = match self.endpoint((tile, endpoint)) {
            Endpoint::Memory(ep) => ep,
            _ => {
                let plain = self.plain(opcode);
                return Command { tile, endpoint, ..plain };
            }
        };
        let data_size = match self.random.weighted(&[60, 12, 8, 10, 3, 7]) {
            0 => self.random.between(1, ep.size.clamp(1, 300)),
            1 => self.random.between(1, ep.size.clamp(1, PAGE)),
            2 => PAGE,
            3 => 0,
            4 => PAGE + 1,
            _ => self.random.pick(&[1, 2, ep.size, u64::MAX, 1 << 63]),
        };
        let over_itself = if data_size == PAGE { self.page_over_itself(&ep, tile) } else { None };
        let (data_addr, arg1) = over_itself.unwrap_or_else(|| {
            let arg1 = self.offset(&ep, tile, data_size);
            (self.local_place(&ep, tile, arg1, data_size), arg1)
        });
        let arg0 = self.any_number();
        Command { tile, opcode, endpoint, arg0, data_addr, data_size, arg1 }
    }

    /// DATA_ADDR and ARG_1 of a READ or WRITE of a whole page, where the region is on
    /// the same tile: a page of the tile, and a place of the region less than a page
    /// away from it, or the page itself.
    fn page_over_itself(&mut self, ep: &Memory, tile: u64) -> Option<(u64, u64)> {
        let memory = self.world.size_of(tile);
        let any = self.random.between(1, PAGE - 1);
        let step = self.random.pick(&[1, 8, 16, 31, PAGE - 1, any]);
        let last = ep.addr.saturating_add(ep.size).min(memory).checked_sub(PAGE)?;
        let mut found = Vec::new();
        for local in (0..memory / PAGE).map(|page| page * PAGE) {
            let (below, above) = (local.wrapping_sub(step), local + step);
            let near = [local, below, below, above, above].into_iter();
            let inside = near.filter(|remote| (ep.addr..=last).contains(remote));
            found.extend(inside.map(|remote| (local, remote - ep.addr)));
        }
        if u64::from(ep.tile) != tile || found.is_empty() {
            return None;
        }
        Some(self.random.pick(&found))
    }

    /// The ARG_1 of a READ or WRITE: within the region, at its end or that of the
    /// target's memory, past it, or so large that a sum in 64 bits would wrap. Now and
    /// then the acting tile's size takes the place of the target's.
    fn offset(&mut self, ep: &Memory, tile: u64, size: u64) -> u64 {
        let room = ep.size.saturating_sub(size);
        let by_own_size = self.random.chance(12);
        let top = self.world.size_of(if by_own_size { tile } else { ep.tile.into() });
        let reach = top.saturating_sub(ep.addr).saturating_sub(size).min(room);
        match self.random.weighted(&[38, 16, 8, 10, 8, 12, 8]) {
            0 => self.random.below(reach.max(1)),
            1 => reach,
            2 => (reach + 1).min(room),
            3 => room,
            4 => room.saturating_add(1),
            5 => u64::MAX - size.saturating_sub(self.random.pick(&[0, 1, 2])),
            _ => self.random.pick(&[0, u64::MAX, ep.size, ep.addr.wrapping_neg(), 1 << 63]),
        }
    }

    /// The DATA_ADDR of a READ or WRITE, on the same tile often near the remote
    /// range, so that both overlap. Now and then the target's size takes the place of
    /// the acting tile's.
    fn local_place(&mut self, ep: &Memory, tile: u64, arg1: u64, size: u64) -> u64 {
        let by_target_size = self.random.chance(12);
        let memory = self.world.size_of(if by_target_size { ep.tile.into() } else { tile });
        let remote = ep.addr.wrapping_add(arg1);
        if u64::from(ep.tile) == tile && remote < memory && self.random.chance(70) {
            let step = self.random.below(size.clamp(1, 64));
            return self.random.pick(&[remote.saturating_sub(step), remote + step]);
        }
        let page = self.random.below(memory / PAGE) * PAGE;
        let room = PAGE - size.min(PAGE);
        match self.random.weighted(&[60, 14, 10, 8, 8]) {
            0 => page + self.random.between(0, room),
            1 => page + room,
            2 => page + room + 1,
            3 => self.random.pick(&[memory, memory + PAGE, memory - 1]),
            _ => self.random.pick(&[u64::MAX, 1 << 63, 1 << 32, u64::MAX - PAGE + 1]),
        }
    }

    // ------------------------------------------------------------ Host calls

    fn receivers(&self) -> Vec<Place> {
        let all = self.placed().filter(|(_, endpoint)| endpoint.receive().is_some());
        all.map(|(place, _)| place).collect()
    }

    /// The words of some endpoint, acceptable on a tile or not.
    fn some_words(&mut self, tile: u64) -> [u64; 3] {
        let receivers = self.receivers();
        match self.random.weighted(&[62, 28, 5, 5]) {
            0 => machines::any_endpoint(self.random, self.world, tile, &receivers).words(),
            1 => machines::broken_words(self.random, self.world, tile),
            2 => [self.random.number(), self.random.number(), self.random.number()],
            _ => {
                let mut words =
                    machines::any_endpoint(self.random, self.world, tile, &receivers).words();
                words[self.random.below(3) as usize] ^= 1 << self.random.below(64);
                words
            }
        }
    }

    /// Mostly XCHG_ACT, to an activity that has endpoints on the tile.
    fn privileged(&mut self) -> Action {
        let unknown = [1, 2, 3, 5, 6, 255, 256 + 4, (1 << 32) + 4, u64::MAX];
        let opcode = match self.random.weighted(&[70, 10, 20]) {
            0 => privileged::XCHG_ACT,
            1 => privileged::IDLE,
            _ => self.random.pick(&unknown),
        };
        let tile = self.tile();
        let known: Vec<u16> = (0..ENDPOINTS)
            .filter_map(|id| self.endpoint((tile, id)).receive())
            .map(|ep| ep.act)
            .collect();
        let any = self.random.number() as u16;
        let id = match self.random.weighted(&[70, 20, 10]) {
            0 if !known.is_empty() => self.random.pick(&known),
            2 => any,
            _ => self.random.pick(&machines::OTHER_ACTS),
        };
        let word = u64::from(machines::any_count(self.random)) << 16 | u64::from(id);
        let high = self.random.number() << 32;
        let arg0 = word | self.random.pick(&[0, 0, high, 1 << 32, u64::MAX << 32]);
        Action::Privileged { tile, opcode, arg0, arg1: self.any_number() }
    }

    fn waiting(&mut self) -> Action {
        let length = self.list_length(3);
        Action::Waiting { tile: self.tile(), list: self.junk(length) }
    }

    /// The words are now and then those of an endpoint of another tile, which may have
    /// less memory or more.
    fn configure(&mut self) -> Action {
        let tile = self.tile();
        let endpoint = self.any_id();
        let other = self.random.below(self.world.tiles);
        let exists = tile < self.world.tiles;
        let made_for = if exists && self.random.chance(70) { tile } else { other };
        Action::Configure { tile, endpoint, words: self.some_words(made_for) }
    }

    /// A length that is mostly the right one.
    fn list_length(&mut self, right: usize) -> usize {
        if self.random.chance(93) {
            return right;
        }
        self.random.pick(&[0, 1, right - 1, right + 1, right + 3])
    }

    fn junk(&mut self, length: usize) -> Vec<u64> {
        (0..length).map(|_| self.random.number()).collect()
    }

    /// The memory of a tile for `tcu_unpack` and `tcu_pack`, or now and then another
    /// number, mostly one that is not allowed.
    fn memory_of(&mut self, tile: u64) -> u64 {
        let memory = self.world.size_near(self.random, tile);
        let near = [0, 2048, memory - 1, memory + 1, memory + 2048, memory - PAGE];
        let far = [memory + (1 << 63), memory + (1 << 32), MAX_MEMORY + PAGE, 2 * MAX_MEMORY];
        match self.random.weighted(&[94, 3, 3]) {
            0 => memory,
            1 => self.random.pick(&near),
            _ => self.random.pick(&far),
        }
    }

    fn unpack(&mut self) -> Action {
        let tile = self.random.below(self.world.tiles);
        let length = self.list_length(FIELDS);
        Action::Unpack {
            memory: self.memory_of(tile),
            words: self.some_words(tile),
            fields: self.junk(length),
        }
    }

    fn pack(&mut self) -> Action {
        let tile = self.random.below(self.world.tiles);
        let words = self.some_words(tile);
        let mut fields = Endpoint::read(&words).fields().to_vec();
        if self.random.chance(35) {
            self.spoil(&mut fields);
        }
        let length = self.list_length(FIELDS);
        fields.resize(length, 0);
        let words_length = self.list_length(3);
        Action::Pack { memory: self.memory_of(tile), fields, words: self.junk(words_length) }
    }

    /// Makes one number of a list too large, or otherwise different.
    fn spoil(&mut self, fields: &mut [u64]) {
        let place = self.random.below(FIELDS as u64) as usize;
        let width = self.random.pick(&[1, 2, 6, 8, 16, 32]);
        let any = self.any_number();
        let before = fields[place];
        let choices = [1 << width, (1 << width) - 1, before | 1 << width, before ^ 1 << 32, any];
        fields[place] = match place {
            0 => self.random.pick(&[0, 1, 2, 3, 4, 7, 8, 256, (1 << 32) + 1]),
            _ => self.random.pick(&choices),
        };
    }
}
