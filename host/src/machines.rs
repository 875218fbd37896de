//! Random machines: sound ones, unsound ones with a good table, and damaged ones.

use crate::call::{Sizes, State};
use crate::model::{find_slot, Endpoint, Memory, Receive, Send};
use crate::model::{ENDPOINTS, MAX_MEMORY, NO_ENDPOINT, PAGE, UNLIMITED, WORDS_PER_TILE};
use crate::random::Random;
use crate::sharing::{self, Request, QUEUE, SHARING_PER_TILE};

/// A machine with the sizes it is meant to have. Its state may be longer than
/// these sizes ask, so that a call can also be lent too much.
pub struct World {
    pub tiles: u64,
    /// The page count of each tile.
    pub pages: Vec<u8>,
    pub state: State,
    /// How many endpoints in a hundred belong to the activity that runs.
    own: u64,
}

/// Activities that a tile may have besides the one that runs.
pub const OTHER_ACTS: [u16; 5] = [0, 1, 5, 7, 65_535];

/// A place in a table: tile and endpoint.
pub type Place = (u64, u64);

impl World {
    /// An empty machine of random size, its memory full of random bytes.
    fn empty(random: &mut Random) -> World {
        let tiles = [1, 2, 3, 4, 5, 6, 7, 8][random.weighted(&[12, 44, 20, 8, 4, 3, 3, 6])];
        let pages = any_pages(random, tiles);
        let memory = Sizes::of(&pages).mem_len;
        let (mut all_tiles, mut all_memory) = (tiles, memory);
        if random.chance(14) {
            all_tiles = random.pick(&[tiles + 1, 9]);
            let some_more = random.between(1, 2 * PAGE);
            let page_for_each = (all_tiles - tiles) * PAGE;
            // Enough to give one tile 17 pages.
            let a_large_tile = MAX_MEMORY;
            all_memory += random.pick(&[some_more, page_for_each, page_for_each, a_large_tile]);
        }
        let mut mem = vec![0; all_memory as usize];
        random.fill(&mut mem);
        let sharing = (0..all_tiles).flat_map(|_| any_record(random)).collect();
        let words = vec![0; (WORDS_PER_TILE * all_tiles) as usize];
        let own = random.pick(&[93, 93, 60]);
        World { tiles, pages, state: State { words, sharing, mem }, own }
    }

    pub fn sizes(&self) -> Sizes {
        Sizes::of(&self.pages)
    }

    /// The bytes of memory of a tile; for a tile that does not exist, a page.
    pub fn size_of(&self, tile: u64) -> u64 {
        if tile < self.tiles {
            u64::from(self.pages[tile as usize]) * PAGE
        } else {
            PAGE
        }
    }

    /// The size of a tile or, now and then, that of any other: so that what fits the
    /// one and not the other is met.
    pub fn size_near(&self, random: &mut Random, tile: u64) -> u64 {
        let other = self.tile(random);
        self.size_of(if random.chance(85) { tile } else { other })
    }

    /// The endpoint at a place of a table; damaged words read as INVALID.
    pub fn endpoint(&self, state: &State, (tile, id): Place) -> Endpoint {
        let at = word_index((tile, id));
        let words = &state.words[at..at + 3];
        if crate::model::acceptable(words, self.size_of(tile)) {
            Endpoint::read(words)
        } else {
            Endpoint::Invalid
        }
    }

    fn put(&mut self, place: Place, endpoint: Endpoint) {
        self.put_words(place, endpoint.words());
    }

    fn put_words(&mut self, place: Place, words: [u64; 3]) {
        let at = word_index(place);
        self.state.words[at..at + 3].copy_from_slice(&words);
    }

    /// The tile's own activity id, or now and then another one.
    fn act(&self, random: &mut Random, tile: u64) -> u16 {
        if random.chance(self.own) {
            self.current(tile)
        } else {
            random.pick(&OTHER_ACTS)
        }
    }

    /// The id of the activity that a tile runs at first.
    fn current(&self, tile: u64) -> u16 {
        sharing::current(&self.state.sharing[record_index(tile)..])
    }

    fn tile(&self, random: &mut Random) -> u64 {
        random.below(self.tiles)
    }

    /// Whether a tile has a receive endpoint at first.
    pub fn receives(&self, tile: u64) -> bool {
        (0..ENDPOINTS).any(|id| self.endpoint(&self.state, (tile, id)).receive().is_some())
    }

    /// The tiles that get receive endpoints: all of them, or now and then all but one.
    fn receiving(&self, random: &mut Random) -> Vec<u64> {
        let mut tiles: Vec<u64> = (0..self.tiles).collect();
        if self.tiles > 1 && random.chance(12) {
            tiles.remove(self.tile(random) as usize);
        }
        tiles
    }
}

/// Page counts: the same for all tiles, one for each, or a large tile among small ones.
/// Small counts are more frequent, so that a run stays fast.
fn any_pages(random: &mut Random, tiles: u64) -> Vec<u8> {
    let same = page_count(random, &[60, 18, 8, 10, 4]);
    match random.weighted(&[50, 38, 12]) {
        0 => vec![same; tiles as usize],
        1 => (0..tiles).map(|_| page_count(random, &[42, 25, 14, 14, 5])).collect(),
        _ => {
            let mut pages = vec![1; tiles as usize];
            pages[random.below(tiles) as usize] = random.pick(&[2, 3, 16]);
            pages
        }
    }
}

/// One page, two, three, more, or 16, as often as the weights say.
fn page_count(random: &mut Random, weights: &[u64; 5]) -> u8 {
    let more = random.between(4, 15) as u8;
    [1, 2, 3, more, 16][random.weighted(weights)]
}

fn word_index((tile, id): Place) -> usize {
    (tile * WORDS_PER_TILE + id * 3) as usize
}

fn record_index(tile: u64) -> usize {
    (tile * SHARING_PER_TILE) as usize
}

// ---------------------------------------------------------------- Sharing records

pub fn any_count(random: &mut Random) -> u16 {
    let any = random.number() as u16;
    random.pick(&[0, 0, 1, 2, 65_534, 65_535, 65_535, any])
}

fn any_request(random: &mut Random) -> u64 {
    let endpoints = [0, 63, random.below(ENDPOINTS) as u8];
    let acts = [0, 1, 5, 65_535, random.number() as u16];
    let (endpoint, act) = (random.pick(&endpoints), random.pick(&acts));
    Request { endpoint, act }.word()
}

/// An acceptable record: often without a request, often full or nearly so, the
/// oldest anywhere, and anything at all in the places where none waits.
fn any_record(random: &mut Random) -> Vec<u64> {
    let any_id = [0, 1, 5, 65_535, random.number() as u16];
    let any_place = [0, 0, 1, 62, 63, random.below(QUEUE)];
    let mut record = vec![0; SHARING_PER_TILE as usize];
    record[sharing::CUR_ACT] = u64::from(any_count(random)) << 16;
    record[sharing::CUR_ACT] |= u64::from(random.pick(&any_id));
    record[sharing::OLDEST] = random.pick(&any_place);
    record[sharing::WAITING] = match random.weighted(&[46, 10, 14, 8, 10, 12]) {
        0 => 0,
        1 => 1,
        2 => random.between(2, QUEUE - 3),
        3 => QUEUE - 2,
        4 => QUEUE - 1,
        _ => QUEUE,
    };
    let rest = random.below(3);
    for k in 0..QUEUE {
        let place = sharing::place(&record, k);
        record[place] = match rest {
            _ if k < record[sharing::WAITING] => any_request(random),
            0 => 0,
            1 => any_request(random),
            _ => random.number(),
        };
    }
    record
}

/// Makes an acceptable record one that is not, with one fault.
fn break_record(random: &mut Random, record: &mut [u64]) {
    let bit = |random: &mut Random, low: u64, high: u64| 1 << random.between(low, high);
    let fault = random.below(7);
    if fault >= 3 && record[sharing::WAITING] == 0 {
        let first = sharing::place(record, 0);
        record[first] = any_request(random);
        record[sharing::WAITING] = 1;
    }
    let last = record[sharing::WAITING].saturating_sub(1);
    let waiting = [0, last, last, random.below(last + 1)];
    let request = sharing::place(record, random.pick(&waiting));
    match fault {
        0 => record[sharing::CUR_ACT] |= bit(random, 32, 63),
        1 => record[sharing::OLDEST] = random.pick(&[64, 65, 127, 1 << 32, 1 << 63, u64::MAX]),
        2 => {
            for place in &mut record[3..] {
                *place = any_request(random);
            }
            record[sharing::WAITING] = random.pick(&[65, 66, 128, 1 << 32, u64::MAX]);
        }
        3 | 4 => record[request] = record[request] & !3 | random.pick(&[0, 1, 3]),
        5 => record[request] |= bit(random, 8, 17),
        _ => record[request] |= bit(random, 18, 47),
    }
}

// ---------------------------------------------------------------- Single endpoints

/// An empty receive endpoint that fits into the tile's memory, without a reply range.
fn empty_receive(random: &mut Random, world: &World, tile: u64) -> Receive {
    let slots = [0, 1, 2, 3, 4, 5][random.weighted(&[18, 26, 22, 10, 6, 18])];
    let size = world.size_of(tile);
    let most = 63 - size.leading_zeros() as u64 - slots;
    let slot_size = random.pick(&[5, 5, 6, 6, 6, 7, 7, 8, 8, 9, 10, 11, 11]).min(most);
    let room = size - (1 << (slots + slot_size));
    let buffer = match random.below(5) {
        0 => 0,
        1 => room / 8 * 8,
        _ => random.between(0, room / 8) * 8,
    };
    let positions = [0, 0, 1 << slots, random.between(0, 1 << slots)];
    Receive {
        act: world.act(random, tile),
        rpl_eps: NO_ENDPOINT,
        slots: slots as u8,
        slot_size: slot_size as u8,
        wpos: random.pick(&positions) as u8,
        rpos: random.pick(&positions) as u8,
        buffer,
        occupied: 0,
        unread: 0,
    }
}

/// Any acceptable receive endpoint: messages, a reply range that may overlap
/// anything or pass the end of the table.
pub fn any_receive(random: &mut Random, world: &World, tile: u64) -> Receive {
    let mut ep = empty_receive(random, world, tile);
    let all = (u64::MAX >> (64 - ep.count())) as u32;
    let from_wpos = (u64::MAX << ep.wpos) as u32 & all;
    ep.occupied = match random.below(9) {
        0..=3 => 0,
        4 => all,
        5 => all & !(1 << random.below(ep.count())),
        6 => from_wpos,
        _ => random.number() as u32 & all,
    };
    let some = random.number() as u32;
    ep.unread = ep.occupied & random.pick(&[0, all, some]);
    let anything = random.number() as u16;
    let end = ENDPOINTS - ep.count();
    ep.rpl_eps = match random.weighted(&[24, 48, 14, 5, 9]) {
        0 => NO_ENDPOINT,
        1 => random.below(end + 1) as u16,
        2 => end as u16,
        3 => end as u16 + 1,
        _ => random.pick(&[63, 64, 65, 65_534, 65_535 - 31, anything]),
    };
    // REPLY and ACK_MSG must look at such a range before the activity.
    if ep.range_past_end() && random.chance(30) {
        ep.act ^= 1;
    }
    ep
}

/// Any send endpoint, mostly one that aims at an existing receive endpoint.
pub fn any_send(random: &mut Random, world: &World, tile: u64, receivers: &[Place]) -> Send {
    let (tgt_tile, tgt_ep) = aim(random, world, receivers);
    let credits = [0, 1, 2, 2, 3, 31, 61, 62, 63, random.below(64)];
    let odd_sizes = [12, 63, random.below(5), random.below(64)];
    let any_size = [5, 6, 6, 6, 7, 7, 7, 8, 8, 9, 9, 10, 11, 11, 11, random.pick(&odd_sizes)];
    let any_crd_ep = [NO_ENDPOINT, random.below(64) as u16, 63, 64, 65_534];
    Send {
        act: world.act(random, tile),
        cur_crd: random.pick(&credits) as u8,
        max_crd: random.pick(&credits) as u8,
        msg_sz: random.pick(&any_size) as u8,
        crd_ep: random.pick(&any_crd_ep),
        reply: random.chance(12),
        tgt_ep,
        tgt_tile,
        tgt_chip: if random.chance(96) { 0 } else { random.between(1, 63) as u8 },
        label: random.number(),
    }
}

/// The target of a send endpoint: tile and endpoint.
fn aim(random: &mut Random, world: &World, receivers: &[Place]) -> (u8, u16) {
    if !receivers.is_empty() && random.chance(92) {
        let (tile, id) = random.pick(receivers);
        return (tile as u8, id as u16);
    }
    let any_id = [random.below(64), 63, 64, 65_535, random.below(65_536)];
    let any_tile = [world.tile(random), world.tiles, 8, 255];
    (random.pick(&any_tile) as u8, random.pick(&any_id) as u16)
}

/// Any memory endpoint, its region often up to the end of the target's memory or one
/// byte past it.
pub fn any_memory(random: &mut Random, world: &World, tile: u64) -> Memory {
    let tiles = [tile, world.tile(random), world.tile(random), world.tile(random)];
    let no_tile = [world.tiles, 8, 255];
    let target = if random.chance(94) { random.pick(&tiles) } else { random.pick(&no_tile) };
    let top = world.size_near(random, target);
    let odd_addresses = [top - 16, top, u64::MAX, 1 << 63];
    let addresses = [0, 0, 16, random.below(top), random.below(top), random.pick(&odd_addresses)];
    let addr = random.pick(&addresses);
    let rest = top.saturating_sub(addr);
    let near_end = random.pick(&[rest, rest, rest + 1]);
    let sizes = [0, 16, PAGE, PAGE, top, top + 1, near_end, random.below(top), u64::MAX, u64::MAX];
    Memory {
        act: world.act(random, tile),
        rw: [0, 1, 2, 3][random.weighted(&[4, 10, 10, 76])],
        tile: target as u8,
        chip: if random.chance(96) { 0 } else { random.between(1, 63) as u8 },
        addr,
        size: random.pick(&sizes),
    }
}

/// Any acceptable endpoint.
pub fn any_endpoint(
    random: &mut Random,
    world: &World,
    tile: u64,
    receivers: &[Place],
) -> Endpoint {
    match random.weighted(&[10, 35, 35, 20]) {
        0 => Endpoint::Invalid,
        1 => Endpoint::Send(any_send(random, world, tile, receivers)),
        2 => Endpoint::Receive(any_receive(random, world, tile)),
        _ => Endpoint::Memory(any_memory(random, world, tile)),
    }
}

// ---------------------------------------------------------------- Sound machines

/// The endpoints of one tile that nothing uses yet.
struct Free {
    unused: Vec<bool>,
}

impl Free {
    fn take_one(&mut self, random: &mut Random) -> Option<u64> {
        let ids: Vec<u64> = (0..ENDPOINTS).filter(|id| self.unused[*id as usize]).collect();
        if ids.is_empty() {
            return None;
        }
        let id = random.pick(&ids);
        self.unused[id as usize] = false;
        Some(id)
    }

    /// Takes `count` endpoints in a row, where a few tries find them.
    fn take_range(&mut self, random: &mut Random, count: u64) -> Option<u64> {
        for _ in 0..6 {
            let start = random.below(ENDPOINTS - count + 1);
            let range = &mut self.unused[start as usize..(start + count) as usize];
            if range.iter().all(|unused| *unused) {
                range.fill(false);
                return Some(start);
            }
        }
        None
    }
}

/// A receive endpoint of a sound machine and the credits it can still promise.
struct Receiver {
    place: Place,
    slot_size: u8,
    left: u64,
}

/// A machine with sound wiring.
fn sound(random: &mut Random) -> World {
    let mut world = World::empty(random);
    let mut free: Vec<Free> =
        (0..world.tiles).map(|_| Free { unused: vec![true; ENDPOINTS as usize] }).collect();
    let mut receivers = Vec::new();
    for tile in world.receiving(random) {
        let here = &mut free[tile as usize];
        for _ in 0..random.between(1, 4) {
            receivers.extend(place_receiver(random, &mut world, tile, here));
        }
    }
    for tile in 0..world.tiles {
        let here = &mut free[tile as usize];
        for _ in 0..random.below(4) {
            if let Some(id) = here.take_one(random) {
                let ep = any_memory(random, &world, tile);
                world.put((tile, id), Endpoint::Memory(ep));
            }
        }
    }
    for _ in 0..world.tiles * random.between(2, 6) {
        let tile = world.tile(random);
        place_sender(random, &mut world, tile, &mut free[tile as usize], &mut receivers);
    }
    world
}

fn place_receiver(
    random: &mut Random,
    world: &mut World,
    tile: u64,
    free: &mut Free,
) -> Option<Receiver> {
    let mut ep = empty_receive(random, world, tile);
    let id = free.take_one(random)?;
    if random.chance(75) {
        if let Some(start) = free.take_range(random, ep.count()) {
            ep.rpl_eps = start as u16;
        }
    }
    world.put((tile, id), Endpoint::Receive(ep));
    Some(Receiver { place: (tile, id), slot_size: ep.slot_size, left: ep.count() })
}

fn place_sender(
    random: &mut Random,
    world: &mut World,
    tile: u64,
    free: &mut Free,
    receivers: &mut [Receiver],
) {
    let chosen = random.below(receivers.len() as u64) as usize;
    let receiver = &mut receivers[chosen];
    let id = match free.take_one(random) {
        Some(id) => id,
        None => return,
    };
    let credits = random.between(0, receiver.left.min(4)).max(receiver.left.min(1));
    receiver.left -= credits;
    let near_size = [receiver.slot_size, receiver.slot_size, receiver.slot_size + 1, 6];
    let ep = Send {
        act: world.act(random, tile),
        cur_crd: credits as u8,
        max_crd: credits as u8,
        msg_sz: random.pick(&near_size),
        crd_ep: random.pick(&[NO_ENDPOINT, 0, 64]),
        reply: false,
        tgt_ep: receiver.place.1 as u16,
        tgt_tile: receiver.place.0 as u8,
        tgt_chip: 0,
        label: random.number(),
    };
    world.put((tile, id), Endpoint::Send(ep));
}

/// A machine that keeps to all wiring rules but one.
fn nearly_sound(random: &mut Random) -> World {
    let mut world = sound(random);
    let places = (0..world.tiles).flat_map(|tile| (0..ENDPOINTS).map(move |id| (tile, id)));
    let used: Vec<Place> =
        places.filter(|place| world.endpoint(&world.state, *place) != Endpoint::Invalid).collect();
    for _ in 0..20 {
        let place = random.pick(&used);
        let sort = random.below(8);
        if let Some(endpoint) = unsound(random, &world, place, sort) {
            world.put(place, endpoint);
            return world;
        }
    }
    world
}

/// An endpoint changed so that it breaks one wiring rule, where its kind can.
fn unsound(random: &mut Random, world: &World, (tile, id): Place, sort: u64) -> Option<Endpoint> {
    match world.endpoint(&world.state, (tile, id)) {
        Endpoint::Send(ep) => Some(Endpoint::Send(match sort {
            0 => Send { reply: true, ..ep },
            1 => Send { cur_crd: ep.cur_crd ^ 1, ..ep },
            2 => Send { cur_crd: 63, max_crd: 63, ..ep },
            3 => Send { tgt_tile: world.tiles as u8, ..ep },
            4 => Send { tgt_chip: 1, ..ep },
            5 => Send { tgt_ep: random.pick(&[64, 65_535, id as u16]), ..ep },
            _ => one_too_many(world, ep),
        })),
        Endpoint::Receive(ep) => Some(Endpoint::Receive(match sort {
            0 => Receive { occupied: 1, ..ep },
            1 => Receive { rpl_eps: (ENDPOINTS - ep.count() + 1) as u16, ..ep },
            2 => Receive { rpl_eps: 65_534, ..ep },
            3 | 4 => Receive { rpl_eps: range_around(random, id, &ep), ..ep },
            _ => Receive { rpl_eps: another_range(random, world, tile, &ep), ..ep },
        })),
        _ => None,
    }
}

/// A start for a reply range that holds the endpoint `id`, not always first.
fn range_around(random: &mut Random, id: u64, ep: &Receive) -> u16 {
    let before = random.below(ep.count());
    id.saturating_sub(before).min(ENDPOINTS - ep.count()) as u16
}

/// The sender with so many credits that its receiver is promised one too many.
fn one_too_many(world: &World, ep: Send) -> Send {
    let target = |other: &Send| (other.tgt_tile, other.tgt_ep) == (ep.tgt_tile, ep.tgt_ep);
    let places = (0..world.tiles).flat_map(|tile| (0..ENDPOINTS).map(move |id| (tile, id)));
    let senders = places.filter_map(|place| world.endpoint(&world.state, place).send());
    let promised: u8 = senders.filter(target).map(|other| other.max_crd).sum();
    let receiver = world.endpoint(&world.state, (ep.tgt_tile.into(), ep.tgt_ep.into()));
    let slots = receiver.receive().map_or(0, |receiver| receiver.count()) as u8;
    let credits = ep.max_crd + slots - promised + 1;
    Send { cur_crd: credits, max_crd: credits, ..ep }
}

/// A start for a reply range that overlaps another one of the tile.
fn another_range(random: &mut Random, world: &World, tile: u64, ep: &Receive) -> u16 {
    let all = (0..ENDPOINTS).filter_map(|id| world.endpoint(&world.state, (tile, id)).receive());
    let starts: Vec<u16> = all
        .filter(|other| other.has_reply_range() && other.rpl_eps != ep.rpl_eps)
        .map(|other| other.rpl_eps)
        .collect();
    if starts.is_empty() {
        return ep.rpl_eps;
    }
    let most = (ENDPOINTS - ep.count()) as u16;
    random.pick(&starts).min(most)
}

// ---------------------------------------------------------------- Wild machines

/// A machine with a good table and no further care.
fn wild(random: &mut Random) -> World {
    let mut world = World::empty(random);
    let crowd = random.pick(&[6, 12, 12, 24, 50]);
    let span = random.pick(&[12, 24, 64, 64]);
    let mut receivers = Vec::new();
    for tile in world.receiving(random) {
        for _ in 0..random.between(1, crowd / 3 + 1) {
            let id = ENDPOINTS - 1 - random.below(span);
            let ep = any_receive(random, &world, tile);
            world.put((tile, id), Endpoint::Receive(ep));
            receivers.push((tile, id));
        }
    }
    for tile in 0..world.tiles {
        for _ in 0..random.between(1, crowd) {
            let id = ENDPOINTS - 1 - random.below(span);
            let endpoint = match random.below(3) {
                0 => any_endpoint(random, &world, tile, &receivers),
                1 => Endpoint::Memory(any_memory(random, &world, tile)),
                _ => Endpoint::Send(any_send(random, &world, tile, &receivers)),
            };
            world.put((tile, id), endpoint);
        }
    }
    for place in &receivers {
        if random.chance(12) {
            tie_knot(random, &mut world, *place);
        } else {
            place_replies(random, &mut world, *place, &receivers);
        }
    }
    world
}

/// Reply endpoints for a part of a receive endpoint's slots, as deliveries
/// leave them, some of them with a fault.
fn place_replies(random: &mut Random, world: &mut World, (tile, id): Place, receivers: &[Place]) {
    let ep = match world.endpoint(&world.state, (tile, id)) {
        Endpoint::Receive(ep) if ep.has_reply_range() && !ep.range_past_end() => ep,
        _ => return,
    };
    for idx in 0..ep.count() {
        let wanted = if ep.occupied >> idx & 1 == 1 { 70 } else { 12 };
        if random.chance(wanted) {
            let mut reply = any_send(random, world, tile, receivers);
            reply.reply = random.chance(94);
            reply.act = ep.act;
            if random.chance(80) {
                reply.crd_ep = credit_place(random, world, reply.tgt_tile);
                let credited = (u64::from(reply.tgt_tile), u64::from(reply.crd_ep));
                if reply.crd_ep != NO_ENDPOINT && random.chance(60) {
                    nearly_unlimited(random, world, credited);
                }
            }
            world.put((tile, u64::from(ep.rpl_eps) + idx), Endpoint::Send(reply));
        }
    }
}

/// Ties a receive endpoint to itself: the reply endpoint of its next message
/// falls on a sender of that message or on the receive endpoint itself, or a
/// reply endpoint that aims here names itself for the credit.
fn tie_knot(random: &mut Random, world: &mut World, (tile, id): Place) {
    let mut ep = any_receive(random, world, tile);
    ep.act = world.current(tile);
    ep.rpl_eps = random.below(ENDPOINTS - ep.count() + 1) as u16;
    let free = find_slot(ep.occupied, ep.wpos, ep.slots, false).unwrap_or(0);
    let next = u64::from(ep.rpl_eps) + free;
    let mut sender = any_send(random, world, tile, &[(tile, id)]);
    sender.act = ep.act;
    sender.reply = false;
    match random.below(4) {
        0 if id >= free && id - free <= ENDPOINTS - ep.count() => {
            ep.rpl_eps = (id - free) as u16;
            world.put((tile, random.below(ENDPOINTS)), Endpoint::Send(sender));
        }
        1 => {
            // Where the slot stays free, the reply comes into the slot it frees.
            if random.chance(60) {
                ep.occupied |= 1 << free;
            }
            let own = Send { reply: true, crd_ep: next as u16, ..sender };
            world.put((tile, next), Endpoint::Send(own));
        }
        _ => {
            sender.cur_crd = random.pick(&[1, 2, UNLIMITED]);
            world.put((tile, next), Endpoint::Send(sender));
        }
    }
    if next != id || u64::from(ep.rpl_eps) + free == id {
        world.put((tile, id), Endpoint::Receive(ep));
    }
}

/// A send endpoint of the tile that a reply goes to, where it has one.
fn credit_place(random: &mut Random, world: &World, tile: u8) -> u16 {
    let tile = u64::from(tile);
    if tile >= world.tiles {
        return NO_ENDPOINT;
    }
    let is_send = |id: &u64| world.endpoint(&world.state, (tile, *id)).send().is_some();
    let senders: Vec<u64> = (0..ENDPOINTS).filter(is_send).collect();
    if senders.is_empty() {
        return NO_ENDPOINT;
    }
    random.pick(&senders) as u16
}

/// Gives a send endpoint as many credits as there are, or nearly so, with a `max_crd`
/// below them, at them or above: a reply adds to some of these and not to others.
fn nearly_unlimited(random: &mut Random, world: &mut World, place: Place) {
    if let Endpoint::Send(ep) = world.endpoint(&world.state, place) {
        let cur_crd = random.pick(&[60, 61, 62, UNLIMITED]);
        let fewer = random.pick(&[0, cur_crd / 2, cur_crd - 1]);
        let more = random.pick(&[cur_crd + 1, UNLIMITED]).min(UNLIMITED);
        let max_crd = random.pick(&[fewer, cur_crd, more]);
        world.put(place, Endpoint::Send(Send { cur_crd, max_crd, ..ep }));
    }
}

// ---------------------------------------------------------------- Damage

/// Words that are not acceptable on a tile, with one fault.
pub fn broken_words(random: &mut Random, world: &World, tile: u64) -> [u64; 3] {
    let bit = |random: &mut Random, low: u64, high: u64| 1 << random.between(low, high);
    match random.below(12) {
        0 => {
            let mut words = [0; 3];
            words[random.below(3) as usize] = bit(random, 3, 63);
            words
        }
        1 => [random.between(4, 7), 0, 0],
        2 => {
            let mut words = Endpoint::Send(any_send(random, world, tile, &[])).words();
            words[0] = words[0] & !7 | random.between(4, 7);
            words
        }
        3 => {
            let mut words = Endpoint::Send(any_send(random, world, tile, &[])).words();
            let (word, low) = random.pick(&[(0, 54), (1, 30)]);
            words[word] |= bit(random, low, 63);
            words
        }
        4 => {
            let mut words = Endpoint::Memory(any_memory(random, world, tile)).words();
            let (low, high) = random.pick(&[(21, 22), (37, 63)]);
            words[0] |= bit(random, low, high);
            words
        }
        5 => {
            let mut words = Endpoint::Receive(any_receive(random, world, tile)).words();
            words[0] |= bit(random, 59, 63);
            words
        }
        6 | 7 => {
            let ep = only_for_larger(random, world, tile);
            Endpoint::Receive(ep.unwrap_or_else(|| broken_receive(random, world, tile))).words()
        }
        _ => Endpoint::Receive(broken_receive(random, world, tile)).words(),
    }
}

/// A receive endpoint that breaks one of its rules. Where the memory is too
/// small for many or large slots, the endpoint breaks that rule as well.
fn broken_receive(random: &mut Random, world: &World, tile: u64) -> Receive {
    let ep = any_receive(random, world, tile);
    let count = ep.count();
    let last = random.between(count + 1, 63) as u8;
    let high = 1 << random.between(count.min(31), 31);
    let small = Receive { slot_size: 5, buffer: 0, ..ep };
    match random.below(11) {
        0 => Receive { slots: random.between(6, 7) as u8, ..small },
        1 => Receive { slots: random.between(6, 63) as u8, ..ep },
        2 => Receive { slot_size: random.below(5) as u8, ..ep },
        3 => Receive {
            slot_size: 12,
            slots: 0,
            wpos: 0,
            rpos: 0,
            occupied: 0,
            unread: 0,
            buffer: 0,
            ..ep
        },
        4 => Receive { slot_size: random.between(13, 63) as u8, ..ep },
        5 => Receive { wpos: random.pick(&[last, count as u8 + 1]), ..ep },
        6 => Receive { rpos: random.pick(&[last, count as u8 + 1]), ..ep },
        7 if count < 32 => Receive { occupied: ep.occupied | high, ..ep },
        8 => Receive { occupied: 0, unread: 1 << random.below(count), ..ep },
        9 => Receive { buffer: ep.buffer ^ random.pick(&[1, 2, 4]), ..small },
        _ => Receive { buffer: too_far(random, world, tile, &ep), ..ep },
    }
}

/// A buffer address, a multiple of 8, from which the slots pass the end of the tile's
/// memory.
fn too_far(random: &mut Random, world: &World, tile: u64, ep: &Receive) -> u64 {
    let bytes = ep.count() * ep.slot_bytes();
    let size = world.size_of(tile);
    let first = size - bytes + 8;
    let wrapping = (u64::MAX - bytes + 1) / 8 * 8;
    random.pick(&[first, first, size, 1 << 63, u64::MAX - 7, wrapping])
}

/// A receive endpoint that a larger tile takes and this one does not, where there is a
/// larger one.
fn only_for_larger(random: &mut Random, world: &World, tile: u64) -> Option<Receive> {
    let larger: Vec<u64> =
        (0..world.tiles).filter(|other| world.size_of(*other) > world.size_of(tile)).collect();
    if larger.is_empty() {
        return None;
    }
    let other = random.pick(&larger);
    let ep = any_receive(random, world, other);
    let last = world.size_of(other) - ep.count() * ep.slot_bytes();
    Some(Receive { buffer: last, ..ep })
}

/// Damages an otherwise good table in one place, often the first or last.
fn damage(random: &mut Random, world: &mut World) {
    let last = (world.tiles - 1, ENDPOINTS - 1);
    let anywhere = (world.tile(random), random.below(ENDPOINTS));
    let ends_of_tile = (world.tile(random), random.pick(&[0, ENDPOINTS - 1]));
    let place = random.pick(&[last, anywhere, anywhere, (0, 0), ends_of_tile]);
    if random.chance(70) {
        let words = broken_words(random, world, place.0);
        world.put_words(place, words);
    } else {
        let at = word_index(place) + random.below(3) as usize;
        world.state.words[at] ^= 1 << random.below(64);
    }
}

/// Damages one sharing record, often that of the last tile.
fn damage_record(random: &mut Random, world: &mut World) {
    let last = world.tiles - 1;
    let tiles = [0, last, last, world.tile(random)];
    let start = record_index(random.pick(&tiles));
    let record = &mut world.state.sharing[start..start + SHARING_PER_TILE as usize];
    break_record(random, record);
}

/// A machine and how much is worth doing with it.
pub struct Plan {
    pub world: World,
    pub calls: u64,
    /// Whether the first call is the wiring check.
    pub wiring_first: bool,
}

pub fn any_plan(random: &mut Random) -> Plan {
    match random.weighted(&[36, 10, 42, 12]) {
        0 => Plan {
            world: sound(random),
            calls: random.between(20, 70),
            wiring_first: random.chance(20),
        },
        1 => Plan { world: nearly_sound(random), calls: random.between(2, 8), wiring_first: true },
        2 => Plan { world: wild(random), calls: random.between(15, 45), wiring_first: false },
        _ => {
            let mut world = if random.chance(50) { sound(random) } else { wild(random) };
            if random.chance(60) {
                damage(random, &mut world);
            } else {
                damage_record(random, &mut world);
            }
            Plan { world, calls: random.between(2, 7), wiring_first: false }
        }
    }
}
