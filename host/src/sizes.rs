//! The sizes that a call states: mostly the machine's own, now and then others. Most
//! of these are refused; some are allowed, and then the call works on the first part
//! of the state, or on other parts of the memory.

use crate::call::{bytes_of, Sizes};
use crate::machines::World;
use crate::model::{PAGE, WORDS_PER_TILE};
use crate::random::Random;
use crate::sharing::SHARING_PER_TILE;

/// The machine's own sizes, or others where there is enough to lend.
pub fn any_sizes(random: &mut Random, world: &World) -> Sizes {
    let right = world.sizes();
    let others = match random.weighted(&[188, 2, 2, 3, 3, 2]) {
        0 => return right,
        1 => Sizes { tiles: odd_tiles(random, world), ..world.sizes() },
        2 => odd_length(random, world),
        3 => odd_count(random, world),
        4 => odd_list(random, world),
        _ => resized(random, world),
    };
    if can_be_lent(world, &others) {
        others
    } else {
        right
    }
}

fn can_be_lent(world: &World, sizes: &Sizes) -> bool {
    let state = &world.state;
    sizes.words_len <= state.words.len() as u64
        && sizes.sharing_len <= state.sharing.len() as u64
        && sizes.mem_len <= state.mem.len() as u64
}

/// Among them numbers whose products with 192 wrap to the right length.
fn odd_tiles(random: &mut Random, world: &World) -> u64 {
    let tiles = world.tiles;
    let others = [0, 9, tiles - 1, tiles + 1, tiles + (1 << 58), tiles + (1 << 32), u64::MAX];
    random.pick(&others)
}

/// One slice shorter, or longer where there is more to lend.
fn odd_length(random: &mut Random, world: &World) -> Sizes {
    let (right, state) = (world.sizes(), &world.state);
    let (words, sharing) = (state.words.len() as u64, state.sharing.len() as u64);
    let mem = state.mem.len() as u64;
    match random.below(5) {
        0 => Sizes {
            words_len: other_length(random, right.words_len, words, WORDS_PER_TILE),
            ..right
        },
        1 => Sizes {
            sharing_len: other_length(random, right.sharing_len, sharing, SHARING_PER_TILE),
            ..right
        },
        2 | 3 => Sizes { mem_len: other_length(random, right.mem_len, mem, PAGE), ..right },
        _ => {
            let one_size_for_all = world.size_of(random.below(world.tiles)) * world.tiles;
            Sizes { mem_len: one_size_for_all, ..right }
        }
    }
}

fn other_length(random: &mut Random, right: u64, most: u64, step: u64) -> u64 {
    let longer = random.pick(&[right + 1, right + 1, right + step, most]);
    if most > right && random.chance(60) {
        return longer.min(most);
    }
    let part = random.below(right);
    random.pick(&[0, right - 1, right - step, part])
}

/// One page count changed, mostly to one that is not allowed. The lent memory matches
/// the counts where it can, the other tiles having a page each if need be.
fn odd_count(random: &mut Random, world: &World) -> Sizes {
    let place = odd_place(random, world);
    let now = world.pages[place];
    let counts = [0, 0, 17, 17, 17, 18, 32, 128, 255, now - 1, now + 1];
    let odd = random.pick(&counts);
    let mut pages = world.pages.clone();
    pages[place] = odd;
    let mut small = vec![1; pages.len()];
    small[place] = odd;
    let matching = [Sizes::of(&pages), Sizes::of(&small)];
    let found = matching.into_iter().find(|sizes| can_be_lent(world, sizes));
    match found {
        Some(sizes) if random.chance(80) => sizes,
        _ => Sizes { pages, ..world.sizes() },
    }
}

/// The tile whose page count is changed: mostly one without a receive endpoint, where
/// there is one, since no receive endpoint is acceptable on a tile with no memory.
fn odd_place(random: &mut Random, world: &World) -> usize {
    let silent: Vec<u64> = (0..world.tiles).filter(|tile| !world.receives(*tile)).collect();
    if !silent.is_empty() && random.chance(75) {
        return random.pick(&silent) as usize;
    }
    let any = random.below(world.tiles);
    random.pick(&[0, world.tiles - 1, any]) as usize
}

/// More or fewer page counts than tiles, and memory for the list or for the tiles. The
/// number of tiles may be above 8.
fn odd_list(random: &mut Random, world: &World) -> Sizes {
    let most = world.state.words.len() as u64 / WORDS_PER_TILE;
    let tiles = random.pick(&[world.tiles, world.tiles, most]);
    let length = random.pick(&[0, tiles - 1, tiles - 1, tiles + 1, tiles + 1, tiles + 2, 16]);
    let last = world.pages[world.pages.len() - 1];
    let mut pages = world.pages.clone();
    pages.resize(length as usize, random.pick(&[1, last]));
    let mem_for_tiles = world.sizes().mem_len;
    Sizes {
        tiles,
        words_len: WORDS_PER_TILE * tiles,
        sharing_len: SHARING_PER_TILE * tiles,
        mem_len: random.pick(&[mem_for_tiles, bytes_of(&pages)]),
        pages,
    }
}

/// Other sizes that agree with each other: the same page counts in another order, or
/// more or fewer tiles, or one page for each.
fn resized(random: &mut Random, world: &World) -> Sizes {
    let tiles = random.pick(&[0, 1, world.tiles, world.tiles, world.tiles + 1, 9, 9]);
    let mut pages = world.pages.clone();
    match random.below(4) {
        0 => pages.reverse(),
        1 => pages.rotate_left(1),
        2 => pages.fill(1),
        _ => {}
    }
    // The tables of further tiles are empty, so that no memory at all would do for them.
    pages.resize(tiles as usize, random.pick(&[1, 1, 0]));
    Sizes::of(&pages)
}
