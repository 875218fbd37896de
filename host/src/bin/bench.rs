//! Measures the library against the model: the same commands on the same tables,
//! in one run, in turns. Only for x86-64 machines, which the library is code for.
//!
//! Build with TCU_LIB set to the folder that holds libtcu.a.

#[cfg(all(tcu_linked, target_arch = "x86_64"))]
mod library {
    use tcu_host::call::State;
    use tcu_host::model::Command;

    #[link(name = "tcu", kind = "static")]
    extern "C" {
        fn tcu_command(
            tiles: u64,
            pages: *const u8,
            pages_len: usize,
            words: *mut u64,
            words_len: usize,
            sharing: *mut u64,
            sharing_len: usize,
            mem: *mut u8,
            mem_len: usize,
            tile: u64,
            opcode: u64,
            endpoint: u64,
            arg0: u64,
            data_addr: u64,
            data_size: u64,
            arg1: *mut u64,
        ) -> u32;
    }

    /// One command by the library: the answer, and ARG_1 afterwards.
    #[inline(never)]
    pub fn command(pages: &[u8], lent: &mut State, c: &Command) -> (u32, u64) {
        let mut arg1 = c.arg1;
        // SAFETY: each pointer comes from a slice and goes with that slice's
        // length; the slices are apart and are lent for this call only.
        let answer = unsafe {
            tcu_command(
                pages.len() as u64,
                pages.as_ptr(),
                pages.len(),
                lent.words.as_mut_ptr(),
                lent.words.len(),
                lent.sharing.as_mut_ptr(),
                lent.sharing.len(),
                lent.mem.as_mut_ptr(),
                lent.mem.len(),
                c.tile,
                c.opcode,
                c.endpoint,
                c.arg0,
                c.data_addr,
                c.data_size,
                &mut arg1,
            )
        };
        (answer, arg1)
    }
}

#[cfg(all(tcu_linked, target_arch = "x86_64"))]
mod measure {
    use super::library;
    use std::time::{Duration, Instant};
    use tcu_host::call::State;
    use tcu_host::model::{opcode, Command, Endpoint, Machine, Memory, Receive, Send};
    use tcu_host::model::{ENDPOINTS, NO_ENDPOINT, PAGE, WORDS_PER_TILE};
    use tcu_host::sharing::{self, Request, CUR_ACT, SHARING_PER_TILE};
    use tcu_host::wrong::Wrong;

    /// Each tile has two pages.
    const PAGES: u8 = 2;
    const MEMORY: u64 = PAGES as u64 * PAGE;
    const ACT: u16 = 5;
    const PAYLOAD: u64 = 64;
    /// The requests that wait at each tile.
    const WAITING: u8 = 8;
    const ROUNDS: usize = 101;
    /// About how long one side runs before the other has its turn.
    const TURN: Duration = Duration::from_millis(2);

    type Run = fn(&[u8], &mut State, &Command) -> (u32, u64);

    #[inline(never)]
    fn by_model(pages: &[u8], lent: &mut State, c: &Command) -> (u32, u64) {
        let mut machine = Machine {
            tiles: pages.len() as u64,
            pages,
            words: &mut lent.words,
            sharing: &mut lent.sharing,
            mem: &mut lent.mem,
            wrong: Wrong::Nothing,
        };
        let (answer, arg1) = machine.command(c);
        (answer as u32, arg1)
    }

    /// One side of the comparison, with a machine of its own.
    struct Side {
        run: Run,
        tiles: u64,
        pages: Vec<u8>,
        lent: State,
        times: Vec<Duration>,
    }

    impl Side {
        fn new(run: Run, tiles: u64) -> Side {
            let pages = vec![PAGES; tiles as usize];
            Side { run, tiles, pages, lent: wired(tiles), times: Vec::new() }
        }

        /// One command, which must be accepted; ARG_1 afterwards.
        fn command(&mut self, tile: u64, opcode: u64, endpoint: u64, arg0: u64, size: u64) -> u64 {
            let c =
                Command { tile, opcode, endpoint, arg0, data_addr: 0, data_size: size, arg1: 0 };
            let (answer, arg1) = (self.run)(&self.pages, &mut self.lent, &c);
            assert_eq!(answer, 0, "opcode {} was refused", opcode);
            arg1
        }

        fn messages(&mut self) {
            let far = self.tiles - 1;
            self.command(0, opcode::SEND, 4, 6, PAYLOAD);
            let request = self.command(far, opcode::FETCH, 7, 0, 0);
            self.command(far, opcode::REPLY, 7, request, PAYLOAD);
            let reply = self.command(0, opcode::FETCH, 6, 0, 0);
            self.command(0, opcode::ACK_MSG, 6, reply, 0);
        }

        fn read(&mut self) {
            self.command(0, opcode::READ, 9, 0, 4096);
        }

        fn idle(&mut self) {
            self.command(0, opcode::IDLE, 0, 0, 0);
        }

        /// The bytes that READ moves, and nothing else.
        #[inline(never)]
        fn memmove(&mut self) {
            let remote = ((self.tiles - 1) * MEMORY + 4096) as usize;
            self.lent.mem.copy_within(remote..remote + 4096, 0);
        }

        fn turn(&mut self, work: fn(&mut Side), count: u32) -> Duration {
            let start = Instant::now();
            for _ in 0..count {
                work(self);
            }
            start.elapsed()
        }

        fn median_ns(&mut self, count: u32) -> f64 {
            self.times.sort();
            self.times[self.times.len() / 2].as_secs_f64() * 1e9 / f64::from(count)
        }
    }

    /// A machine whose other endpoints are of all four kinds in turn, so that
    /// the test of the table meets each of them.
    fn wired(tiles: u64) -> State {
        let mut state = State {
            words: vec![0; (WORDS_PER_TILE * tiles) as usize],
            sharing: records(tiles),
            mem: (0..tiles * MEMORY).map(|place| (place * 7 % 251) as u8).collect(),
        };
        let far = (tiles - 1) as u8;
        for at in 0..tiles * ENDPOINTS {
            let kinds = [
                Endpoint::Invalid,
                Endpoint::Send(sender(0, 6)),
                Endpoint::Receive(receiver(6, 2, NO_ENDPOINT, 4096)),
                Endpoint::Memory(region(0)),
            ];
            put(&mut state, at, kinds[(at % 4) as usize]);
        }
        put(&mut state, 4, Endpoint::Send(sender(far, 7)));
        put(&mut state, 6, Endpoint::Receive(receiver(8, 1, NO_ENDPOINT, 2048)));
        put(&mut state, 9, Endpoint::Memory(region(far)));
        let far_table = u64::from(far) * ENDPOINTS;
        put(&mut state, far_table + 7, Endpoint::Receive(receiver(8, 1, 20, 1024)));
        state
    }

    /// Each tile runs the same activity, and requests for others wait there.
    fn records(tiles: u64) -> Vec<u64> {
        let mut records = vec![0; (SHARING_PER_TILE * tiles) as usize];
        for record in records.chunks_exact_mut(SHARING_PER_TILE as usize) {
            record[CUR_ACT] = ACT.into();
            for endpoint in 0..WAITING {
                sharing::enqueue(record, Request { endpoint, act: ACT + 1 });
            }
        }
        records
    }

    fn put(state: &mut State, at: u64, endpoint: Endpoint) {
        let start = at as usize * 3;
        state.words[start..start + 3].copy_from_slice(&endpoint.words());
    }

    fn sender(tgt_tile: u8, tgt_ep: u16) -> Send {
        Send {
            act: ACT,
            cur_crd: 2,
            max_crd: 2,
            msg_sz: 8,
            crd_ep: 0,
            reply: false,
            tgt_ep,
            tgt_tile,
            tgt_chip: 0,
            label: 1,
        }
    }

    fn receiver(slot_size: u8, slots: u8, rpl_eps: u16, buffer: u64) -> Receive {
        Receive {
            act: ACT,
            rpl_eps,
            slots,
            slot_size,
            wpos: 0,
            rpos: 0,
            buffer,
            occupied: 0,
            unread: 0,
        }
    }

    fn region(tile: u8) -> Memory {
        Memory { act: ACT, rw: 3, tile, chip: 0, addr: 4096, size: 4096 }
    }

    /// How many steps fill about one turn.
    fn steps_per_turn(side: &mut Side, work: fn(&mut Side)) -> u32 {
        let trial = 200;
        side.turn(work, trial);
        let one = side.turn(work, trial).as_nanos().max(1) / u128::from(trial);
        (TURN.as_nanos() / one.max(1)).clamp(10, 1_000_000) as u32
    }

    fn compare(name: &str, tiles: u64, work: fn(&mut Side)) {
        let mut library = Side::new(library::command, tiles);
        let mut model = Side::new(by_model, tiles);
        let count = steps_per_turn(&mut library, work).min(steps_per_turn(&mut model, work));
        library.lent = wired(tiles);
        model.lent = wired(tiles);
        for round in 0..ROUNDS {
            let order = if round % 2 == 0 { [0, 1] } else { [1, 0] };
            for side in order {
                let side = if side == 0 { &mut library } else { &mut model };
                let time = side.turn(work, count);
                side.times.push(time);
            }
        }
        assert!(library.lent == model.lent, "the two end states differ");
        let (ours, theirs) = (library.median_ns(count), model.median_ns(count));
        println!(
            "{:<42}{:>10.0} ns{:>10.0} ns{:>8.2}",
            format!("{}, {} tiles", name, tiles),
            ours,
            theirs,
            ours / theirs
        );
    }

    fn bare_memmove(tiles: u64) {
        let mut side = Side::new(by_model, tiles);
        let count = steps_per_turn(&mut side, Side::memmove);
        for _ in 0..ROUNDS {
            let time = side.turn(Side::memmove, count);
            side.times.push(time);
        }
        let time = side.median_ns(count);
        println!("{:<42}{:>10.0} ns", format!("  bare memmove, {} tiles", tiles), time);
    }

    pub fn all() {
        println!("medians of {} turns; buffers are not cleared in between", ROUNDS);
        println!("{:<42}{:>13}{:>13}{:>8}", "step", "library", "model", "ratio");
        for tiles in [2, 8] {
            compare("SEND FETCH REPLY FETCH ACK_MSG", tiles, Side::messages);
            compare("READ of 4096 bytes", tiles, Side::read);
            bare_memmove(tiles);
            compare("IDLE", tiles, Side::idle);
        }
    }
}

/// Whether this is an x86-64 machine, and not an emulator of one: the kernel of
/// any other machine describes its processor without a vendor_id.
#[cfg(all(tcu_linked, target_arch = "x86_64"))]
fn on_x86_64() -> bool {
    let processor = std::fs::read_to_string("/proc/cpuinfo");
    processor.map_or(true, |text| text.contains("vendor_id"))
}

#[cfg(all(tcu_linked, target_arch = "x86_64"))]
fn main() {
    if on_x86_64() {
        measure::all();
    } else {
        println!("bench: cannot measure: this is no x86-64 machine");
    }
}

#[cfg(not(target_arch = "x86_64"))]
fn main() {
    println!("bench: cannot measure: this is no x86-64 machine, and the library is x86-64 code");
}

#[cfg(all(not(tcu_linked), target_arch = "x86_64"))]
fn main() {
    println!(
        "bench: built without the library. Build it with TCU_LIB set to the folder of libtcu.a:"
    );
    println!("  TCU_LIB=$PWD/target/staticlib cargo run --release --offline \\");
    println!("    --manifest-path host/Cargo.toml --bin bench");
}
