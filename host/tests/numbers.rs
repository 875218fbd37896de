//! Document 01's "Numbers on both sides", held against the model, and the words of
//! requests T-01, T-03 and T-04 in document 02.

use tcu_host::call::{Sizes, State};
use tcu_host::model::{
    self, find_slot, opcode, privileged, Command, Endpoint, Memory, Receive, Send,
};
use tcu_host::model::{Machine, NO_ENDPOINT, PAGE, WORDS_PER_TILE};
use tcu_host::sharing::{self, SHARING_PER_TILE};
use tcu_host::wrong::Wrong;

const ACT: u16 = 5;

/// A machine under test: activity 5 everywhere.
struct Bench {
    sizes: Sizes,
    state: State,
}

impl Bench {
    /// A machine whose tiles have these page counts.
    fn new(pages: &[u8]) -> Bench {
        let sizes = Sizes::of(pages);
        let state = State {
            words: vec![0; sizes.words_len as usize],
            sharing: vec![0; sizes.sharing_len as usize],
            mem: vec![0; sizes.mem_len as usize],
        };
        let mut bench = Bench { sizes, state };
        for tile in 0..pages.len() as u64 {
            bench.exchange(tile, ACT.into());
        }
        bench
    }

    fn configure(&mut self, tile: u64, id: u64, endpoint: Endpoint) {
        let mut machine = self.state.machine(&self.sizes, Wrong::Nothing);
        assert_eq!(machine.configure(tile, id, endpoint.words()), model::Answer::None);
    }

    fn endpoint(&mut self, tile: u64, id: u64) -> Endpoint {
        self.state.machine(&self.sizes, Wrong::Nothing).endpoint(tile, id)
    }

    /// XCHG_ACT: the old word.
    fn exchange(&mut self, tile: u64, word: u64) -> u64 {
        let mut machine = self.state.machine(&self.sizes, Wrong::Nothing);
        let (answer, old) = machine.privileged(tile, privileged::XCHG_ACT, word, 1);
        assert_eq!(answer, model::Answer::None);
        old
    }

    fn respond(&mut self, tile: u64) {
        let mut machine = self.state.machine(&self.sizes, Wrong::Nothing);
        assert_eq!(machine.respond(tile), model::Answer::None);
    }

    /// How many requests wait, and the endpoint and activity of the oldest.
    fn waiting(&mut self, tile: u64) -> [u64; 3] {
        let mut list = [9; 3];
        let machine = self.state.machine(&self.sizes, Wrong::Nothing);
        assert_eq!(machine.waiting(tile, &mut list), model::Answer::None);
        list
    }

    /// Word `place` of a tile's sharing record.
    fn word(&mut self, tile: u64, place: u64) -> &mut u64 {
        &mut self.state.sharing[(tile * SHARING_PER_TILE + place) as usize]
    }

    fn command(&mut self, command: Command) -> (u32, u64) {
        let mut machine = self.state.machine(&self.sizes, Wrong::Nothing);
        let (answer, arg1) = machine.command(&command);
        (answer as u32, arg1)
    }
}

fn send(tgt_tile: u8, tgt_ep: u16, credits: u8, msg_sz: u8) -> Send {
    Send {
        act: ACT,
        cur_crd: credits,
        max_crd: credits,
        msg_sz,
        crd_ep: 0,
        reply: false,
        tgt_ep,
        tgt_tile,
        tgt_chip: 0,
        label: 0,
    }
}

fn receive(slots: u8, slot_size: u8, buffer: u64, rpl_eps: u16) -> Receive {
    Receive {
        act: ACT,
        rpl_eps,
        slots,
        slot_size,
        wpos: 0,
        rpos: 0,
        buffer,
        occupied: 0,
        unread: 0,
    }
}

fn command(tile: u64, opcode: u64, endpoint: u64, arg0: u64, size: u64, arg1: u64) -> Command {
    Command { tile, opcode, endpoint, arg0, data_addr: 0, data_size: size, arg1 }
}

#[test]
fn p1_send_words() {
    let fields = [1, 5, 2, 2, 8, 65_535, 0, 7, 3, 0, 0];
    let mut words = [1; 3];
    assert_eq!(model::pack(4096, &fields, &mut words), model::Answer::None);
    assert_eq!(words, [0x001F_FFE4_0410_0029, 0x30007, 0]);
    let mut back = [9; 11];
    assert_eq!(model::unpack(4096, words, &mut back), model::Answer::None);
    assert_eq!(back, fields);
}

#[test]
fn p2_to_p6_free_slots() {
    let free = |occupied, wpos| find_slot(occupied, wpos, 2, false);
    assert_eq!(free(0b1011, 0), Some(2));
    assert_eq!(free(0b0101, 3), Some(3));
    assert_eq!(free(0b1000, 3), Some(0));
    assert_eq!(free(0, 4), Some(0));
    assert_eq!(free(0b1111, 1), None);
}

#[test]
fn p7_fetch() {
    let mut bench = Bench::new(&[1]);
    let full =
        Receive { occupied: 0b0101, unread: 0b0101, rpos: 1, ..receive(2, 8, 0, NO_ENDPOINT) };
    bench.configure(0, 3, Endpoint::Receive(full));
    assert_eq!(bench.command(command(0, opcode::FETCH, 3, 0, 0, 0)), (0, 512));
    let after = Receive { unread: 0b0001, rpos: 3, ..full };
    assert_eq!(bench.endpoint(0, 3), Endpoint::Receive(after));
}

/// A machine of one tile with two pages whose endpoint 4 sends to endpoint 7.
fn sending(msg_sz: u8) -> Bench {
    let mut bench = Bench::new(&[2]);
    bench.configure(0, 4, Endpoint::Send(send(0, 7, 2, msg_sz)));
    bench.configure(0, 7, Endpoint::Receive(receive(1, 11, 0, NO_ENDPOINT)));
    bench
}

#[test]
fn p8_message_size() {
    let of_size = |size| sending(8).command(command(0, opcode::SEND, 4, 65_535, size, 0)).0;
    assert_eq!(of_size(224), 0);
    assert_eq!(of_size(225), 9);
}

#[test]
fn p9_page_rule() {
    let at_page_end = |data_size| {
        let at_zero = command(0, opcode::SEND, 4, 65_535, data_size, 0);
        sending(8).command(Command { data_addr: 0x1FF0, ..at_zero }).0
    };
    assert_eq!(at_page_end(16), 0);
    assert_eq!(at_page_end(17), 22);
}

#[test]
fn p10_slot_of_arg0() {
    let full = Receive { occupied: 0b1111, ..receive(2, 8, 0, NO_ENDPOINT) };
    let mut bench = Bench::new(&[1]);
    bench.configure(0, 3, Endpoint::Receive(full));
    assert_eq!(bench.command(command(0, opcode::ACK_MSG, 3, 1024, 0, 0)).0, 12);
    assert_eq!(bench.command(command(0, opcode::ACK_MSG, 3, 1023, 0, 0)).0, 0);
    let after = Receive { occupied: 0b0111, ..full };
    assert_eq!(bench.endpoint(0, 3), Endpoint::Receive(after));
}

#[test]
fn reads_of_a_region() {
    let mut bench = Bench::new(&[1]);
    let region = Memory { act: ACT, rw: 1, tile: 0, chip: 0, addr: 0, size: 64 };
    bench.configure(0, 2, Endpoint::Memory(region));
    let mut read = |size, arg1| bench.command(command(0, opcode::READ, 2, 0, size, arg1));
    assert_eq!(read(0, 65), (0, 65), "size 0 beyond the region");
    assert_eq!(read(1, u64::MAX).0, 9, "the sum does not wrap");
    assert_eq!(read(64, 0).0, 0);
    assert_eq!(read(64, 1).0, 9);
}

#[test]
fn the_session() {
    let mut bench = Bench::new(&[1, 1]);
    bench.configure(0, 4, Endpoint::Send(send(1, 7, 2, 8)));
    bench.configure(0, 6, Endpoint::Receive(receive(1, 6, 2048, NO_ENDPOINT)));
    bench.configure(1, 7, Endpoint::Receive(receive(1, 8, 1024, 20)));
    let steps = [
        command(0, opcode::SEND, 4, 6, 16, 77),
        command(0, opcode::SEND, 4, 65_535, 16, 77),
        command(0, opcode::SEND, 4, 65_535, 16, 77),
        command(1, opcode::FETCH, 7, 0, 0, 0),
        command(1, opcode::REPLY, 7, 0, 32, 0),
        command(1, opcode::REPLY, 7, 256, 32, 0),
        command(1, opcode::ACK_MSG, 7, 256, 0, 0),
        command(0, opcode::FETCH, 6, 0, 0, 0),
        command(0, opcode::FETCH, 6, 0, 0, 0),
    ];
    let mut lines = String::new();
    for (step, next) in steps.iter().enumerate() {
        let (answer, arg1) = bench.command(*next);
        let credits = bench.endpoint(0, 4).send().map(|ep| ep.cur_crd).unwrap();
        let occupied = bench.endpoint(1, 7).receive().map(|ep| ep.occupied).unwrap();
        lines += &format!("{} {} {} {} {}\n", step + 1, answer, arg1, credits, occupied);
    }
    let expected = "\
1 0 77 1 1
2 0 77 0 3
3 10 77 0 3
4 0 0 0 3
5 0 0 1 2
6 2 0 1 2
7 0 0 1 0
8 0 0 1 0
9 0 18446744073709551615 1 0
";
    assert_eq!(lines, expected);
}

/// The header that the session's first message leaves in tile 1's slot 0.
#[test]
fn the_header() {
    let mut bench = Bench::new(&[1, 1]);
    let labelled = Send { label: 0x0102_0304_0506_0708, ..send(1, 7, 2, 8) };
    bench.configure(0, 4, Endpoint::Send(labelled));
    bench.configure(0, 6, Endpoint::Receive(receive(1, 6, 2048, NO_ENDPOINT)));
    bench.configure(1, 7, Endpoint::Receive(receive(1, 8, 1024, 20)));
    bench.state.mem[..16].copy_from_slice(b"sixteen bytes...");
    assert_eq!(bench.command(command(0, opcode::SEND, 4, 6, 16, 77)).0, 0);

    let slot = &bench.state.mem[4096 + 1024..][..64];
    let first: u64 = 6 << 2 | 16 << 20 | 4 << 32 | 6 << 48;
    assert_eq!(slot[0..8], first.to_le_bytes());
    assert_eq!(slot[8..16], 77_u64.to_le_bytes());
    assert_eq!(slot[16..24], [8, 7, 6, 5, 4, 3, 2, 1]);
    assert_eq!(slot[24..32], [0; 8]);
    assert_eq!(&slot[32..48], b"sixteen bytes...");
    assert_eq!(slot[48..64], [0; 16]);

    let reply = Send { reply: true, crd_ep: 4, label: 77, ..send(0, 6, 1, 6) };
    assert_eq!(bench.endpoint(1, 20), Endpoint::Send(reply));
}

// ---------------------------------------------------------------- Several activities

/// A machine of two tiles: endpoint 4 of tile 0 sends, without end, to endpoint 7
/// of tile 1, which belongs to activity `act` and has 32 slots.
fn shared(act: u16) -> Bench {
    let mut bench = Bench::new(&[1, 1]);
    bench.configure(0, 4, Endpoint::Send(send(1, 7, 63, 5)));
    let receiver = Receive { act, ..receive(5, 5, 1024, NO_ENDPOINT) };
    bench.configure(1, 7, Endpoint::Receive(receiver));
    bench
}

fn message() -> Command {
    command(0, opcode::SEND, 4, 65_535, 0, 0)
}

#[test]
fn cur_act_has_id_and_count() {
    let mut bench = shared(ACT);
    bench.exchange(1, 0xFFFF_0005);
    assert_eq!(bench.command(message()).0, 0);
    assert_eq!(*bench.word(1, 0), 5, "65535 and one is 0");
    assert_eq!(bench.command(command(1, opcode::FETCH, 7, 0, 0, 0)), (0, 0));
    assert_eq!(*bench.word(1, 0), 0xFFFF_0005, "0 less one is 65535");
    assert_eq!(bench.command(command(1, opcode::FETCH, 7, 0, 0, 0)), (0, u64::MAX));
    assert_eq!(bench.command(command(1, opcode::ACK_MSG, 7, 0, 0, 0)).0, 0);
    assert_eq!(*bench.word(1, 0), 0xFFFF_0005, "nothing unread was there");
    assert_eq!(bench.exchange(1, 0xABCD_0003_0006), 0xFFFF_0005);
    assert_eq!(*bench.word(1, 0), 0x0003_0006);
    assert_eq!(bench.command(command(1, opcode::FETCH, 7, 0, 0, 0)).0, 4);
}

#[test]
fn foreign_messages_queue_in_order() {
    let mut bench = shared(6);
    *bench.word(1, 1) = 63;
    bench.configure(1, 8, Endpoint::Receive(Receive { act: 9, ..receive(0, 5, 0, NO_ENDPOINT) }));
    bench.configure(0, 5, Endpoint::Send(send(1, 8, 1, 5)));
    assert_eq!(bench.waiting(1), [0, 0, 0]);
    assert_eq!(bench.command(message()).0, 0);
    assert_eq!(bench.command(Command { endpoint: 5, ..message() }).0, 0);
    assert_eq!(*bench.word(1, 66), 2 | 7 << 2 | 6 << 48);
    assert_eq!(*bench.word(1, 3), 2 | 8 << 2 | 9 << 48);
    assert_eq!(*bench.word(1, 0), 5, "not counted");
    assert_eq!(bench.waiting(1), [2, 7, 6]);
    bench.respond(1);
    assert_eq!(bench.waiting(1), [1, 8, 9]);
    bench.respond(1);
    assert_eq!(bench.waiting(1), [0, 0, 0]);
    bench.respond(1);
    assert_eq!((*bench.word(1, 1), *bench.word(1, 2)), (1, 0));
}

/// 64 requests wait: the next message for another activity is refused and changes
/// nothing, one for the activity that runs is not, and a response makes room.
#[test]
fn the_queue_holds_64() {
    let mut bench = shared(6);
    for _ in 0..2 {
        for _ in 0..32 {
            assert_eq!(bench.command(message()).0, 0);
        }
        assert_eq!(bench.command(message()).0, 7, "the buffer is full");
        let empty = Receive { act: 6, ..receive(5, 5, 1024, NO_ENDPOINT) };
        bench.configure(1, 7, Endpoint::Receive(empty));
    }
    assert_eq!(bench.waiting(1), [64, 7, 6]);
    let before = bench.state.clone();
    assert_eq!(bench.command(message()).0, 7);
    assert!(bench.state == before);
    bench.exchange(1, 6);
    assert_eq!(bench.command(message()).0, 0);
    assert_eq!(*bench.word(1, 0), 0x0001_0006);
    bench.exchange(1, 5);
    assert_eq!(bench.command(message()).0, 7);
    bench.respond(1);
    assert_eq!(bench.command(message()).0, 0);
    assert_eq!((*bench.word(1, 1), *bench.word(1, 2)), (1, 64));
}

/// A reply into its own endpoint is lost and still counted; the slot it names was
/// not unread, so nothing is taken away.
#[test]
fn a_lost_reply_is_counted() {
    let mut bench = Bench::new(&[1]);
    let receiver = Receive { occupied: 1, ..receive(1, 5, 0, 20) };
    bench.configure(0, 7, Endpoint::Receive(receiver));
    let reply_ep = Send { reply: true, crd_ep: NO_ENDPOINT, ..send(0, 7, 1, 5) };
    bench.configure(0, 20, Endpoint::Send(reply_ep));
    assert_eq!(bench.command(command(0, opcode::REPLY, 7, 0, 0, 0)).0, 0);
    assert_eq!(bench.endpoint(0, 7), Endpoint::Receive(Receive { occupied: 0, ..receiver }));
    assert_eq!(*bench.word(0, 0), 0x0001_0005);
}

#[test]
fn records_that_are_refused() {
    let good = {
        let mut record = vec![u64::MAX; SHARING_PER_TILE as usize];
        record[..3].copy_from_slice(&[0xFFFF_FFFF, 63, 2]);
        record[66] = 2 | 63 << 2 | 0xFFFF << 48;
        record[3] = 2;
        record
    };
    assert!(sharing::acceptable(&good));
    assert!(sharing::acceptable(&vec![0; SHARING_PER_TILE as usize]));
    let with = |place: usize, word: u64| {
        let mut record = good.clone();
        record[place] = word;
        sharing::acceptable(&record)
    };
    assert!(!with(0, 1 << 32), "CUR_ACT above 32 bits");
    assert!(!with(1, 64) && !with(2, 3) && !with(2, 65), "the oldest, and how many wait");
    assert!(!with(3, 0) && !with(3, 1) && !with(3, 3), "another type");
    assert!(!with(66, 2 | 64 << 2) && !with(3, 2 | 1 << 17), "no such endpoint");
    assert!(!with(66, 2 | 1 << 18) && !with(3, 2 | 1 << 47), "an unnamed bit");
}

// ---------------------------------------------------------------- Unequal memories

/// A board of three tiles with one page, three and two. Endpoint t of each tile is a
/// region of tile t without an end of its own.
fn unequal() -> Bench {
    let mut bench = Bench::new(&[1, 3, 2]);
    for (tile, target) in (0..9).map(|pair| (pair / 3, pair % 3)) {
        let region =
            Memory { act: ACT, rw: 3, tile: target as u8, chip: 0, addr: 0, size: u64::MAX };
        bench.configure(tile, target, Endpoint::Memory(region));
    }
    bench
}

/// A tile's command on its region of another tile: `size` bytes from `remote` on, and
/// from `local` on in its own memory.
fn moved(opcode: u64, tile: u64, local: u64, target: u64, remote: u64, size: u64) -> Command {
    Command {
        tile,
        opcode,
        endpoint: target,
        arg0: 0,
        data_addr: local,
        data_size: size,
        arg1: remote,
    }
}

#[test]
fn the_memories_follow_one_another() {
    let mut bench = unequal();
    let page = PAGE as usize;
    bench.state.mem[4 * page + 8..][..6].copy_from_slice(b"tile 2");
    assert_eq!(bench.command(moved(opcode::READ, 1, 8192, 2, 8, 6)).0, 0);
    assert_eq!(&bench.state.mem[page + 8192..][..6], b"tile 2");
    assert_eq!(bench.command(moved(opcode::WRITE, 1, 8192, 0, 4090, 6)).0, 0);
    assert_eq!(&bench.state.mem[4090..page], b"tile 2");
    assert_eq!(bench.state.mem[page], 0, "the next tile's memory is as it was");
}

#[test]
fn a_range_ends_with_its_own_tile() {
    let answer = |command| unequal().command(command).0;
    let sizes = [4096, 12_288, 8192];
    for (tile, target) in (0..9).map(|pair| (pair / 3, pair % 3)) {
        for opcode in [opcode::READ, opcode::WRITE] {
            let (local, remote) = (sizes[tile as usize] - 16, sizes[target as usize] - 16);
            assert_eq!(answer(moved(opcode, tile, local, target, remote, 16)), 0);
            assert_eq!(answer(moved(opcode, tile, local, target, remote + 1, 16)), 14);
            assert_eq!(answer(moved(opcode, tile, local + 16, target, remote, 1)), 14);
        }
    }
}

#[test]
fn a_payload_ends_with_its_own_tile() {
    let sent = |tile: u64, data_addr: u64, size: u64| {
        let mut bench = Bench::new(&[1, 3, 2]);
        bench.configure(tile, 4, Endpoint::Send(send(2, 7, 2, 8)));
        bench.configure(2, 7, Endpoint::Receive(receive(0, 8, 0, NO_ENDPOINT)));
        let at_zero = command(tile, opcode::SEND, 4, 65_535, size, 0);
        bench.command(Command { data_addr, ..at_zero }).0
    };
    assert_eq!((sent(0, 4080, 16), sent(0, 4096, 0)), (0, 0));
    assert_eq!((sent(0, 4096, 1), sent(0, 4112, 0)), (14, 14), "the target has this address");
    assert_eq!((sent(1, 12_272, 16), sent(1, 12_288, 0)), (0, 0), "the target has not");
    assert_eq!((sent(1, 12_288, 1), sent(1, 12_304, 0)), (14, 14));
}

#[test]
fn a_receive_buffer_fits_its_own_tile() {
    let mut bench = Bench::new(&[1, 3, 2]);
    let last = Endpoint::Receive(receive(1, 11, 8192, NO_ENDPOINT)).words();
    let past = Endpoint::Receive(receive(1, 11, 8200, NO_ENDPOINT)).words();
    let mut configured =
        |tile, words| bench.state.machine(&bench.sizes, Wrong::Nothing).configure(tile, 7, words);
    assert_eq!([0, 1, 2].map(|tile| configured(tile, last) as u32), [103, 0, 103]);
    assert_eq!([0, 1, 2].map(|tile| configured(tile, past) as u32), [103; 3]);
    let mut fields = [0; 11];
    let mut unpacked = |memory| model::unpack(memory, last, &mut fields) as u32;
    assert_eq!([8192, 12_288, 65_536, 12_287, 69_632].map(&mut unpacked), [103, 0, 0, 100, 100]);
    // The same words in the table of the tile before or after: not a good table.
    for tile in [0, 2] {
        let at = (tile * WORDS_PER_TILE + 21) as usize;
        bench.state.words[at..at + 3].copy_from_slice(&last);
        assert_eq!(bench.command(command(1, opcode::IDLE, 0, 0, 0, 0)).0, 100);
        bench.state.words[at..at + 3].fill(0);
    }
    assert_eq!(bench.command(command(1, opcode::IDLE, 0, 0, 0, 0)).0, 0);
}

#[test]
fn a_message_is_delivered_behind_the_tiles_before() {
    let mut bench = Bench::new(&[1, 3, 2]);
    bench.configure(1, 4, Endpoint::Send(Send { label: 9, ..send(2, 7, 2, 11) }));
    bench.configure(2, 7, Endpoint::Receive(receive(0, 11, 8192 - 2048, NO_ENDPOINT)));
    let end = bench.state.mem.len();
    bench.state.mem[2 * 4096..][..2016].fill(5);
    let at_zero = command(1, opcode::SEND, 4, 65_535, 2016, 0);
    assert_eq!(bench.command(Command { data_addr: 4096, ..at_zero }).0, 0);
    assert_eq!(bench.state.mem[end - 2048 + 16], 9, "the label in the header");
    assert_eq!(bench.state.mem[end - 2016..], [5; 2016]);
}

/// What a machine of these sizes answers to IDLE; table and records are empty.
fn idle_on(tiles: u64, pages: &[u8], mem_len: u64) -> u32 {
    let mut machine = Machine {
        tiles,
        pages,
        words: &mut vec![0; (WORDS_PER_TILE * tiles) as usize],
        sharing: &mut vec![0; (SHARING_PER_TILE * tiles) as usize],
        mem: &mut vec![0; mem_len as usize],
        wrong: Wrong::Nothing,
    };
    machine.command(&command(0, opcode::IDLE, 0, 0, 0, 0)).0 as u32
}

#[test]
fn page_counts_that_are_refused() {
    assert_eq!(idle_on(2, &[1, 16], 17 * PAGE), 0);
    assert_eq!(idle_on(8, &[1, 2, 3, 4, 5, 6, 7, 16], 44 * PAGE), 0);
    assert_eq!(idle_on(2, &[0, 16], 16 * PAGE), 100, "no page");
    assert_eq!(idle_on(2, &[1, 17], 18 * PAGE), 100, "17 pages");
    assert_eq!(idle_on(1, &[255], 255 * PAGE), 100, "255 pages");
    assert_eq!(idle_on(2, &[2], 2 * PAGE), 100, "a count too few");
    assert_eq!(idle_on(2, &[1, 1, 1], 2 * PAGE), 100, "a count too many");
    assert_eq!(idle_on(2, &[1, 1, 1], 3 * PAGE), 100, "and memory for it");
    assert_eq!(idle_on(9, &[1; 9], 9 * PAGE), 100, "nine tiles");
    assert_eq!(idle_on(0, &[], 0), 100, "no tile");
    for other in [0, 16 * PAGE, 17 * PAGE - 1, 17 * PAGE + 1, 18 * PAGE, 32 * PAGE] {
        assert_eq!(idle_on(2, &[1, 16], other), 100, "lent memory of {} bytes", other);
    }
}

// ---------------------------------------------------------------- Credits

/// The bench's machine: endpoint 4 of tile 0 sends to tile 1 and takes replies on
/// endpoint 6. Nothing was sent; yet tile 1 replies, through a spare endpoint that was
/// written by hand. Gives `cur_crd` of endpoint 4 afterwards; all else is as after any
/// accepted reply.
fn after_reply(cur_crd: u8, max_crd: u8) -> u8 {
    let mut bench = Bench::new(&[1, 1]);
    let sender = Send { cur_crd, max_crd, ..send(1, 7, 0, 8) };
    bench.configure(0, 4, Endpoint::Send(sender));
    bench.configure(0, 6, Endpoint::Receive(receive(0, 6, 2048, NO_ENDPOINT)));
    bench.configure(1, 7, Endpoint::Receive(receive(1, 8, 1024, 20)));
    let spare = Send { reply: true, crd_ep: 4, ..send(0, 6, 1, 6) };
    bench.configure(1, 20, Endpoint::Send(spare));

    assert_eq!(bench.command(command(1, opcode::REPLY, 7, 0, 32, 0)).0, 0, "accepted");
    let came = Receive { occupied: 1, unread: 1, wpos: 1, ..receive(0, 6, 2048, NO_ENDPOINT) };
    assert_eq!(bench.endpoint(0, 6), Endpoint::Receive(came));
    assert_eq!(bench.endpoint(1, 20), Endpoint::Invalid);
    let after = bench.endpoint(0, 4).send().unwrap();
    assert_eq!(Send { cur_crd, ..after }, sender, "only cur_crd changes");
    after.cur_crd
}

#[test]
fn a_reply_does_not_make_credits_endless() {
    assert_eq!(after_reply(62, 63), 62, "63 would be unlimited");
    assert_eq!(after_reply(61, 63), 62);
    assert_eq!(after_reply(61, 62), 62);
    assert_eq!(after_reply(60, 63), 61);
    assert_eq!(after_reply(63, 63), 63, "unlimited as before");
    assert_eq!(after_reply(63, 5), 63);
}

#[test]
fn a_reply_adds_no_credit_beyond_max_crd() {
    assert_eq!(after_reply(4, 5), 5);
    assert_eq!(after_reply(5, 5), 5);
    assert_eq!(after_reply(7, 5), 7, "and takes none away");
    assert_eq!(after_reply(0, 0), 0);
    assert_eq!(after_reply(61, 61), 61);
    assert_eq!(after_reply(62, 62), 62);
}

/// Every pair of credits: one more, unless that passes 62 or `max_crd`.
#[test]
fn a_reply_on_any_credits() {
    for (cur_crd, max_crd) in (0..64 * 64).map(|pair| ((pair / 64) as u8, (pair % 64) as u8)) {
        let one_more = cur_crd + 1;
        let expected = if one_more <= max_crd.min(62) { one_more } else { cur_crd };
        assert_eq!(after_reply(cur_crd, max_crd), expected, "{} of {}", cur_crd, max_crd);
    }
}
