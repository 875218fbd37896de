//! Tests of the comparison itself, with the model on both ends of the line.

use std::process::Command;
use tcu_host::call::{Action, Call, Sizes, State, FUNCTIONS};
use tcu_host::generate::{session, Session};
use tcu_host::model::{acceptable, opcode, privileged, ENDPOINTS};
use tcu_host::sharing;
use tcu_host::stack::Stack;
use tcu_host::wrong::{Wrong, WRONG_RULES};

fn compare(arguments: &[&str]) -> (bool, String) {
    let program = env!("CARGO_BIN_EXE_compare");
    let output = Command::new(program).args(arguments).output().expect("compare runs");
    (output.status.success(), String::from_utf8_lossy(&output.stdout).into_owned())
}

#[test]
fn the_model_does_not_differ_from_itself() {
    let (_, text) = compare(&["--self", "--calls", "20000", "--seed", "3"]);
    assert!(text.contains("no difference"), "{}", text);
}

#[test]
fn a_short_run_has_gaps_and_fails() {
    let (passed, text) = compare(&["--self", "--calls", "100"]);
    assert!(!passed && text.contains("GAP: "), "{}", text);
}

#[test]
fn every_wrong_rule_is_found() {
    let (passed, text) = compare(&["--self", "--wrong", "each"]);
    assert!(passed, "{}", text);
    assert_eq!(text.matches("found at call").count(), WRONG_RULES.len(), "{}", text);
}

/// A line of `host/stack` for each function, all with the same figure.
fn stack_of_each(bytes: u64) -> Stack {
    let line = |name: &&str| format!("{:5}  call_{} 96 > {} 8\n", bytes, name, name);
    Stack::read(&FUNCTIONS.iter().map(line).collect::<String>())
}

#[test]
fn a_call_may_use_what_its_code_needs_and_no_more() {
    let limits = stack_of_each(856);
    assert_eq!(stack_of_each(856).gaps(&limits), Vec::<String>::new());
    assert_eq!(stack_of_each(857).gaps(&limits).len(), FUNCTIONS.len());
    let mut used = stack_of_each(100);
    used.note(3, 857);
    assert_eq!(used.gaps(&limits), ["tcu_wiring used 857 bytes of stack, its code needs 856"]);
}

#[test]
fn a_stack_that_is_not_known_is_a_gap() {
    let nothing = Stack::default();
    assert_eq!(nothing.gaps(&stack_of_each(856)).len(), FUNCTIONS.len());
    assert_eq!(stack_of_each(8).gaps(&nothing).len(), FUNCTIONS.len());
}

#[test]
fn a_session_depends_on_seed_and_number_alone() {
    let (once, again, other) = (session(5, 17), session(5, 17), session(6, 17));
    assert!(once.state == again.state && once.calls == again.calls);
    assert!(once.state != other.state);
}

/// Boards of several tiles: some of one size, some of unequal sizes.
#[test]
fn boards_are_equal_and_unequal() {
    let boards: Vec<Vec<u8>> =
        (0..400).map(|number| session(5, number).calls[0].sizes.pages.clone()).collect();
    let several = boards.iter().filter(|pages| pages.len() > 1);
    let (equal, unequal): (Vec<_>, Vec<_>) =
        several.partition(|pages| pages.iter().all(|count| *count == pages[0]));
    assert!(equal.len() > 100 && unequal.len() > 100, "{} {}", equal.len(), unequal.len());
}

fn is_good(state: &State, sizes: &Sizes) -> bool {
    let mut table = (0..).zip(state.words[..sizes.words_len as usize].chunks_exact(3));
    let mut records = state.sharing[..sizes.sharing_len as usize].chunks_exact(67);
    table.all(|(place, words)| acceptable(words, sizes.size_of(place / ENDPOINTS)))
        && records.all(sharing::acceptable)
}

/// Whether a session starts with the wiring check, and the wiring is sound.
fn starts_sound(made: &Session) -> bool {
    let first = &made.calls[0];
    first.action == Action::Wiring && first.run(&mut made.state.clone(), Wrong::Nothing).answer == 1
}

fn configures(call: &Call) -> bool {
    matches!(call.action, Action::Configure { .. } | Action::Invalidate { .. })
}

fn is_reply(call: &Call) -> bool {
    matches!(&call.action, Action::Command(command) if command.opcode == opcode::REPLY)
}

/// Sound wiring never reaches the end of the credits: while only commands change the
/// table, a model that knows no end but 63 comes to the same state after every call.
#[test]
fn sound_wiring_always_has_room_for_a_credit() {
    let mut accepted = 0;
    for made in (0..4000).map(|number| session(11, number)).filter(starts_sound) {
        let (mut state, mut without_end) = (made.state.clone(), made.state);
        for call in made.calls.iter().filter(|call| !configures(call)) {
            let outcome = call.run(&mut state, Wrong::Nothing);
            let other = call.run(&mut without_end, Wrong::CreditUnlessUnlimited);
            assert!(outcome == other && state == without_end, "{:?}", call);
            accepted += u64::from(is_reply(call) && outcome.answer == 0);
        }
    }
    assert!(accepted > 200, "{} replies", accepted);
}

/// What holds of every call, whatever the rules say in detail: a refusal changes
/// nothing, good tables and records stay good, only FETCH and XCHG_ACT change ARG_1.
#[test]
fn the_model_keeps_its_general_promises() {
    for number in 0..400 {
        let made = session(11, number);
        let mut state = made.state;
        for call in made.calls {
            let before = state.clone();
            let outcome = call.run(&mut state, Wrong::Nothing);
            let accepted = outcome.answer == 0 && call.action != Action::Wiring;
            assert!(accepted || state == before, "{:?}", call);
            let was_good = is_good(&before, &call.sizes);
            assert!(!was_good || is_good(&state, &call.sizes), "{:?}", call);
            let (sets_arg1, given) = match call.action {
                Action::Command(command) => (command.opcode == opcode::FETCH, command.arg1),
                Action::Privileged { opcode, arg1, .. } => (opcode == privileged::XCHG_ACT, arg1),
                _ => (false, 0),
            };
            let changes = sets_arg1 && outcome.answer == 0;
            assert!(changes || outcome.arg1 == given, "{:?}", call);
        }
    }
}
