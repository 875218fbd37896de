//! Holds a runner against the model: after each call the answer, ARG_1, every
//! lent word, of the tables and the sharing records, and every lent byte.

use crate::call::{Call, Outcome, State};
use crate::corners::Seen;
use crate::coverage::Coverage;
use crate::generate::{self, Session};
use crate::wire::{Reply, Runner};
use crate::wrong::Wrong;
use std::io;

pub struct Settings {
    pub seed: u64,
    pub calls: u64,
    /// Only this session, if one is named.
    pub session: Option<u64>,
    pub wrong: Wrong,
}

/// The first difference, with all that is needed to look at it.
pub struct Difference {
    pub session: u64,
    /// The place of the call in its session.
    pub place: usize,
    /// The number of calls before it in the whole run.
    pub before: u64,
    pub call: Call,
    pub lent: State,
    pub expected: Outcome,
    pub expected_state: State,
    pub reply: Reply,
    pub reported_state: State,
}

pub enum Verdict {
    Same(Box<Coverage>),
    Different(Box<Difference>),
    /// The runner ended, or wrote something else than replies, at a call.
    Broken {
        session: u64,
        place: usize,
        call: Box<Call>,
        error: io::Error,
    },
}

/// Runs sessions until the number of calls is reached or a difference found.
pub fn run(program: &[String], settings: &Settings) -> io::Result<Verdict> {
    let mut runner = Runner::start(program)?;
    let mut coverage = Coverage::default();
    let mut done = 0;
    let mut number = settings.session.unwrap_or(0);
    loop {
        let session = generate::session(settings.seed, number);
        let replies = match runner.run(&session, session.calls.len()) {
            Ok(replies) => replies,
            Err(error) => return broken(program, session, error),
        };
        if let Err(difference) = compare(&session, replies, settings.wrong, &mut coverage, done) {
            return Ok(Verdict::Different(difference));
        }
        done += session.calls.len() as u64;
        number += 1;
        if done >= settings.calls || settings.session.is_some() {
            return Ok(Verdict::Same(Box::new(coverage)));
        }
    }
}

fn compare(
    session: &Session,
    replies: Vec<Reply>,
    wrong: Wrong,
    coverage: &mut Coverage,
    done: u64,
) -> Result<(), Box<Difference>> {
    let mut expected_state = session.state.clone();
    let mut reported_state = session.state.clone();
    let (mut words_before, mut sharing_before) = (Vec::new(), Vec::new());
    for (place, (call, reply)) in session.calls.iter().zip(replies).enumerate() {
        words_before.clone_from(&expected_state.words);
        sharing_before.clone_from(&expected_state.sharing);
        let expected = call.run(&mut expected_state, wrong);
        reply.apply(&mut reported_state);
        let same =
            reply.faults == 0 && expected == reply.outcome && expected_state == reported_state;
        if !same {
            return Err(Box::new(Difference {
                session: session.number,
                place,
                before: done + place as u64,
                call: call.clone(),
                lent: state_before(session, place),
                expected,
                expected_state,
                reply,
                reported_state,
            }));
        }
        coverage.stack.note(call.action.function(), reply.stack);
        let (words, sharing) = (&words_before, &sharing_before);
        let words_after = &expected_state.words;
        coverage.count(&Seen { call, words, sharing, words_after, outcome: &expected });
    }
    Ok(())
}

/// The state that a call of a session is lent.
fn state_before(session: &Session, place: usize) -> State {
    let mut state = session.state.clone();
    for call in &session.calls[..place] {
        call.run(&mut state, Wrong::Nothing);
    }
    state
}

/// Finds the call at which a runner ends, by longer and longer parts of the
/// session, each with a runner of its own.
fn broken(program: &[String], session: Session, error: io::Error) -> io::Result<Verdict> {
    let mut place = session.calls.len() - 1;
    for count in 1..session.calls.len() {
        if Runner::start(program)?.run(&session, count).is_err() {
            place = count - 1;
            break;
        }
    }
    let call = Box::new(session.calls[place].clone());
    Ok(Verdict::Broken { session: session.number, place, call, error })
}
