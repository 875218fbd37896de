//! Holds the library, behind a runner, against the model.

use std::io::{self, BufReader};
use std::process::exit;
use std::time::Instant;
use tcu_host::compare::{self, Settings, Verdict};
use tcu_host::coverage::Coverage;
use tcu_host::stack::Stack;
use tcu_host::wrong::{Wrong, WRONG_RULES};
use tcu_host::{report, wire};

const USAGE: &str = "\
compare RUNNER [options]   hold the library, behind RUNNER, against the model
compare --self [options]   hold the model against itself over the same line
  --calls N        how many calls to make (default 300000)
  --seed S         the seed of all random choices (default 1)
  --session N      make only the calls of this session
  --coverage FILE  write the table of answers and corners to FILE as well
  --wrong RULE     make the model wrong on purpose; a difference must be found
  --wrong each     the same for every rule in turn
  --stack FILE     the stack that each function can need, as host/stack says it;
                   a call must not use more
  --under PROGRAM  run RUNNER under PROGRAM
compare --rules            list the wrong rules
Exit status: 0 all the same; 1 a difference, something never reached, or too much
stack used; 2 bad usage or no runner.";

struct Options {
    program: Vec<String>,
    seed: u64,
    calls: u64,
    session: Option<u64>,
    coverage: Option<String>,
    stack: Option<Stack>,
    wrong: Vec<Wrong>,
}

fn fail(message: &str) -> ! {
    eprintln!("compare: {}", message);
    exit(2)
}

fn main() {
    let arguments: Vec<String> = std::env::args().skip(1).collect();
    let asks = |option: &str| arguments.iter().any(|argument| argument == option);
    match arguments.first().map(String::as_str) {
        None => println!("{}", USAGE),
        Some(_) if asks("--help") => println!("{}", USAGE),
        Some(_) if asks("--rules") => print_rules(),
        Some("--serve") => serve(),
        Some(_) => {
            let options = parse(&arguments);
            let passed = match options.wrong[..] {
                [] => compare_once(&options),
                _ => options.wrong.iter().all(|wrong| finds(&options, *wrong)),
            };
            exit(if passed { 0 } else { 1 });
        }
    }
}

fn print_rules() {
    for (_, name, meaning) in WRONG_RULES {
        println!("{:<24} {}", name, meaning);
    }
}

/// The other end of `--self`: the model plays the runner.
fn serve() {
    let mut input = BufReader::with_capacity(1 << 18, io::stdin());
    if let Err(error) = wire::serve(&mut input, &mut io::stdout()) {
        fail(&format!("serving ended: {}", error));
    }
}

fn own_program() -> Vec<String> {
    match std::env::current_exe() {
        Ok(path) => vec![path.to_string_lossy().into_owned(), "--serve".to_string()],
        Err(error) => fail(&format!("cannot find this program: {}", error)),
    }
}

fn number(text: &str) -> u64 {
    text.parse().unwrap_or_else(|_| fail(&format!("'{}' is no number", text)))
}

fn read_stack(path: &str) -> Stack {
    match std::fs::read_to_string(path) {
        Ok(text) => Stack::read(&text),
        Err(error) => fail(&format!("cannot read '{}': {}", path, error)),
    }
}

fn wrong_rules(name: &str) -> Vec<Wrong> {
    if name == "each" {
        return WRONG_RULES.iter().map(|rule| rule.0).collect();
    }
    match Wrong::named(name) {
        Some(wrong) => vec![wrong],
        None => fail(&format!("there is no wrong rule '{}'; see --rules", name)),
    }
}

fn parse(arguments: &[String]) -> Options {
    let mut program = match arguments[0].as_str() {
        "--self" => own_program(),
        option if option.starts_with("--") => fail("the runner, or --self, comes first"),
        runner => vec![runner.to_string()],
    };
    let mut options = Options {
        program: Vec::new(),
        seed: 1,
        calls: 300_000,
        session: None,
        coverage: None,
        stack: None,
        wrong: Vec::new(),
    };
    for pair in arguments[1..].chunks(2) {
        let value = match pair {
            [_, value] => value,
            _ => fail(&format!("'{}' lacks its value, or is no option", pair[0])),
        };
        match pair[0].as_str() {
            "--calls" => options.calls = number(value),
            "--seed" => options.seed = number(value),
            "--session" => options.session = Some(number(value)),
            "--coverage" => options.coverage = Some(value.clone()),
            "--stack" => options.stack = Some(read_stack(value)),
            "--wrong" => options.wrong = wrong_rules(value),
            "--under" => program.insert(0, value.clone()),
            other => fail(&format!("there is no option '{}'", other)),
        }
    }
    options.program = program;
    options
}

fn run(options: &Options, wrong: Wrong) -> Verdict {
    let settings =
        Settings { seed: options.seed, calls: options.calls, session: options.session, wrong };
    match compare::run(&options.program, &settings) {
        Ok(verdict) => verdict,
        Err(error) => fail(&format!("cannot run '{}': {}", options.program.join(" "), error)),
    }
}

/// Compares, and says how to see a difference again.
fn compare_once(options: &Options) -> bool {
    println!("seed {}, {} calls", options.seed, options.calls);
    let start = Instant::now();
    match run(options, Wrong::Nothing) {
        Verdict::Same(coverage) => {
            let mut table = coverage.table();
            if let Some(limits) = &options.stack {
                table.push_str(&coverage.stack.table(limits));
            }
            print!("{}", table);
            println!("no difference; {:.1} s", start.elapsed().as_secs_f64());
            save(options, &table);
            let gaps =
                if options.session.is_some() { Vec::new() } else { gaps(options, &coverage) };
            for gap in &gaps {
                println!("GAP: {}", gap);
            }
            gaps.is_empty()
        }
        Verdict::Different(difference) => {
            print!("{}", report::describe(&difference));
            println!("again: --seed {} --session {}", options.seed, difference.session);
            false
        }
        Verdict::Broken { session, place, call, error } => {
            println!(
                "THE RUNNER BROKE OFF at call {} of session {}: {}",
                place + 1,
                session,
                error
            );
            println!("  {}", report::describe_call(&call));
            println!("again: --seed {} --session {}", options.seed, session);
            false
        }
    }
}

/// What the calls did not reach, or used too much of.
fn gaps(options: &Options, coverage: &Coverage) -> Vec<String> {
    let mut gaps = coverage.gaps();
    if let Some(limits) = &options.stack {
        gaps.extend(coverage.stack.gaps(limits));
    }
    gaps
}

fn save(options: &Options, table: &str) {
    if let Some(path) = &options.coverage {
        let text = format!("seed {}\n{}", options.seed, table);
        if let Err(error) = std::fs::write(path, text) {
            fail(&format!("cannot write '{}': {}", path, error));
        }
    }
}

/// Whether the comparison finds a model that is wrong on purpose.
fn finds(options: &Options, wrong: Wrong) -> bool {
    let name = WRONG_RULES.iter().find(|rule| rule.0 == wrong).map_or("", |rule| rule.1);
    match run(options, wrong) {
        Verdict::Different(difference) => {
            println!("{:<24} found at call {}", name, difference.before + 1);
            true
        }
        Verdict::Same(_) => {
            println!("{:<24} NOT FOUND in {} calls", name, options.calls);
            false
        }
        Verdict::Broken { session, .. } => {
            println!("{:<24} the runner broke off in session {}", name, session);
            false
        }
    }
}
