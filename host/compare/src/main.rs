//! `compare`: holds the library, the stand-in or a wrong copy of it against the model.

use compare::{Ended, Linked, Options, Recorder, run, say_where_on_a_fault};
use std::fs::File;
use std::io::BufWriter;
use std::process::ExitCode;

const USAGE: &str = "usage: compare library|plain|wrong NUMBER|record FILE [--seed S] [--cases N] [--round R]

  library   the library that was linked
  plain     the plain stand-in
  wrong N   the stand-in with its wrong line N
  record F  writes the cases and the model's answers to the file F

Status: 0 every call agreed, 1 one did not, 86 memory outside what was lent was touched, 87 a round did not end
within five minutes, 64 bad usage.";

fn main() -> ExitCode {
    let words: Vec<String> = std::env::args().skip(1).collect();
    let Some((what, options)) = read(&words) else {
        eprintln!("{USAGE}");
        return ExitCode::from(64);
    };
    say_where_on_a_fault(options.seed);
    match what {
        What::Calls(calls) => tell(run(&mut Linked::new(calls), &options)),
        What::Record(path) => {
            let file = File::create(&path).unwrap_or_else(|error| panic!("{path}: {error}"));
            let mut recorder = Recorder::new(BufWriter::new(file));
            let ended = run(&mut recorder, &Options { giants: false, ..options });
            recorder.finish();
            tell(ended)
        }
    }
}

enum What {
    Calls(face::Calls),
    Record(String),
}

/// The words of the command line, or none where they are no command.
fn read(words: &[String]) -> Option<(What, Options)> {
    let mut words = words.iter().map(String::as_str);
    let what = match words.next()? {
        "library" => What::Calls(sdd::calls()),
        "plain" => What::Calls(plain::calls()),
        "wrong" => {
            let number: u32 = words.next()?.parse().ok()?;
            What::Calls(plain::wrong_lines().into_iter().find(|wrong| wrong.number == number)?.calls())
        }
        "record" => What::Record(words.next()?.to_string()),
        _ => return None,
    };
    let mut options = Options { seed: 1, cases: 100_000, only: None, giants: true };
    while let Some(word) = words.next() {
        let number = words.next()?.parse().ok()?;
        match word {
            "--seed" => options.seed = number,
            "--cases" => options.cases = number,
            "--round" => options.only = Some(number),
            _ => return None,
        }
    }
    Some((what, options))
}

fn tell(ended: Ended) -> ExitCode {
    println!("{}", ended.tally.line());
    match ended.wrong {
        None => ExitCode::SUCCESS,
        Some(wrong) => {
            println!("{}", wrong.what);
            ExitCode::FAILURE
        }
    }
}
