//! The C calls against the Rust, in one program: `runs/compare` builds and starts it.

/// bamboo.rs looks for this one at the root; the others stand in `engine`.
#[allow(dead_code)]
mod input_method {
    include!(concat!(env!("ENGINE"), "/input_method.rs"));
}

mod calls;
mod composer;
mod composition;
mod draft;
mod drafts;
mod engine;
mod fixed;
mod letters;
mod line;
mod lines;
mod lister;
mod methods;
mod oracle;
mod report;
mod session;
mod spelling;
mod utf8;

use report::Run;
use std::process::ExitCode;

/// A subject: the calls that it is there to compare, the comparison, and the answers of the oracle that are kept as a fixed list.
pub struct Subject {
    name: &'static str,
    calls: &'static [&'static str],
    compare: fn(&mut Run),
    fixed: fn() -> Vec<String>,
}

/// Every subject, in document 01's port order, and then those of document 02's requests.
const SUBJECTS: &[Subject] = &[
    Subject { name: "letters", calls: letters::CALLS, compare: letters::compare, fixed: letters::fixed },
    Subject { name: "methods", calls: methods::CALLS, compare: methods::compare, fixed: methods::fixed },
    Subject { name: "composer", calls: composer::CALLS, compare: composer::compare, fixed: composer::fixed },
    Subject { name: "spelling", calls: spelling::CALLS, compare: spelling::compare, fixed: spelling::fixed },
    Subject { name: "lister", calls: lister::CALLS, compare: lister::compare, fixed: lister::fixed },
    Subject { name: "utf8", calls: utf8::CALLS, compare: utf8::compare, fixed: utf8::fixed },
    Subject { name: "drafts", calls: drafts::CALLS, compare: drafts::compare, fixed: drafts::fixed },
    Subject { name: "lines", calls: lines::CALLS, compare: lines::compare, fixed: lines::fixed },
];

fn main() -> ExitCode {
    let words: Vec<String> = std::env::args().skip(1).collect();
    let is_option = |word: &String| word.starts_with("--");
    let names: Vec<&String> = words.iter().filter(|word| !is_option(word)).collect();
    let options: Vec<&str> = words.iter().filter(|word| is_option(word)).map(String::as_str).collect();
    if let Some(unknown) = names.iter().find(|name| SUBJECTS.iter().all(|subject| subject.name != ***name)) {
        let all: Vec<&str> = SUBJECTS.iter().map(|subject| subject.name).collect();
        eprintln!("no subject `{unknown}`; there are: {}", all.join(" "));
        return ExitCode::from(2);
    }
    let chosen = SUBJECTS.iter().filter(|subject| names.is_empty() || names.iter().any(|name| *name == subject.name));
    match options[..] {
        [] => compare(chosen, false),
        ["--until-found"] => compare(chosen, true),
        ["--write-fixed"] => fixed::write(chosen),
        ["--check-fixed"] => fixed::check(chosen),
        _ => {
            eprintln!("options: --until-found, --write-fixed, --check-fixed, or none");
            ExitCode::from(2)
        }
    }
}

fn compare<'a>(chosen: impl Iterator<Item = &'a Subject>, until_found: bool) -> ExitCode {
    let mut run = Run::from_environment(until_found);
    for subject in chosen {
        run.subject(subject.name, subject.calls);
        (subject.compare)(&mut run);
    }
    run.conclude()
}
