//! The nightly check: each job twice, plain and shuffled, a counted number of steps at a time; and against what was last seen.
mod asked;
mod baseline;
mod difference;
mod twice;
mod workers;

use crate::args::{Format, Nightly};
use crate::failure::{self, complain, Failure};
use crate::input::{self, Input};
use crate::word::Word;
use crate::{form, output, quote};
use asked::Asked;
use baseline::Baseline;
use std::path::Path;
use twice::{Checked, Pace, Stopped};

/// A file that was checked, or ABNF text with a word.
struct Job {
    input: Input,
    checked: Checked,
    asked: Asked,
}

/// Checks a file; ABNF text with each word.
fn check_file(options: &Nightly, file: Option<&Path>, progress: &dyn Fn(u64)) -> Result<Vec<Job>, Failure> {
    let input = input::read_for_later(file, options.dialect.abnf)?;
    let inputs = asked::words(&options.words, input)?;
    inputs.into_iter().map(|input| check(options, input, progress)).collect()
}

fn check(options: &Nightly, input: Input, progress: &dyn Fn(u64)) -> Result<Job, Failure> {
    let asked = asked::forms(&options.forms, &input)?;
    let pace = Pace { steps: options.steps, seed: options.seed, progress };
    match twice::check(&input.job, &asked.forms, &pace) {
        Ok(checked) => Ok(Job { input, checked, asked }),
        Err(Stopped::Refused(refusal, form)) => {
            let form = form::quoted(&form, &input.names);
            Err(Failure::Refused { refusal, input: Box::new(Input { form, ..input }), format: Format::Text })
        }
        Err(Stopped::Differs(difference)) => Err(Failure::Differs(format!(
            "{}: {}the plain and the shuffled run (--seed {}) differ: {difference}",
            input.name,
            word(&input),
            options.seed
        ))),
    }
}

/// What stands before what is told of an input: the word that it is asked about, if there is one.
fn word(input: &Input) -> String {
    input.word.as_ref().map_or_else(String::new, |asked| format!("word '{}': ", asked.word))
}

/// Tells what there is to say of a file beside the answers: what words have in common once.
fn warn(jobs: &[Job]) {
    for Job { input, asked, .. } in jobs.iter().take(1) {
        input.warnings.iter().for_each(|warning| complain(warning));
        asked.warnings.iter().for_each(|warning| complain(&format!("{}: {warning}", input.name)));
    }
    for Job { input, .. } in jobs {
        let reason = input.word.as_ref().and_then(|asked| asked.reason());
        reason.iter().for_each(|reason| complain(&format!("{}: {reason}", input.name)));
    }
}

/// Tells what the checks of a file say, and compares it with the baseline.
fn tell(prefix: &str, name: &str, jobs: &[Job], baseline: Option<&mut Baseline>) -> Result<(), Failure> {
    warn(jobs);
    for Job { input, checked, .. } in jobs {
        let (word, told) = (word(input), twice::told(checked, &input.names));
        output::write(|output| told.lines().try_for_each(|line| writeln!(output, "{prefix}{word}{line}")))?;
    }
    let seen = baseline::seen(jobs);
    let differences = baseline.map(|baseline| baseline.compare(name, seen)).unwrap_or_default();
    differences.iter().for_each(|difference| complain(&format!("{name}: not as last seen: {difference}")));
    match differences.is_empty() {
        true => Ok(()),
        false => Err(Failure::Told(failure::NO)),
    }
}

/// Tells the forms of one's own that none of the files could be asked about, and gives the exit status.
fn tell_unasked(forms: &[String], outcomes: &[Result<Vec<Job>, Failure>]) -> u8 {
    let jobs: Vec<&Job> = outcomes.iter().filter_map(|outcome| outcome.as_ref().ok()).flatten().collect();
    let is_unasked = |at: &usize| !jobs.is_empty() && jobs.iter().all(|job| job.asked.skipped.contains(at));
    let unasked: Vec<usize> = (0..forms.len()).filter(is_unasked).collect();
    for at in &unasked {
        complain(&format!("--form '{}': no file has its names", quote::visible_word(&forms[*at])));
    }
    u8::from(!unasked.is_empty())
}

/// Tells where words could be asked of none of the files, and gives the exit status. A file that failed may be ABNF text.
fn tell_unasked_words(words: &[Word], outcomes: &[Result<Vec<Job>, Failure>]) -> u8 {
    let is_other = |outcome: &Result<Vec<Job>, Failure>| {
        outcome.as_ref().is_ok_and(|jobs| jobs.iter().all(|job| job.input.word.is_none()))
    };
    if words.is_empty() || !outcomes.iter().all(is_other) {
        return 0;
    }
    complain("--word: no file is ABNF text");
    failure::NO
}

pub fn nightly(options: &Nightly) -> Result<(), Failure> {
    let mut baseline = options.baseline.as_deref().map(|path| Baseline::read(path, options.update)).transpose()?;
    let files = input::files(&options.files);
    let outcomes = workers::each(&files, options.jobs, |file, progress| check_file(options, *file, progress));
    let mut status = tell_unasked(&options.forms, &outcomes).max(tell_unasked_words(&options.words, &outcomes));
    for (file, outcome) in files.iter().zip(outcomes) {
        let prefix = if files.len() > 1 { format!("{}: ", input::name(*file)) } else { String::new() };
        let told = outcome.and_then(|jobs| tell(&prefix, &input::name(*file), &jobs, baseline.as_mut()));
        status = status.max(told.map_or_else(|failure| failure.tell(&prefix), |()| 0));
    }
    if let Some(baseline) = baseline {
        let names: Vec<String> = files.iter().map(|file| input::name(*file)).collect();
        baseline.unchecked(&names).iter().for_each(|message| complain(message));
        baseline.write()?;
    }
    match status {
        0 => Ok(()),
        status => Err(Failure::Told(status)),
    }
}
