//! One job in two runs, plain and shuffled.
use super::difference::{alike, all_alike, Difference};
use crate::output::yes_no;
use crate::print::listing;
use ropeclover::text::Names;
use ropeclover::{reason_of, shuffled, turn_of, Explanation, Refusal, Report, Started, Workspace, CODES};

/// How the runs are made.
pub struct Pace<'a> {
    pub steps: u64,
    pub seed: u64,
    /// Told the steps made since it was last told.
    pub progress: &'a dyn Fn(u64),
}

/// What both runs say.
#[derive(Clone, Debug, PartialEq, Eq)]
pub struct Checked {
    pub report: Report,
    pub codes: [u8; CODES],
    /// The explained forms, the start symbol's first.
    pub forms: Vec<Explained>,
}

/// A form, whether it is accepted, and its number of listing records.
#[derive(Clone, Debug, PartialEq, Eq)]
pub struct Explained {
    pub form: Vec<u8>,
    pub accepted: bool,
    pub records: usize,
}

/// Why there is no answer.
#[derive(Debug)]
pub enum Stopped {
    /// The job or a form is refused.
    Refused(Refusal, Vec<u8>),
    Differs(Difference),
}

impl From<Difference> for Stopped {
    fn from(difference: Difference) -> Self {
        Stopped::Differs(difference)
    }
}

/// Both runs' answers to a call about a form, if any. A job that only the shuffled run refuses is a difference.
fn both<T>(plain: Result<T, Refusal>, shuffled: Result<T, Refusal>, form: &[u8]) -> Result<(T, T), Stopped> {
    match (plain, shuffled) {
        (Ok(plain), Ok(shuffled)) => Ok((plain, shuffled)),
        (Err(refusal), _) => Err(Stopped::Refused(refusal, form.to_vec())),
        (Ok(_), Err(refusal)) => {
            let shuffled = format!("{} at {}", refusal.number(), refusal.place());
            Err(Difference { what: "refused".into(), plain: "no".into(), shuffled }.into())
        }
    }
}

/// An error where table or reasons differ.
fn same_memory(plain: &Workspace, other: &Workspace) -> Result<(), Difference> {
    let transition = |at: usize| format!("table byte of ({}, {}, {})", at / 2048, at / 32 % 64, at % 32);
    all_alike(plain.table(), other.table(), transition, u8::to_string)?;
    let reason = |at: usize| format!("reason of ({}, {}, {})", at / 1024, at / 32 % 32, at % 32);
    all_alike(plain.reasons(), other.reasons(), reason, |entry| {
        format!("{} at turn {}", reason_of(*entry), turn_of(*entry))
    })
}

/// Advances both runs to the end, comparing after each advance.
fn saturate(plain: &mut Started<'_>, other: &mut Started<'_>, pace: &Pace<'_>) -> Result<(), Difference> {
    while !plain.is_finished() {
        let (now, shuffled) = (plain.advance(pace.steps), other.advance(pace.steps));
        (pace.progress)(now.steps);
        alike("steps of an advance", now.steps, shuffled.steps, u64::to_string)?;
        alike("joins of an advance", now.meetings, shuffled.meetings, u64::to_string)?;
        alike("finished", now.finished, shuffled.finished, |yes| yes_no(*yes).into())?;
        same_memory(plain.memory(), other.memory())?;
    }
    Ok(())
}

/// An error where two explanations differ.
fn same_explanation(plain: &Explanation, other: &Explanation) -> Result<(), Difference> {
    alike("accepted", plain.accepted, other.accepted, |yes| yes_no(*yes).into())?;
    all_alike(&plain.sequence, &other.sequence, |at| format!("state {at} of the sequence"), u8::to_string)?;
    all_alike(&plain.records, &other.records, |at| format!("listing record {at}"), ToString::to_string)
}

/// The two runs' job and memory.
struct Runs<'a> {
    jobs: [&'a [u8]; 2],
    memory: [Workspace; 2],
}

impl Runs<'_> {
    /// Starts both and advances them to the end.
    fn finish(&mut self, pace: &Pace<'_>) -> Result<Report, Stopped> {
        let [plain, other] = &mut self.memory;
        let (mut plain, mut other) = both(plain.start(self.jobs[0]), other.start(self.jobs[1]), &[])?;
        let states = alike("states", plain.states(), other.states(), usize::to_string)?;
        saturate(&mut plain, &mut other, pace)?;
        let total = plain.total();
        Ok(Report { states, examined: total.steps, joins: total.meetings, start: false, empty: false, growing: false })
    }

    fn explain(&mut self, form: &[u8]) -> Result<Explained, Stopped> {
        let [plain, other] = &mut self.memory;
        let explained = both(plain.explain(self.jobs[0], form), other.explain(self.jobs[1], form), form)?;
        let (explanation, shuffled) = explained;
        same_explanation(&explanation, &shuffled)?;
        same_memory(plain, other)?;
        Ok(Explained { form: form.to_vec(), accepted: explanation.accepted, records: explanation.records.len() })
    }

    fn judge(&mut self, report: Report) -> Result<(Report, [u8; CODES]), Stopped> {
        let [plain, other] = &mut self.memory;
        let judged = both(plain.verdicts(self.jobs[0]), other.verdicts(self.jobs[1]), &[])?;
        let ((verdicts, codes), (shuffled, other_codes)) = judged;
        let empty = alike("empty", verdicts.empty, shuffled.empty, |yes| yes_no(*yes).into())?;
        let growing = alike("growing", verdicts.growing, shuffled.growing, |yes| yes_no(*yes).into())?;
        all_alike(&codes, &other_codes, |symbol| format!("code of symbol {symbol}"), u8::to_string)?;
        Ok((Report { empty, growing, ..report }, codes))
    }
}

/// Makes both runs and compares all that they answer and leave.
pub fn check(job: &[u8], forms: &[Vec<u8>], pace: &Pace<'_>) -> Result<Checked, Stopped> {
    let shuffled = shuffled(job, pace.seed);
    let mut runs = Runs { jobs: [job, &shuffled], memory: [Workspace::new(), Workspace::new()] };
    let report = runs.finish(pace)?;
    let forms = forms.iter().map(|form| runs.explain(form)).collect::<Result<Vec<Explained>, Stopped>>()?;
    let (report, codes) = runs.judge(report)?;
    let start = forms.first().is_some_and(|start| start.accepted);
    Ok(Checked { report: Report { start, ..report }, codes, forms })
}

/// A line for the job, and one for each form of one's own.
pub fn told(checked: &Checked, names: &Names) -> String {
    let Report { states, examined, joins, start, empty, growing } = checked.report;
    let (start, empty, growing) = (yes_no(start), yes_no(empty), yes_no(growing));
    let useless = checked.codes.iter().filter(|code| **code > 1).count();
    let mut lines = format!(
        "alike: states {states}, examined {examined}, joins {joins}, start {start}, empty {empty}, growing {growing}, useless symbols {useless}\n"
    );
    for Explained { form, accepted, records } in checked.forms.iter().skip(1) {
        let form = listing::form(form, names);
        lines.push_str(&format!("form {form}: accepted {}, records {records}\n", yes_no(*accepted)));
    }
    lines
}

#[cfg(test)]
mod tests {
    use super::same_memory;
    use ropeclover::{text::assemble, Workspace};

    /// The memory after a text's job is run to the end.
    fn finished(text: &str) -> Workspace {
        let (job, mut memory) = (assemble(text).unwrap(), Workspace::new());
        memory.start(&job).unwrap().finish();
        memory
    }

    fn told(plain: &str, shuffled: &str) -> Option<String> {
        same_memory(&finished(plain), &finished(shuffled)).err().map(|difference| difference.to_string())
    }

    /// Jobs that lead to the same table. In the second, (0, 0, 1) is given. In the third, (0, 1, 0) is there from the start: step 1 takes it, and step 2
    /// takes (0, 32, 1) and adds (0, 0, 1), which step 1 does in the last.
    #[test]
    fn a_differing_reason_or_turn_is_told() {
        let rest = "S 0\nU 0 32\nI 0\nT 0 32 1\n";
        let given = format!("{rest}T 0 0 1\n");
        assert_eq!(told(rest, rest), None);
        let expected = "reason of (0, 0, 1), 1 at turn 1 plain and 65535 at turn 0 shuffled";
        assert_eq!(told(rest, &given).as_deref(), Some(expected));
        let (first, last) = (format!("{rest}T 1 33 0\nT 0 1 0\n"), format!("{rest}T 1 33 0\nP 1 0 33\n"));
        let expected = "reason of (0, 0, 1), 1 at turn 2 plain and 1 at turn 1 shuffled";
        assert_eq!(told(&first, &last).as_deref(), Some(expected));
    }
}
