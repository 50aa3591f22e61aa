//! Demand 3 of the scope paper for su files: what every cut of a file answers where the whole file
//! gives a decision, "no rule" standing for "no entry".

use supertab::raw::su;

use crate::suauth_call::{difference, Outcome};

/// The end of each line: just after its newline.
fn ends(file: &[u8]) -> Vec<usize> {
    (0..file.len()).filter(|place| file[*place] == b'\n').map(|place| place + 1).collect()
}

/// What a cut must answer; the whole file's outcome is a decision.
///
/// Where a line ends at the cut, or nothing is left: "no rule", if the whole says so or its deciding
/// line ends later, and else the whole's answer. Anywhere else 13 with the place where the cut line
/// begins, which is the last end not above the cut, or 0.
fn expected(ends: &[usize], whole: &Outcome, cut: usize) -> Outcome {
    let begin = ends.iter().copied().filter(|end| *end <= cut).max().unwrap_or(0);
    let told = |result: u8, number: usize| {
        let mut report = whole.report.clone();
        report[0] = number as i64;
        Outcome { result, report }
    };
    let deciding_end = ends.get((whole.report[0] - 1) as usize);
    if begin < cut {
        told(su::CUT_SHORT, begin)
    } else if whole.result == su::NO_RULE || deciding_end.is_none_or(|end| cut < *end) {
        told(su::NO_RULE, 0)
    } else {
        whole.clone()
    }
}

/// Ask these cuts of a file; the first that answers something else is told.
pub fn check(
    file: &[u8],
    whole: &Outcome,
    cuts: impl IntoIterator<Item = usize>,
    mut ask: impl FnMut(&[u8]) -> Result<Outcome, String>,
) -> Result<u64, String> {
    let ends = ends(file);
    let mut tried = 0;
    for cut in cuts {
        let got = ask(&file[..cut]).map_err(|wrong| format!("cut at {cut}: {wrong}"))?;
        if let Some(wrong) = difference(&got, &expected(&ends, whole, cut)) {
            return Err(format!("cut at {cut}: {wrong}"));
        }
        tried += 1;
    }
    Ok(tried)
}

#[cfg(test)]
mod tests {
    use super::*;
    use crate::suauth_call::Asked;

    const FILE: &[u8] = b"# x\nbin:ann:DENY\n\n root:ann:OWNPASS\nALL:ALL EXCEPT GROUP g:DENY\n#\n";

    fn asked(target: &str, user: &str, groups: &[u8]) -> Asked {
        let [target, user] = [target, user].map(|name| name.as_bytes().to_vec());
        Asked { file: FILE.to_vec(), target, user, groups: groups.to_vec(), report: vec![-9, 7] }
    }

    #[test]
    fn ends_of_lines() {
        assert_eq!(ends(b""), []);
        assert_eq!(ends(b"a"), []);
        assert_eq!(ends(b"\n\na\\\nb"), [1, 2, 5]);
    }

    #[test]
    fn what_cuts_must_answer() {
        let told = |result: u8, number: i64| Outcome { result, report: vec![number, 7] };
        let whole = told(su::OWNPASS, 4);
        let ends = ends(FILE);
        assert_eq!(ends[..4], [4, 17, 18, 36]);
        for (cut, result, number) in [
            (0, su::NO_RULE, 0),
            (1, su::CUT_SHORT, 0),
            (4, su::NO_RULE, 0),
            (5, su::CUT_SHORT, 4),
            (18, su::NO_RULE, 0),
            (35, su::CUT_SHORT, 18),
            (36, su::OWNPASS, 4),
            (37, su::CUT_SHORT, 36),
            (FILE.len(), su::OWNPASS, 4),
        ] {
            assert_eq!(expected(&ends, &whole, cut), told(result, number), "cut at {cut}");
        }
        for end in &ends {
            assert_eq!(expected(&ends, &told(su::NO_RULE, 0), *end), told(su::NO_RULE, 0));
        }
    }

    /// The reference keeps demand 3 for every question; three readers that do not are found.
    #[test]
    fn readers() {
        for asked in [
            asked("bin", "ann", b""),
            asked("root", "ann", b""),
            asked("root", "bo", b""),
            asked("root", "bo", b"g\0"),
        ] {
            let whole = asked.expected();
            assert!(whole.is_decision());
            let every_cut = || 0..=FILE.len();
            let tried = check(FILE, &whole, every_cut(), |file| Ok(asked.expected_of(file)));
            assert_eq!(tried, Ok(FILE.len() as u64 + 1));
            let takes_cut_lines = |file: &[u8]| {
                let last = file.last().is_some_and(|byte| *byte != b'\n');
                Ok(asked.expected_of(&[file, if last { b"\n" } else { b"" }].concat()))
            };
            assert!(check(FILE, &whole, every_cut(), takes_cut_lines).is_err());
            let drops_cut_lines = |file: &[u8]| {
                let end = file.iter().rposition(|byte| *byte == b'\n').map_or(0, |place| place + 1);
                Ok(asked.expected_of(&file[..end]))
            };
            assert!(check(FILE, &whole, every_cut(), drops_cut_lines).is_err());
            assert!(check(FILE, &whole, every_cut(), |_| Ok(whole.clone())).is_err());
        }
    }
}
