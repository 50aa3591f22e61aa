//! Guards beside lent memory: what a call writes next to what it was lent is seen.

/// How many bytes or numbers stand on a side of lent ones, to be left alone.
pub const GUARDS: usize = 8;

pub const GUARD_BYTE: u8 = 0x5A;
pub const GUARD_NUMBER: i64 = -0x5A5A_5A5A_5A5A;

/// Make a call with nothing that may be touched behind what it is lent, and once more with guards
/// there; both must give the same.
pub fn twice<T>(
    mut call: impl FnMut(usize) -> Result<T, String>,
    difference: impl Fn(&T, &T) -> Option<String>,
) -> Result<T, String> {
    let first = call(0)?;
    let second = call(GUARDS)?;
    match difference(&second, &first) {
        None => Ok(first),
        Some(wrong) => Err(format!("the same call again: {wrong}")),
    }
}

/// What is lent, between guards on its two sides.
pub fn guarded<T: Copy>(lent: &[T], guard: T, behind: usize) -> Vec<T> {
    [&[guard; GUARDS], lent, &vec![guard; behind]].concat()
}

/// What was lent, if the guards are as they were.
pub fn unguarded<T: Copy + PartialEq>(
    memory: &[T],
    guard: T,
    behind: usize,
) -> Result<Vec<T>, String> {
    let (front, rest) = memory.split_at(GUARDS);
    let (lent, back) = rest.split_at(rest.len() - behind);
    if front.iter().chain(back).all(|value| *value == guard) {
        Ok(lent.to_vec())
    } else {
        Err("what stands beside the lent memory was changed".to_string())
    }
}

#[cfg(test)]
mod tests {
    use super::*;

    #[test]
    fn guards() {
        let memory = guarded(&[1, 2, 3], 7, 2);
        assert_eq!(memory, [7, 7, 7, 7, 7, 7, 7, 7, 1, 2, 3, 7, 7]);
        assert_eq!(unguarded(&memory, 7, 2), Ok(vec![1, 2, 3]));
        for place in 0..memory.len() {
            let mut changed = memory.clone();
            changed[place] = 9;
            let inside = (GUARDS..GUARDS + 3).contains(&place);
            assert_eq!(unguarded(&changed, 7, 2).is_ok(), inside, "at {place}");
        }
        assert_eq!(unguarded(&guarded(&[], 7, 0), 7, 0), Ok(Vec::new()));
    }

    #[test]
    fn calls_that_differ() {
        let differ = |got: &usize, wanted: &usize| (got != wanted).then(|| format!("{got}"));
        assert_eq!(twice(|_| Ok(3), differ), Ok(3));
        assert!(twice(Ok, differ).is_err());
        assert!(
            twice(|behind| if behind > 0 { Err(String::new()) } else { Ok(3) }, differ).is_err()
        );
    }
}
