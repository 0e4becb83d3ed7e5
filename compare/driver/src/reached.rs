//! What a comparison reached. One that never comes to a thing says nothing of it, so a count of 0
//! fails the run.

/// Prints the counts, a line each. False where one is 0, or where there are none.
pub fn told(counts: &[(&str, u64)]) -> bool {
    for &(name, count) in counts {
        println!("  {name:<62} {count:>9}{}", remark(count > 0));
    }
    !counts.is_empty() && counts.iter().all(|&(_, count)| count > 0)
}

pub fn remark(reached: bool) -> &'static str {
    if reached {
        ""
    } else {
        "  NOT REACHED"
    }
}

#[cfg(test)]
mod tests {
    use super::told;

    #[test]
    fn each_has_to_be_reached() {
        assert!(told(&[("one", 1), ("other", 7)]));
        assert!(!told(&[("one", 1), ("other", 0)]));
        assert!(!told(&[]));
    }
}
