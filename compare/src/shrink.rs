//! The fewest lines of a list that still fail a test, by delta debugging.

/// A part of the list that still fails and fails no more without any one of its lines. `fails` holds of the list itself.
pub fn shrink(list: &[String], mut fails: impl FnMut(&[String]) -> bool) -> Vec<String> {
    if fails(&[]) {
        return Vec::new();
    }
    let mut list = list.to_vec();
    let mut parts = 2;
    while list.len() > 1 {
        let size = list.len().div_ceil(parts);
        // Back to front: a long beginning goes in large pieces once what follows it is small.
        let without = (0..list.len()).step_by(size).rev().find_map(|start| {
            let end = (start + size).min(list.len());
            let rest = [&list[..start], &list[end..]].concat();
            fails(&rest).then_some(rest)
        });
        match without {
            Some(rest) => {
                list = rest;
                parts = (parts - 1).max(2);
            }
            None if size == 1 => break,
            None => parts = (parts * 2).min(list.len()),
        }
    }
    list
}

#[cfg(test)]
mod tests {
    use super::shrink;

    #[test]
    fn keeps_what_the_failure_needs() {
        let list: Vec<String> = (0..500).map(|i| i.to_string()).collect();
        let needs = ["3", "77", "78", "499"];
        let fails = |part: &[String]| needs.iter().all(|n| part.iter().any(|line| line == n));
        assert_eq!(shrink(&list, fails), needs);
    }
}
