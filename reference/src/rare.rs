//! What has to come up in the lists, and came up too seldom: hardly compared.

/// The counts that are less than this, in words.
pub fn fewer_than<S: Into<String>>(
    least: u64,
    counts: impl IntoIterator<Item = (S, u64)>,
) -> Vec<String> {
    let is_rare = |&(_, count): &(S, u64)| count < least;
    let in_words = |(what, count): (S, u64)| format!("{}: {count}", what.into());
    counts.into_iter().filter(is_rare).map(in_words).collect()
}
