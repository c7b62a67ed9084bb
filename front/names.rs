//! Finding names, and the name that was meant.

/// The name nearest to a word, if it is near: at most a third of its letters differ, two at most. Words of 1, 2 or
/// more than 64 letters are near to none.
pub fn nearest<'a>(word: &str, names: impl Iterator<Item = &'a str>) -> Option<&'a str> {
    let letters = word.chars().count();
    let within = (letters / 3).min(2);
    let alike = names.filter(|name| (3..=64).contains(&letters) && name.chars().count().abs_diff(letters) <= within);
    let near = alike.map(|name| (distance(word, name), name)).filter(|(far, name)| *far <= within && *far < name.chars().count().max(letters));
    near.min_by_key(|near| near.0).map(|near| near.1)
}

/// How many letters are put in, taken out, changed, or swapped with their neighbour.
fn distance(a: &str, b: &str) -> usize {
    let (a, b): (Vec<char>, Vec<char>) = (a.chars().collect(), b.chars().collect());
    let mut rows = vec![(0..=b.len()).collect::<Vec<usize>>()];
    for i in 1..=a.len() {
        let mut row = vec![i];
        for j in 1..=b.len() {
            let change = rows[i - 1][j - 1] + usize::from(a[i - 1] != b[j - 1]);
            let mut least = change.min(rows[i - 1][j] + 1).min(row[j - 1] + 1);
            if i > 1 && j > 1 && a[i - 1] == b[j - 2] && a[i - 2] == b[j - 1] {
                least = least.min(rows[i - 2][j - 2] + 1);
            }
            row.push(least);
        }
        rows.push(row);
    }
    rows[a.len()][b.len()]
}

/// `name`, or where it is taken `name_`, `name__` and so on.
pub fn free(name: String, taken: impl Fn(&str) -> bool) -> String {
    let mut name = name;
    while taken(&name) {
        name.push('_');
    }
    name
}

/// Names in a row: `view, match, agree`.
pub fn listed<'a>(names: impl Iterator<Item = &'a str>) -> String {
    names.collect::<Vec<_>>().join(", ")
}

/// The same, each in backquotes.
pub fn ticked<'a>(names: impl Iterator<Item = &'a str>) -> String {
    names.map(|name| format!("`{name}`")).collect::<Vec<_>>().join(", ")
}
