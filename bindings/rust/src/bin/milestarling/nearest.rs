//! The nearest of some names to one that was misspelt.

/// The name that was meant, if one is near. Of names as near the first is taken.
pub fn meant<'a>(given: &str, names: impl IntoIterator<Item = &'a str>) -> Option<&'a str> {
    let names: Vec<&str> = names.into_iter().collect();
    nearest(given, &names).first().copied()
}

/// The names that are near, the nearest first: at most one change away, or two where they have more than four letters.
pub fn nearest<'a>(given: &str, names: &[&'a str]) -> Vec<&'a str> {
    // What is much longer is no name's, and isn't looked at.
    let alike = names.iter().filter(|name| given.len().abs_diff(name.len()) <= allowed(name));
    let near = alike.map(|&name| (distance(given, name), name)).filter(|&(distance, name)| distance <= allowed(name));
    let mut near: Vec<(usize, &str)> = near.collect();
    // Letters are exchanged or mistyped more often than one is put in or left out.
    near.sort_by_key(|&(distance, name)| (distance, given.len().abs_diff(name.len())));
    near.into_iter().map(|(_, name)| name).collect()
}

/// How many changes may lie between a name and what was typed for it.
fn allowed(name: &str) -> usize {
    if name.len() > 4 {
        2
    } else {
        1
    }
}

/// How many letters have to be put in, left out, replaced, or exchanged with the next, to make one word of the other, where
/// upper and lower case are the same.
fn distance(one: &str, other: &str) -> usize {
    let letters = |text: &str| text.to_lowercase().chars().collect::<Vec<char>>();
    let (one, other) = (letters(one), letters(other));
    // The row of each beginning of `one`: its distance from each beginning of `other`.
    let mut rows: Vec<Vec<usize>> = vec![(0..=other.len()).collect()];
    for i in 1..=one.len() {
        let mut row = vec![i];
        for j in 1..=other.len() {
            let replaced = rows[i - 1][j - 1] + usize::from(one[i - 1] != other[j - 1]);
            let mut least = replaced.min(rows[i - 1][j] + 1).min(row[j - 1] + 1);
            if i > 1 && j > 1 && one[i - 1] == other[j - 2] && one[i - 2] == other[j - 1] {
                least = least.min(rows[i - 2][j - 2] + 1);
            }
            row.push(least);
        }
        rows.push(row);
    }
    rows[one.len()][other.len()]
}
