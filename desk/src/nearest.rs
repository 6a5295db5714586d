//! The name that was perhaps meant.

/// Longer names are not compared.
const MOST_LETTERS: usize = 40;

/// A name's letters, all small; nothing if they are too many.
struct Letters {
    all: [char; MOST_LETTERS],
    size: usize,
}

fn letters(name: &str) -> Option<Letters> {
    let mut letters = Letters { all: [' '; MOST_LETTERS], size: 0 };
    for letter in name.chars().flat_map(char::to_lowercase) {
        *letters.all.get_mut(letters.size)? = letter;
        letters.size += 1;
    }
    Some(letters)
}

/// How many letters have to be changed, added, left out or swapped to make the one name of the other; nothing if it is more than `far`.
fn distance(a: &[char], b: &[char], far: usize) -> Option<usize> {
    let more = far as u8 + 1;
    let mut rows = [[more; MOST_LETTERS + 1]; 3];
    (0..=far.min(b.len())).for_each(|j| rows[0][j] = j as u8);
    for i in 1..=a.len() {
        let (now, last, before) = (i % 3, (i + 2) % 3, (i + 1) % 3);
        rows[now] = [more; MOST_LETTERS + 1];
        rows[now][0] = more.min(i as u8);
        let mut least = rows[now][0];
        for j in i.saturating_sub(far).max(1)..=b.len().min(i + far) {
            let changed = rows[last][j - 1] + u8::from(a[i - 1] != b[j - 1]);
            let mut cell = changed.min(rows[last][j] + 1).min(rows[now][j - 1] + 1);
            if i > 1 && j > 1 && a[i - 1] == b[j - 2] && a[i - 2] == b[j - 1] {
                cell = cell.min(rows[before][j - 2] + 1);
            }
            rows[now][j] = cell.min(more);
            least = least.min(cell);
        }
        if least > far as u8 {
            return None;
        }
    }
    Some(rows[a.len() % 3][b.len()] as usize).filter(|distance| *distance <= far)
}

/// The nearest of these names, if it is near enough: a third of the letters may differ, one at least, but not all.
pub fn nearest<'a>(name: &str, among: impl Iterator<Item = &'a str>) -> Option<&'a str> {
    let own = letters(name)?;
    let far = (own.size / 3).max(1);
    let near = |other: &str| {
        let other = letters(other).filter(|other| own.size.abs_diff(other.size) <= far)?;
        let distance = distance(&own.all[..own.size], &other.all[..other.size], far)?;
        (distance < own.size.max(other.size)).then_some(distance)
    };
    let measured = among.filter_map(|other| Some((near(other)?, other)));
    measured.min_by_key(|(distance, _)| *distance).map(|(_, other)| other)
}

/// The same as the end of a message.
pub fn meant<'a>(name: &str, among: impl Iterator<Item = &'a str>) -> String {
    nearest(name, among).map_or(String::new(), |other| format!("; did you mean '{other}'?"))
}
