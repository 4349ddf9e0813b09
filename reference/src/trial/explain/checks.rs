//! What must hold of an explanation by its text alone, and of what the program
//! `wheat` prints for the same file.

use crate::reading::explain::COLUMNS;
use std::collections::BTreeMap;

/// Why this text is no explanation of the file for which `wheat` prints that.
pub fn fault(text: &[u8], wheat: &[u8]) -> Option<String> {
    let checked = shape(text).and_then(|text| {
        let wheat = std::str::from_utf8(wheat).map_err(|_| "WHEAT printed no text")?;
        let rows: Vec<&str> = text.lines().collect();
        match wheat.starts_with("register ") {
            true => {
                listing(&rows, wheat)?;
                terminated(&rows, wheat)
            }
            false => refused(&rows, wheat),
        }
    });
    checked.err()
}

/// The first row that two texts do not share.
pub fn first_difference(wanted: &[u8], printed: &[u8]) -> Option<String> {
    if wanted == printed {
        return None;
    }
    let rows = |bytes: &[u8]| -> Vec<String> {
        let rows = bytes.split(|&byte| byte == b'\n');
        rows.map(|row| String::from_utf8_lossy(row).into_owned())
            .collect()
    };
    let (own, theirs) = (rows(wanted), rows(printed));
    let alike = own.iter().zip(&theirs).take_while(|(a, b)| a == b).count();
    let row = |rows: &[String]| match rows.get(alike) {
        Some(row) => format!("{:?}", row.chars().take(200).collect::<String>()),
        None => "no row".to_string(),
    };
    let (own, theirs) = (row(&own), row(&theirs));
    Some(format!(
        "row {}: wanted is {own}, the program has {theirs}",
        alike + 1
    ))
}

/// ASCII in rows of at most 100 columns, the last ended too.
fn shape(text: &[u8]) -> Result<&str, String> {
    if let Some(at) = text.iter().position(|byte| !matches!(byte, 10 | 32..=126)) {
        return Err(format!("byte {at} is {}", text[at]));
    }
    let text = std::str::from_utf8(text).expect("ASCII");
    if !text.ends_with('\n') {
        return Err("the text does not end in byte 10".to_string());
    }
    match text.lines().position(|row| row.len() > COLUMNS) {
        Some(row) => Err(format!("row {} is longer than {COLUMNS} columns", row + 1)),
        None => Ok(text),
    }
}

/// The last row of a refused file is the one that `wheat` prints.
fn refused(rows: &[&str], wheat: &str) -> Result<(), String> {
    let last = rows.last().unwrap_or(&"");
    match format!("{last}\n") == wheat {
        true => Ok(()),
        false => Err(format!("the last row is {last:?}, and WHEAT has {wheat:?}")),
    }
}

/// The rows from `register` to the empty one before `DEMAND 3` are the listing.
fn listing(rows: &[&str], wheat: &str) -> Result<(), String> {
    let from = place(rows, "register ")?;
    let to = place(rows, "DEMAND 3")?;
    if to <= from || !rows[to - 1].is_empty() {
        return Err("no empty row between register and DEMAND 3".to_string());
    }
    let wanted: Vec<&str> = wheat.lines().collect();
    match rows[from..to - 1] == wanted {
        true => Ok(()),
        false => Err("the listing is not WHEAT's".to_string()),
    }
}

/// Where the one row stands that begins like this.
fn place(rows: &[&str], start: &str) -> Result<usize, String> {
    let places = rows.iter().enumerate();
    let mut places = places.filter(|(_, row)| row.starts_with(start));
    match (places.next(), places.next()) {
        (Some((place, _)), None) => Ok(place),
        (None, _) => Err(format!("no row begins with {start:?}")),
        (_, Some(_)) => Err(format!("two rows begin with {start:?}")),
    }
}

/// The lots that steps 1 to 3 terminate, added up by section, are those that
/// `wheat` prints.
fn terminated(rows: &[&str], wheat: &str) -> Result<(), String> {
    let mut wheat = wheat.lines();
    let lines = wheat
        .next()
        .and_then(|row| row.split(' ').nth(1)?.parse().ok());
    let lines: usize = lines.ok_or("WHEAT has no line count")?;
    let mut sums: BTreeMap<&str, u64> = BTreeMap::new();
    let steps = place(rows, "Step 1.")?..place(rows, "Step 4.")?;
    let mut section = "";
    for row in rows.get(steps).ok_or("step 4 comes before step 1")? {
        section = of_section(row).unwrap_or(section);
        if let Some((section, lots)) = fails(row, section).or_else(|| gives(row)) {
            *sums.entry(section).or_default() += lots;
        }
    }
    for row in wheat.skip(lines) {
        let fields: Vec<&str> = row.split(' ').collect();
        let (code, printed) = (fields[0], fields.get(2).unwrap_or(&"none"));
        let told = sums.remove(code).unwrap_or(0);
        if told.to_string() != *printed {
            return Err(format!(
                "the steps terminate {told} lots of {code}, and WHEAT has {printed}"
            ));
        }
    }
    match sums.first_key_value() {
        Some((code, _)) => Err(format!(
            "lots of {code} are terminated, which WHEAT has not"
        )),
        None => Ok(()),
    }
}

/// The section of a row `@ code #, position ..` of step 1.
fn of_section(row: &str) -> Option<&str> {
    let (section, rest) = row.split_once(" code ")?;
    (section.len() == 7 && rest.contains(", position ")).then_some(section)
}

/// The lots of a row `its # lots are terminated`.
fn fails<'a>(row: &str, section: &'a str) -> Option<(&'a str, u64)> {
    let lots = row.strip_prefix("    its ")?;
    let lots = lots.strip_suffix(" lots are terminated")?;
    Some((section, lots.parse().ok()?))
}

/// The section and the lots of a row in which one gives.
fn gives(row: &str) -> Option<(&str, u64)> {
    let (section, rest) = row.strip_prefix("    ")?.split_once(' ')?;
    let (_, lots) = rest.split_once(" lots and gives ")?;
    let (lots, _) = lots.split_once(';')?;
    Some((section, lots.parse().ok()?))
}
