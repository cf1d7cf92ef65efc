//! The page whose tables the program writes, seen from the folder of the repository.

use std::fs;

const PAGE: &str = "docs/BENCHMARKS.md";
const END: &str = "<!-- end -->";

/// A table as it stands on the page, between its two comments.
pub fn marked(name: &str, table: &str) -> String {
    format!("{}\n{table}\n{END}", begin(name))
}

fn begin(name: &str) -> String {
    format!("<!-- table {name} -->\n")
}

/// The page with one table replaced; none where its comments are not there, once.
fn replaced(page: &str, name: &str, table: &str) -> Option<String> {
    let (before, rest) = page.split_once(&begin(name))?;
    let (old, after) = rest.split_once(END)?;
    let once = !old.contains("<!--") && !after.contains(&begin(name));
    once.then(|| format!("{before}{}{after}", marked(name, table)))
}

/// Whether the page has a place for a table.
pub fn check(name: &str) -> Result<(), String> {
    with(name, "").map(drop)
}

pub fn write(name: &str, table: &str) -> Result<(), String> {
    let page = with(name, table)?;
    fs::write(PAGE, page).map_err(|why| format!("{PAGE}: {why}"))
}

fn with(name: &str, table: &str) -> Result<String, String> {
    let page = fs::read_to_string(PAGE).map_err(|why| format!("{PAGE}: {why}"))?;
    replaced(&page, name, table).ok_or(format!("{PAGE} has no one place for the table {name}"))
}

#[cfg(test)]
mod tests {
    use super::{marked, replaced};

    #[test]
    fn one_table_is_replaced_and_nothing_else() {
        let page = |table: &str| format!("above\n\n{}\n\nbetween\n\n{}\nbelow\n", marked("one", table), marked("two", "kept\n"));
        assert_eq!(replaced(&page("old\n"), "one", "new\n"), Some(page("new\n")));
        assert_eq!(replaced(&page("old\n"), "three", "new\n"), None);
        assert_eq!(replaced(&(page("old\n") + &page("old\n")), "one", "new\n"), None);
    }
}
