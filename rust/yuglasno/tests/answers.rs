//! docs/ANSWERS.md has the meanings that the crate and `transfer --help` have, number by number.
use std::process::Command;
use yuglasno::MEANINGS;

/// The rows of the page's tables, by their cells.
fn rows() -> Vec<Vec<String>> {
    let page = std::fs::read_to_string(concat!(env!("CARGO_MANIFEST_DIR"), "/../../docs/ANSWERS.md")).unwrap();
    let cells = |line: &str| line.trim_matches('|').split('|').map(|cell| cell.trim().to_string()).collect();
    page.lines().filter(|line| line.starts_with("| ")).map(cells).collect()
}

/// The page's rows of so many cells, as number and the meaning in this cell.
fn listed(cells: usize, meaning: usize) -> Vec<(u32, String)> {
    let of_table = rows().into_iter().filter(|row| row.len() == cells);
    of_table.filter_map(|row| Some((row[0].parse().ok()?, row[meaning].clone()))).collect()
}

#[test]
fn the_page_has_every_answer() {
    let meanings: Vec<_> = MEANINGS.map(|(number, text)| (number, text.to_string())).into();
    assert_eq!(listed(6, 2), meanings);
}

#[test]
fn the_page_has_every_exit_status() {
    let help = Command::new(env!("CARGO_BIN_EXE_transfer")).arg("--help").output().unwrap().stdout;
    let help = String::from_utf8(help).unwrap();
    let (_, statuses) = help.split_once("exit status").unwrap();
    let said = statuses.lines().filter_map(|line| {
        let (number, meaning) = line.trim_start().split_once("  ")?;
        Some((number.parse::<u32>().ok()?, meaning.to_string()))
    });
    let own: Vec<_> = said.filter(|(number, _)| *number >= 64).collect();
    assert!(own.len() >= 7);
    assert_eq!(listed(3, 1), own);
}
