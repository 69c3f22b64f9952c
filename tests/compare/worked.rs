//! The sources' worked examples as sheets, through the printing program and the second program.
//!
//! docs/EXAMPLES.md is made from them: `target/compare worked-examples --page` prints it, and the comparison fails
//! where the page is not what would be printed. worked.md has its words; what stands there in braces is put in here.

use std::collections::HashMap;

use crate::program::{forget, printed};
use crate::report::Report;
use crate::second::depth::{column_of, sailing_depth, z0, z1, z3, z4, Inputs};
use crate::second::design::{design_at, Answer};
use crate::second::print;
use crate::second::sheet::{pack, Sheet, FIELDS, TABLE};
use crate::second::width::{items, tenths, Items};

const PAGE: &str = "docs/EXAMPLES.md";
const WORDS: &str = include_str!("worked.md");

type Figures = [i64; FIELDS];

/// The ore ship of examples 1 and 2.
const E1: Figures = [
    200_000, 2_000, 30_000, 5_000, 10, 1_200, 0, 0, 0, 3, 1, 18_520, 100, 0, 1, 25, 11, 11, 99, 2,
    0, 0, 0, 0, 0, 0, 1, 1_000, 0,
];

/// The tanker of example 3, in two lanes.
const TANKER: Figures = [
    60_000, 1_300, 23_600, 3_225, 10, 800, 0, 0, 0, 3, 2, 18_520, 2_400, 0, 1, 25, 0, 10, 0, 1, 0,
    1, 0, 0, 0, 0, 1, 500, 0,
];

/// The ship of 10,000 t in the approach to the Ha Long cement works, example 4.
const H1: Figures = [
    10_000, 820, 14_300, 1_920, 9, 297, 0, 0, 0, 3, 1, 2_500, 52, 1, 1, 30, 2, 16, 99, 2, 0, 1, 0,
    0, 0, 0, 1, 775, 0,
];

/// The ship of 001's annex IV, silting 0.18 a year.
const A4: Figures = [
    10_000, 800, 13_000, 1_800, 8, 300, 0, 19, 180, 2, 1, 18_000, 100, 0, 1, 0, 0, 0, 200, 0, 0, 0,
    0, 0, 0, 0, 1, 500, 0,
];

/// What makes example 2 of example 1, the other two ships of example 3 of its tanker, and two lanes of one.
const E2: &[(usize, i64)] = &[(12, 9_260), (16, 18), (17, 16), (18, 0), (28, 920)];
const CONTAINER: &[(usize, i64)] = &[(1, 50_000), (2, 1_200), (3, 26_400), (15, 2), (22, 0)];
const GAS: &[(usize, i64)] = &[
    (1, 20_000),
    (2, 800),
    (3, 16_500),
    (4, 3_000),
    (15, 2),
    (22, 2),
];
const H2: &[(usize, i64)] = &[(11, 2)];

/// Ships of 002's annex B in the approach of example 4: two general cargo ships and a tanker, with the least drafts.
const CARGO_5000: &[(usize, i64)] = &[(1, 5_000), (2, 640), (3, 10_500), (4, 1_580)];
const CARGO_2500: &[(usize, i64)] = &[(1, 2_500), (2, 500), (3, 8_500), (4, 1_300)];
const LIQUID_5000: &[(usize, i64)] = &[(1, 5_000), (2, 700), (3, 11_000), (4, 1_500)];

/// A ship's sheet, the changes to it (field, figure), and its line without the index.
struct Example {
    name: &'static str,
    ship: Figures,
    changes: &'static [&'static [(usize, i64)]],
    line: &'static str,
}

#[rustfmt::skip]
const EXAMPLES: &[Example] = &[
    Example { name: "E1", ship: E1, changes: &[], line: "0 0 500 1 2215 2215 1715 20500 0 1 0 0 0" },
    Example { name: "E1 with z2 85", ship: E1, changes: &[&[(8, 85)]], line: "0 0 500 1 2300 2300 1800 20500 0 1 0 0 0" },
    Example { name: "E1 sheltered", ship: E1, changes: &[&[(14, 1)]], line: "0 0 500 1 2215 2215 1715 20500 0 1 0 0 0" },
    Example { name: "E1 sheltered with z2 85", ship: E1, changes: &[&[(8, 85), (14, 1)]], line: "0 0 500 1 2300 2300 1800 19500 0 1 0 0 0" },
    Example { name: "E1 by traffic, 2,399 ships", ship: E1, changes: &[&[(11, 0), (13, 2_399)]], line: "0 0 500 1 2215 2215 1715 20500 0 1 0 0 0" },
    Example { name: "E1 by traffic, 2,400 ships", ship: E1, changes: &[&[(11, 0), (13, 2_400)]], line: "0 0 500 2 2265 2265 1765 44000 0 1 0 0 0" },
    Example { name: "E2", ship: E1, changes: &[E2], line: "0 0 420 1 2215 2215 1795 22000 0 1 0 0 0" },
    Example { name: "E2 with z2 5", ship: E1, changes: &[E2, &[(8, 5)]], line: "0 0 420 1 2220 2220 1800 22000 0 1 0 0 0" },
    Example { name: "E2 with cross current 15", ship: E1, changes: &[E2, &[(17, 15)]], line: "0 0 420 1 2215 2215 1795 20500 0 1 0 0 0" },
    Example { name: "E2 sheltered", ship: E1, changes: &[E2, &[(14, 1)]], line: "8 0 0 0 0 0 0 0 0 0 0 0 0" },
    Example { name: "E2 sheltered with cross current 15", ship: E1, changes: &[E2, &[(14, 1), (17, 15)]], line: "0 0 420 1 2215 2215 1795 20500 0 1 0 0 0" },
    Example { name: "E3 tanker", ship: TANKER, changes: &[], line: "0 0 0 2 1521 1521 1521 26445 0 1 0 0 0" },
    Example { name: "E3 tanker with 2,401 ships", ship: TANKER, changes: &[&[(13, 2_401)]], line: "0 0 0 2 1521 1521 1521 27090 0 1 0 0 0" },
    Example { name: "E3 container", ship: TANKER, changes: &[CONTAINER], line: "0 0 0 2 1424 1424 1424 25155 0 1 0 0 0" },
    Example { name: "E3 gas", ship: TANKER, changes: &[GAS], line: "0 0 0 2 984 984 984 29400 0 1 1 0 2" },
    Example { name: "E3 gas with z2 15", ship: TANKER, changes: &[GAS, &[(8, 15)]], line: "0 0 0 2 999 999 999 29400 0 1 1 0 2" },
    Example { name: "E3 gas with z2 16", ship: TANKER, changes: &[GAS, &[(8, 16)]], line: "0 0 0 2 1000 1000 1000 28800 0 1 1 0 2" },
    Example { name: "E3 gas with z2 215", ship: TANKER, changes: &[GAS, &[(8, 215)]], line: "0 0 0 2 1199 1199 1199 28800 0 1 1 0 1" },
    Example { name: "E3 gas with z2 216", ship: TANKER, changes: &[GAS, &[(8, 216)]], line: "0 0 0 2 1200 1200 1200 27600 0 1 1 0 1" },
    Example { name: "E3 gas with z2 300", ship: TANKER, changes: &[GAS, &[(8, 300)]], line: "0 0 0 2 1284 1284 1284 27600 0 1 1 0 1" },
    Example { name: "E3 gas with z2 216, 2,401 ships", ship: TANKER, changes: &[GAS, &[(8, 216), (13, 2_401)]], line: "0 0 0 2 1200 1200 1200 28200 0 1 1 0 1" },
    Example { name: "H1", ship: H1, changes: &[], line: "0 0 275 1 934 934 659 8064 0 1 2 2 2" },
    Example { name: "H1 by traffic", ship: H1, changes: &[&[(11, 0)]], line: "0 0 275 1 934 934 659 8064 0 1 2 2 2" },
    Example { name: "H1 at 6 knots", ship: H1, changes: &[&[(5, 6)]], line: "0 0 275 1 909 909 634 7872 0 1 2 2 2" },
    Example { name: "H1 at 8 knots", ship: H1, changes: &[&[(5, 8)]], line: "0 0 275 1 924 924 649 8064 0 1 2 2 2" },
    Example { name: "H1 at 10 knots", ship: H1, changes: &[&[(5, 10)]], line: "0 0 275 1 949 949 674 7680 0 1 2 2 2" },
    Example { name: "H1 with wind 78", ship: H1, changes: &[&[(16, 78)]], line: "0 0 275 1 934 934 659 8832 0 1 2 2 2" },
    Example { name: "H1 with cargo 0", ship: H1, changes: &[&[(22, 0)]], line: "0 0 275 1 934 934 659 7296 0 1 2 2 2" },
    Example { name: "H1 in open water", ship: H1, changes: &[&[(14, 0)]], line: "0 0 275 1 934 934 659 8064 0 1 2 2 2" },
    Example { name: "H1 with cross 16, along 2", ship: H1, changes: &[&[(17, 16), (18, 2)]], line: "8 0 0 0 0 0 0 0 0 0 0 0 0" },
    Example { name: "H2", ship: H1, changes: &[H2], line: "0 0 275 2 969 969 694 16128 0 1 2 2 2" },
    Example { name: "H2 at 8 knots", ship: H1, changes: &[H2, &[(5, 8)]], line: "0 0 275 2 954 954 679 16128 0 1 2 2 2" },
    Example { name: "H2 at 8 knots, length 9,600", ship: H1, changes: &[H2, &[(5, 8), (3, 9_600)]], line: "0 0 275 2 942 942 667 16896 0 1 2 2 2" },
    Example { name: "H2 at 8 knots, length 9,601", ship: H1, changes: &[H2, &[(5, 8), (3, 9_601)]], line: "0 0 275 2 943 943 668 16128 0 1 2 2 2" },
    Example { name: "A4", ship: A4, changes: &[], line: "0 0 0 1 934 997 997 6840 0 2 2 3 2" },
    Example { name: "A4 with two lanes at 5 knots", ship: A4, changes: &[&[(11, 2), (5, 5)]], line: "0 0 0 2 919 981 981 11520 0 2 2 4 2" },
    Example { name: "B cargo 5,000", ship: H1, changes: &[CARGO_5000], line: "3 2 0 0 0 0 0 0 0 0 0 0 0" },
    Example { name: "B cargo 2,500", ship: H1, changes: &[CARGO_2500], line: "3 2 0 0 0 0 0 0 0 0 0 0 0" },
    Example { name: "B liquid 5,000", ship: H1, changes: &[LIQUID_5000], line: "0 0 275 1 801 801 526 6300 0 1 3 3 3" },
];

/// The sheets that the page shows whole, each with its fields that the source does not give.
#[rustfmt::skip]
const SHEETS: &[(&str, &[usize])] = &[
    ("E1", &[1, 7, 8, 9, 10, 13]),
    ("E2", &[1, 7, 8, 9, 10, 13]),
    ("E3 tanker", &[1, 7, 8, 9, 10, 12, 28]),
    ("E3 container", &[1, 7, 8, 9, 10, 12, 28]),
    ("E3 gas", &[1, 7, 8, 9, 10, 12, 28]),
    ("H1", &[6, 10, 28]),
    ("H2", &[6, 10, 28]),
    ("A4", &[1, 11, 13, 14, 15, 16, 17, 18, 20, 21, 22, 23, 24, 25, 26, 28]),
];

fn example_of(name: &str) -> &'static Example {
    let found = EXAMPLES.iter().find(|example| example.name == name);
    found.unwrap_or_else(|| panic!("no example is called '{name}'"))
}

fn sheet_of(example: &Example) -> Sheet {
    let mut figures = example.ship;
    for &(field, figure) in example.changes.iter().copied().flatten() {
        figures[field - 1] = figure;
    }
    Sheet { figures }
}

fn bytes_of(example: &Example) -> Vec<u8> {
    pack(&sheet_of(example).figures).to_vec()
}

/// A number with a comma before each three digits.
fn grouped(number: i64) -> String {
    if number < 1_000 {
        number.to_string()
    } else {
        format!("{},{:03}", grouped(number / 1_000), number % 1_000)
    }
}

/// The figures of an example by the words that the page asks for them with, all by the second program; items are in
/// tenths of the beam, for all lanes together.
fn worked_out(example: &Example) -> HashMap<&'static str, String> {
    let sheet = sheet_of(example);
    let answer = design_at(&bytes_of(example), Err(4));
    let mut figures = HashMap::from([
        ("code", answer.code),
        ("field", answer.field),
        ("s", answer.s),
        ("cut", answer.cut),
        ("datum depth", answer.datum_depth),
        ("width", answer.width),
        ("columns", answer.columns_tried),
        ("lanes", answer.lanes),
    ]);
    if answer.code == 0 {
        figures.extend(depth_figures(&sheet, &answer));
        let items = items(&sheet, answer.lanes, answer.s).expect("an answered sheet has items");
        figures.extend(item_figures(&items, answer.lanes));
    }
    figures
        .into_iter()
        .map(|(word, figure)| (word, grouped(figure)))
        .collect()
}

fn depth_figures(sheet: &Sheet, answer: &Answer) -> [(&'static str, i64); 6] {
    let inputs = Inputs::of(sheet, answer.level, answer.lanes);
    let column = column_of(&inputs, answer.cut);
    let squat = z3(&inputs, column).expect("the cut's column has an entry");
    assert_eq!(sailing_depth(&inputs, column), Some(answer.s));
    [
        ("draft", inputs.draft),
        ("z0", z0(&inputs)),
        ("z1", z1(&inputs)),
        ("z2", inputs.z2),
        ("z3", squat),
        ("z4", z4(&inputs, answer.s, answer.cut)),
    ]
}

fn item_figures(items: &Items, lanes: i64) -> [(&'static str, i64); 13] {
    [
        ("lane", lanes * items.lane),
        ("wind", lanes * items.wind),
        ("cross", lanes * items.cross),
        ("along", lanes * items.along),
        ("wave", lanes * items.wave),
        ("aids", lanes * items.aids),
        ("bed", lanes * items.bed),
        ("depth", lanes * items.depth),
        ("cargo", lanes * items.cargo),
        ("banks", items.banks),
        ("passing", items.passing),
        ("traffic", items.traffic),
        ("tenths", tenths(items, lanes)),
    ]
}

/// What stands on the page for the words of a pair of braces.
fn figure_for(words: &str) -> String {
    let (name, word) = match words {
        "sheets" => return sheets_table(),
        "lines" => return lines_table(),
        _ => words.split_once(": ").expect("an example and a word"),
    };
    let figure = worked_out(example_of(name)).remove(word);
    figure.unwrap_or_else(|| panic!("'{name}' has no '{word}'"))
}

/// A row for each field, a column for each sheet.
fn sheets_table() -> String {
    let names: Vec<&str> = SHEETS.iter().map(|(name, _)| *name).collect();
    let mut table = format!("| field | {} |\n", names.join(" | "));
    table += &format!("|---{}|", "|---".repeat(names.len()));
    for (place, row) in TABLE.iter().enumerate() {
        table += &format!("\n| {} {} |", place + 1, row.name);
        for (name, free) in SHEETS {
            let figure = grouped(sheet_of(example_of(name)).figures[place]);
            let mark = if free.contains(&(place + 1)) { "*" } else { "" };
            table += &format!(" {figure}{mark} |");
        }
    }
    table
}

/// A row for each example.
fn lines_table() -> String {
    let mut table = "| sheet | tenths | line |\n|---|---|---|".to_string();
    for example in EXAMPLES {
        let figures = worked_out(example);
        let tenths = figures.get("tenths").map_or("–", |tenths| tenths);
        table += &format!("\n| {} | {tenths} | {} |", example.name, example.line);
    }
    table
}

fn page() -> String {
    let mut page = String::new();
    let mut left = WORDS;
    while let Some((before, after)) = left.split_once('{') {
        let (words, behind) = after.split_once('}').expect("a closing brace");
        page += before;
        page += &figure_for(words);
        left = behind;
    }
    page + left
}

/// The page that is there must be the one that would be printed.
fn page_is_fresh() {
    let (there, wanted) = (std::fs::read_to_string(PAGE).unwrap_or_default(), page());
    if there != wanted {
        let same = there
            .lines()
            .zip(wanted.lines())
            .take_while(|(a, b)| a == b);
        println!(
            "worked examples: {PAGE} is stale from line {} on",
            same.count() + 1
        );
        println!("  `target/compare worked-examples --page >{PAGE}` writes it anew");
        std::process::exit(1);
    }
}

/// The lines of the sheets without their indexes.
fn lines_of(text: &str) -> Vec<String> {
    let sheets = text.lines().filter(|line| !line.starts_with(['L', 'R']));
    sheets
        .map(|line| line.split_once(' ').expect("an index").1.to_string())
        .collect()
}

pub fn worked() {
    if std::env::args().nth(2).is_some_and(|word| word == "--page") {
        return print!("{}", page());
    }
    page_is_fresh();
    let mut report = Report::new("worked examples", 2 * EXAMPLES.len() as u64 + 1);
    let input: Vec<u8> = EXAMPLES.iter().flat_map(bytes_of).collect();
    let proved = lines_of(&String::from_utf8_lossy(&printed("worked", None, &input)));
    let second = lines_of(&print::text(None, &input));
    report.case(proved.len(), EXAMPLES.len(), || "a line a sheet".into());
    for ((proved, second), example) in proved.iter().zip(&second).zip(EXAMPLES) {
        report.case(&**proved, example.line, || example.name.into());
        report.case(&**second, example.line, || example.name.into());
    }
    forget("worked");
    report.end();
}
