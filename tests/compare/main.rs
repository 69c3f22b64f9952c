//! Runs the proved rooms beside the second program on many inputs, and stops at the first difference.
//! `compare NAME` runs one comparison; a comparison that differs, or runs too few cases, ends with status 1.

#[path = "../second/second.rs"]
mod second;

#[allow(dead_code)] // what the second program alone is held to
#[path = "../second/figures.rs"]
mod figures;

#[allow(dead_code)] // likewise
#[path = "../second/typed_figures.rs"]
mod typed_figures;

mod depths;
mod designs;
mod gauges;
mod handles;
mod harder;
mod parts;
mod plans;
mod printing;
mod program;
mod proved;
mod report;
mod sheets;
mod speeds;
mod texts;
mod typing;
mod widths;
mod worked;
mod worksheets;

fn main() {
    let name = std::env::args().nth(1).unwrap_or_default();
    match name.as_str() {
        "reading-sheets" => sheets::reading(),
        "making-sheets" => sheets::making(),
        "writing-sheets" => sheets::writing(),
        "adding-readings" => gauges::adding(),
        "design-levels" => gauges::levels(),
        "depths" => depths::depths(),
        "widths" => widths::widths(),
        "speeds" => speeds::speeds(),
        "worked-examples" => worked::worked(),
        "plans" => plans::plans(),
        "designs" => designs::designs(),
        "figures-proved" => proved::figures(),
        "harder" => harder::harder(),
        "printing" => printing::printing(),
        "typing" => typing::typing(),
        "showing" => typing::showing(),
        "worksheets" => worksheets::worksheets(),
        _ => {
            eprintln!("compare: no comparison is called '{name}'");
            std::process::exit(2);
        }
    }
}
