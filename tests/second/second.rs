//! The second program: a plain, slow reading of the definition, the judge of tests.
//! Another program takes it in with `#[path = "second/second.rs"] mod second;`.
#![allow(dead_code)] // one program seldom uses every part

pub mod class;
pub mod depth;
pub mod design;
pub mod gauge;
pub mod print;
pub mod random;
pub mod sheet;
pub mod speed;
pub mod typed;
pub mod width;
pub mod worksheet;

/// "Rounded up", of a quotient that is not negative.
pub fn rounded_up(above: i64, below: i64) -> i64 {
    let whole = above / below;
    if whole * below == above {
        whole
    } else {
        whole + 1
    }
}
