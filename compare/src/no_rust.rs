//! In the place of the Rust where it is not at hand.

use crate::lent::{Settings, Tree};
use crate::model::{Consult, End};

pub const AT_HAND: bool = false;

pub fn ask(_: &Tree, _: &Settings, _: &[u8], _: &[u8]) -> Result<(End, Vec<Consult>), String> {
    Err("the Rust is not at hand".into())
}
