"""A small repository for the tests of this folder: three crates, of which the last one is the program."""
from __future__ import annotations

from pathlib import Path

FILES = {
    "crates.txt": "low:\nmiddle: low itoa\ntop: low middle\n",
    "crates/low/src/lib.rt": '''//! Shapes, and what they have
//! in common. More of them.

mod shape;

pub use shape::{Circle, Shape, Square, area_law, largest};
''',
    "crates/low/src/shape.rt": '''//! Shapes.

ghost use Rattle.low.specs.Shapes.{IsArea};

/// What has an area.
pub trait Shape {
    ghost sides: { Self → ℕ };

    /// The area of it.
    fn area(&self) -> u64
        ensures value { IsArea result };

    /// Twice the area: it is asked twice.
    fn double(&self) -> u64 {
        self.area() * 2
    }
}

/// A circle of a size.
#[derive(Clone, Copy)]
pub struct Circle {
    pub(crate) size: u64,
    ghost some: { 1 ≤ size },
}

/// A square.
pub struct Square<'a> {
    pub sides: &'a [u64],
}

impl Circle {
    /// A circle; "{" is no brace.
    pub fn of(size: u64) -> Circle
        requires { 1 ≤ size }
        ensures size { result.size ≡ size }
    {
        let told = "}";
        Circle { size }
    }
}

impl Shape for Circle {
    fn area(&self) -> u64 {
        squared(self.size)
    }
}

impl<'a> Shape for Square<'a> {
    fn area(&self) -> u64 {
        corner(self.sides[0])
    }
}

/// The square of a number.
fn squared(number: u64) -> u64 {
    number * number
}

/// A corner.
fn corner(number: u64) -> u64 {
    number
}

/// The largest area, where there is one, and else the error '{'.
pub fn largest<S: Shape, const N: usize>(shapes: &[S], least: Option<(u64, u64)>) -> Result<u64, char>
where
    S: Copy,
{
    for shape in shapes {
        if shape.double() > 0 {
            return Ok(shape.area());
        }
    }
    Err('{')
}

/// Areas are positive.
pub fn area_law()
    ensures { (n : ℕ) → 0 ≤ n }
{}
''',
    "crates/middle/src/lib.rt": '''//! Choices.

mod pick;

pub use pick::{Pick, picked};
''',
    "crates/middle/src/pick.rt": '''//! One of several.

use low::{Circle, Shape, Square, area_law, largest};

/// What is picked.
pub enum Pick {
    Round(Circle),
    Cornered(u64, u64),
    Nothing,
}

/// The area of what is picked.
pub fn picked(pick: &Pick) -> Result<u64, char> {
    area_law();
    match pick {
        Pick::Round(circle) => largest(&[*circle], None),
        Pick::Cornered(first, _) => Ok(cornered(*first)),
        Pick::Nothing => refused(),
    }
}

/// The area of a square.
fn cornered(side: u64) -> u64 {
    let sides = [side];
    let square = Square { sides: &sides };
    square.area()
}

/// The area of a square, for C.
#[unsafe(no_mangle)]
pub extern "C" fn area_of(side: u64) -> u64 {
    cornered(side)
}

/// Nothing has no area.
fn refused() -> Result<u64, char> {
    Err('0')
}

#[test]
fn picks_nothing() {
    assert!(refused().is_err());
}
''',
    "crates/top/src/main.rt": '''//! The program.

use low::Circle;
use middle::{Pick, picked};

fn main(rt: HostRuntime) -> ExitCode {
    let pick = Pick::Round(Circle::of(3));
    match picked(&pick) {
        Ok(area) => shown(area),
        Err(_) => failed(),
    }
}

/// The end where the area is shown.
fn shown(area: u64) -> ExitCode {
    ExitCode::from(0)
}

/// The end where there is none.
fn failed() -> ExitCode {
    ExitCode::from(1)
}
''',
    "crates/low/specs/Shapes.antt": '''-- What shapes have: their areas.
-- For all shapes.
use Rattle.std.specs.Prelude.{◌≡◌, ℕ}
pub use Rattle.low.specs.Sides.{sides_of as sides}
use Rattle.low.specs.Sides as these

-- the area
-- of a shape
abbrev pub IsArea : ℕ
    → Type 0
IsArea zero = Unit
IsArea (suc n) = ℕ

-- ---- others

pub record Shown (n : ℕ) : Type 0 where
  pub first : ℕ
  -- the second
  pub second : ℕ

pub data Way : Type 0 where
  up : Way
  down : Way

abbrev hidden : ℕ
hidden = 3
''',
    "crates/low/proofs/Lib.antt": "mod Own\npub mod Shared\n",
    "crates/low/must-fail/area.edit": '''breaks: `area` is the area; here it is one more.
refused by: value (shape/CircleShape/area)
file: src/shape.rt
old:         squared(self.size)
new:         squared(self.size) + 1
old: number * number
new: number
''',
}


def plant(folder: Path) -> Path:
    """Writes the repository into a folder."""
    for name, text in FILES.items():
        path = folder / name
        path.parent.mkdir(parents=True, exist_ok=True)
        path.write_text(text)
    return folder
