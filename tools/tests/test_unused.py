"""tools/unused on a small repository: what it lists, and what it knows to be needed."""

import pathlib
import tempfile
import unittest

from zolfigar import unused

FILES = {
    "README.md": "`quoted` is what it proves. `open(file)` is for callers.\n",
    "docs/ARCHITECTURE.md": "`Cases.antt` has cases.\n",
    "crates/low/specs/Terms.antt": """-- Terms. `never` stands in a comment: never.
use Prim.Native.Nat.{ℕ, ◌+◌, ◌<◌}
use lib.ListN.{
  length,
  take as first
}
use lib.Dec as dec

abbrev pub twice : ℕ → ℕ
twice n = n + n

abbrev pub inner : ℕ → ℕ
inner n = twice n

abbrev never : ℕ → ℕ
never n = never (inner n)

pub record Pair (a : ℕ) : Type 0 where
  pub left : inner a ≡ first a

module _ (n : ℕ)
    (m : ℕ) where
  pub quoted : Pair n
  quoted = search needs
    where
      local : ℕ
      local = n
""",
    "crates/low/proofs/Cases.antt": """use Rattle.low.specs.Terms.{twice}

pub one : twice 1 ≡ 2
one = helped

helped : twice 1 ≡ 2
helped = refl

other : twice 1 ≡ 2
other = refl
""",
    "crates/low/src/lib.rt": """pub mod parts;
use parts::{
    Shape, Size,
};
pub use parts::size_of;
pub use parts::handed_on;
ghost use Rattle.low.specs.Terms.{twice, inner};

pub fn open(file: &[u8]) -> usize
    ensures { result ≡ twice result }
{
    parts::reader(file)
}

#[unsafe(no_mangle)]
pub extern "C" fn low_ok(s: &[u8]) -> u8 {
    size_of(Shape::Round)
}
""",
    "crates/low/src/parts.rt": """pub enum Shape {
    Round,
}

pub struct Size {
    pub n: u8,
}

pub fn size_of(shape: Shape) -> u8 {
    inside()
}

pub fn inside() -> u8 {
    LIMIT
}

pub fn reader(file: &[u8]) -> usize {
    edited()
}

pub fn handed_on() -> usize {
    edited()
}

fn left_over() -> u8 {
    left_over()
}

fn edited() -> usize {
    0
}

fn by_the_edit() -> usize {
    1
}

const LIMIT: u8 = 1;
""",
    "crates/low/out/rlib/proofs/Cases.antt": "spare : ℕ\nspare = 1\n",
    "crates/low/must-fail/other.edit": "# Another.\nfile: src/parts.rt\nold: edited()\nnew: by_the_edit()\n",
    "crates/high/specs/Ways.antt": """use Rattle.low.specs.Terms as terms
use Rattle.low.specs.declared.parts.Size.{Size}

abbrev pub way : Size
way = terms.twice 1
""",
    "crates/high/proofs/g/Answers.antt": """use Rattle.high.specs.Ways.{way}
use Rattle.high.proofs.g.Goals as goal

pub returns : goal.returns
returns c = helper

helper : way
helper = refl

spare : way
spare = refl
""",
    "crates/high/proofs/f/Proof.antt": """use Rattle.high.specs.Ways.{way}

pub f_spec : way
f_spec = refl
""",
}


class Unused(unittest.TestCase):
    def test_a_small_repository(self):
        with tempfile.TemporaryDirectory() as folder:
            for name, text in FILES.items():
                path = pathlib.Path(folder, name)
                path.parent.mkdir(parents=True, exist_ok=True)
                path.write_text(text, encoding="utf-8")
            found = [(str(path), line, name, why) for path, line, name, why in unused.listed(pathlib.Path(folder))]
        never, vain, own = "never used", "imported and not used", "pub for its own file alone"
        on = "pub use, and not used elsewhere"
        due = [
            ("crates/high/proofs/g/Answers.antt", 10, "spare", never),
            ("crates/low/proofs/Cases.antt", 9, "other", never),
            ("crates/low/specs/Terms.antt", 2, "◌<◌", vain),
            ("crates/low/specs/Terms.antt", 3, "length", vain),
            ("crates/low/specs/Terms.antt", 7, "dec", vain),
            ("crates/low/specs/Terms.antt", 12, "inner", own),
            ("crates/low/specs/Terms.antt", 15, "never", never),
            ("crates/low/specs/Terms.antt", 18, "Pair", own),
            ("crates/low/src/lib.rt", 2, "Size", vain),
            ("crates/low/src/lib.rt", 5, "size_of", on),
            ("crates/low/src/lib.rt", 6, "handed_on", on),
            ("crates/low/src/lib.rt", 7, "inner", vain),
            ("crates/low/src/parts.rt", 13, "inside", own),
            ("crates/low/src/parts.rt", 21, "handed_on", never),
            ("crates/low/src/parts.rt", 25, "left_over", never),
        ]
        self.assertEqual(found, due)


if __name__ == "__main__":
    unittest.main()
