//! The sag type: all seven, the border of type 0, ties, and which half-cycle decides.
use super::recording::{alike, amid, sines, uneven, woven, Recording};
use super::{list, Section, HOUSE, TEN};

/// Twice the same block amid calm ones.
fn twice(block: Recording) -> Recording {
    amid(block.clone() + block)
}

/// Two blocks on the border of type 0: in each, three samples with b and c equal and one with a in their middle. The first
/// sample of the second block is moved.
fn border(a: i32, middle: i32, moved: i32) -> Recording {
    let last = || alike(1, middle, 2 * middle, 0);
    amid(alike(3, a, 0, 0) + last() + alike(1, a + moved, 0, 0) + alike(2, a, 0, 0) + last())
}

pub fn section() -> Section {
    let opposite = woven([&[0; 4], &[800; 4], &[-800; 4]]);
    let ten = |a, b, c| alike(10, a, b, c);
    Section {
        name: "types",
        about: "sag types",
        cases: vec![
            list(HOUSE, amid(uneven(2, 600, 200, 1000)), "a in the middle of b and c: type 1"),
            list(HOUSE, amid(uneven(2, 200, 600, 1000)), "b in the middle: type 2"),
            list(HOUSE, amid(uneven(2, 1000, 200, 600)), "c in the middle: type 3"),
            list(HOUSE, amid(uneven(2, 300, 800, 800)), "b and c equal: type 4"),
            list(HOUSE, amid(uneven(2, 800, 300, 800)), "c and a equal: type 5"),
            list(HOUSE, amid(uneven(2, 800, 800, 300)), "a and b equal: type 6"),
            list(HOUSE, amid(-uneven(2, 600, 200, 1000)), "all samples negative: type 1 as with positive ones"),
            list(HOUSE, twice(opposite), "b and c of opposite signs, a at 0: type 1"),
            list(
                TEN,
                ten(1001, 1001, 1001) + ten(900, 900, 400) + ten(1001, 1001, 1001),
                "N 10: a and b equal, type 6",
            ),
            list(HOUSE, sines(1000, 1000, 1000) + sines(600, 600, 600), "sines, all three lower: type 0"),
            list(HOUSE, sines(1000, 1000, 1000) + sines(500, 1000, 1000), "sines, a lower: type 1"),
            list(HOUSE, sines(1000, 1000, 1000) + sines(1000, 500, 1000), "sines, b lower: type 2"),
            list(HOUSE, sines(1000, 1000, 1000) + sines(1000, 1000, 500), "sines, c lower: type 3"),
            list(HOUSE, sines(1000, 1000, 1000) + sines(1000, 500, 500), "sines, b and c lower: type 4"),
            list(HOUSE, sines(1000, 1000, 1000) + sines(500, 1000, 500), "sines, c and a lower: type 5"),
            list(HOUSE, sines(1000, 1000, 1000) + sines(500, 500, 1000), "sines, a and b lower: type 6"),
            list(HOUSE, border(500, 450, 0), "100 x smallest, a fourth sum, is exactly 81 x largest: type 0"),
            list(HOUSE, border(500, 450, 1), "the largest a little larger: type 4"),
            list(HOUSE, border(500, 450, -1), "a little smaller: type 0"),
            list(HOUSE, border(450, 500, 0), "100 x smallest, a first sum, is exactly 81 x largest: type 0"),
            list(HOUSE, border(450, 500, -1), "the smallest a little smaller: type 1"),
            list(HOUSE, border(450, 500, 1), "a little larger: type 0"),
            list(
                HOUSE,
                twice(alike(1, 0, 600, 300) + alike(3, 300, 0, 0)),
                "third and fourth sum equally small: type 3",
            ),
            list(
                HOUSE,
                twice(alike(1, 300, 0, 600) + alike(3, 0, 300, 0)),
                "first and fifth sum equally small: type 1",
            ),
            list(
                HOUSE,
                twice(alike(1, 600, 300, 0) + alike(3, 0, 0, 300)),
                "second and sixth sum equally small: type 2",
            ),
            list(
                HOUSE,
                amid(uneven(2, 500, 1000, 1000) + uneven(2, 1000, 500, 1000)),
                "the same extreme twice, first a's and then b's: the earliest decides, type 4",
            ),
            list(
                HOUSE,
                amid(uneven(2, 1000, 500, 1000) + uneven(2, 500, 1000, 1000)),
                "first b's and then a's: type 5",
            ),
            list(
                HOUSE,
                amid(uneven(2, 1000, 1000, 800) + uneven(2, 1000, 400, 1000)),
                "the sag begins as type 6, but its extreme decides: type 5",
            ),
            list(
                HOUSE,
                amid(uneven(3, 600, 300, 900) + uneven(2, 500, 300, 500)),
                "the same extreme three times, of one channel: the earliest decides, type 1",
            ),
        ],
    }
}
