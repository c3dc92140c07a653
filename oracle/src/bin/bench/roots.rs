//! How many turns the search for a root takes. The library cannot be asked for them, so they are counted by copies of its
//! code: of the loop that it had before request 4, and of `first_guess` and `nearer`, which a test holds to the library's
//! text. No answer of the second program comes from here.

/// The largest number whose root is ever looked for: the square of 100,001, less one.
const LARGEST: u64 = 10_000_200_000;

/// A root, and the turns that it took.
type Found = (u64, u64);

/// A copy of the loop that the library had: it halves the range from 0 to 100,001.
fn halved(q: u64) -> Found {
    let mut low = 0;
    let mut high = 100001;
    let mut turns = 0;
    while 1 < high - low {
        let middle = low + (high - low) / 2;
        if middle * middle <= q {
            low = middle;
        } else {
            high = middle;
        }
        turns += 1;
    }
    (low, turns)
}

/// A copy of the library's function.
fn first_guess(q: u64) -> u64 {
    let half = (64 - u64::leading_zeros(q)) / 2;
    ((1u64 << half) + (q >> half)) / 2
}

/// A copy of the library's function.
fn nearer(q: u64, r: u64) -> u64 {
    if r * r <= q {
        return r;
    }
    (r + q / r) / 2
}

/// The library's three calls of `nearer`; those that divide are counted.
fn stepped(q: u64) -> Found {
    let first = (first_guess(q), 0);
    (0..3).fold(first, |(r, steps), _| (nearer(q, r), steps + u64::from(r * r > q)))
}

/// How many steps are proved to be enough (law `steps-enough`).
fn enough(q: u64) -> u64 {
    [8, 256, 262_144].iter().filter(|&&border| border <= q).count() as u64
}

/// The mean of the turns over a million numbers, evenly spread from 0 to `last`.
fn mean(search: fn(u64) -> Found, last: u64) -> f64 {
    let all = (0..MILLION).map(|i| search(i * last / (MILLION - 1)).1);
    all.sum::<u64>() as f64 / MILLION as f64
}

const MILLION: u64 = 1_000_000;

pub fn print() {
    println!("\n## The root\n");
    println!(
        "Turns of the search for the root of q, counted by copies of the library's code: halving, as it was before request 4, \
         and Newton's\nsteps from a first guess. \"At most\" is proved. The means are of a million numbers, evenly spread.\n"
    );
    println!("| q | root | halving | steps | at most |\n|---|---|---|---|---|");
    for q in std::iter::once(0).chain((0..=10).map(|digits| 10u64.pow(digits))).chain([LARGEST]) {
        let (root, steps) = stepped(q);
        println!("| {} | {} | {} | {steps} | {} |", spaced(q), spaced(root), halved(q).1, enough(q));
    }
    for last in [MILLION - 1, LARGEST] {
        let [before, after] = [halved, stepped].map(|search| mean(search, last));
        println!("| mean of 0 to {} | | {before:.2} | {after:.2} | |", spaced(last));
    }
}

/// A number with commas between the thousands.
fn spaced(number: u64) -> String {
    let digits = number.to_string();
    let parts: Vec<&str> = digits.as_bytes().rchunks(3).rev().map(|part| std::str::from_utf8(part).unwrap()).collect();
    parts.join(",")
}

#[cfg(test)]
mod tests {
    use super::*;

    /// Both ends of each root's numbers.
    #[test]
    fn both_searches_find_each_root() {
        for root in 0..=100_000 {
            for q in [root * root, (root + 1) * (root + 1) - 1] {
                assert_eq!(halved(q).0, root, "halving, q {q}");
                assert_eq!(stepped(q).0, root, "steps, q {q}");
            }
        }
    }

    #[test]
    fn no_more_turns_than_promised() {
        let numbers = (0..300_000).chain((300_000..=LARGEST).step_by(9_973)).chain([LARGEST]);
        for q in numbers {
            assert!(stepped(q).1 <= enough(q), "q {q}");
            assert!(stepped(q).1 < halved(q).1 && halved(q).1 <= 17, "q {q}");
        }
    }

    /// All numbers, in a minute or two: how many take so many steps, and the first of them.
    #[test]
    #[ignore = "ten billion numbers"]
    fn every_number() {
        let (mut counts, mut first) = ([0u64; 4], [None; 4]);
        for q in 0..=LARGEST {
            let (root, steps) = stepped(q);
            assert!(root * root <= q && q < (root + 1) * (root + 1) && steps <= enough(q), "q {q}");
            counts[steps as usize] += 1;
            first[steps as usize].get_or_insert(q);
        }
        let steps: u64 = (0..4).map(|steps| steps * counts[steps as usize]).sum();
        println!("steps 0 to 3: {counts:?}, first {first:?}, mean {:.3}", steps as f64 / (LARGEST + 1) as f64);
    }

    /// The lines of a function's body.
    fn body<'a>(text: &'a str, function: &str) -> Vec<&'a str> {
        let (_, after) = text.split_once(&format!("\nfn {function}(")).expect("the function");
        after.lines().skip_while(|line| !line.ends_with('{')).skip(1).take_while(|line| *line != "}").collect()
    }

    #[test]
    fn the_copies_are_copies() {
        let library = include_str!("../../../../crates/score/src/lib.rt");
        let here = include_str!("roots.rs");
        for function in ["first_guess", "nearer"] {
            let copied = body(here, function);
            assert!(!copied.is_empty());
            assert_eq!(copied, body(library, function), "{function}");
        }
        assert_eq!(body(library, "root"), ["    nearer(q, nearer(q, nearer(q, first_guess(q))))"]);
    }
}
