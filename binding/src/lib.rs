//! The calls of `include/foqtirel.h` for Rust: safe functions over slices, and their results taken apart.
//!
//! Each function returns what the C call returns: 64 bits from `check`, `clash`, `file`, `unfile`, `list` and `trees`, which
//! [`granted`] and [`answered_with_trees`] take apart, 32 bits from `query`, which are for [`answered`], and [`Billed`] from
//! `bill`, which has its shares or its refusal.

pub mod raw;

use std::path::Path;

/// A node entry as it lies in the lent table, with two bytes of padding.
#[repr(C)]
#[derive(Clone, Copy, Debug, Default, PartialEq, Eq)]
pub struct Node {
    /// Index in the argument list.
    pub argument: u32,
    /// The parent's number; a root names itself.
    pub parent: u32,
    /// 0 root, 1 proper, 2 blocking.
    pub kind: u8,
    /// 1 U, 2 D.
    pub mark: u8,
}

const _: () = assert!(std::mem::size_of::<Node>() == 12);

impl Node {
    pub fn undefeated(&self) -> bool {
        self.mark == 1
    }
}

/// Why a call was turned away, and the number of the rule, pair or line that it is about, 0 where it is about none.
#[derive(Clone, Copy, Debug, PartialEq, Eq)]
pub struct Refusal {
    pub number: u32,
    pub place: u32,
}

/// The code of an answer, with its number of nodes.
#[derive(Clone, Copy, Debug, PartialEq, Eq)]
pub struct Answer {
    pub code: u32,
    pub nodes: u32,
}

impl Answer {
    fn from_number(number: u32) -> Answer {
        Answer {
            code: number >> 16,
            nodes: number & 65_535,
        }
    }
}

/// The branches that a bill is shared out among.
pub const BRANCHES: usize = 12;

/// What each branch pays, in cents, with number and place 0; or the number and place of a refusal, with every share 0.
#[repr(C)]
#[derive(Clone, Copy, Debug, PartialEq, Eq)]
pub struct Billed {
    pub number: u32,
    pub place: u32,
    pub shares: [u32; BRANCHES],
}

impl Billed {
    /// The twelve shares, or why there are none.
    pub fn shares(self) -> Result<[u32; BRANCHES], Refusal> {
        match self {
            Billed {
                number: 0, shares, ..
            } => Ok(shares),
            Billed { number, place, .. } => Err(Refusal { number, place }),
        }
    }
}

/// A line of a bill: a branch and the result of `query` for it.
pub fn line(branch: u32, result: u32) -> u64 {
    u64::from(branch) << 32 | u64::from(result)
}

/// The number in a result of `check`, `clash`, `file`, `unfile`, `list` or `trees`. A refusal has its own in the upper half,
/// which is 0 otherwise.
pub fn granted(result: u64) -> Result<u32, Refusal> {
    match (result >> 32) as u32 {
        0 => Ok(result as u32),
        number => Err(Refusal {
            number,
            place: result as u32,
        }),
    }
}

/// The answer in a result of `trees`.
pub fn answered_with_trees(result: u64) -> Result<Answer, Refusal> {
    granted(result).map(Answer::from_number)
}

/// The answer in a result of `query`, or the bare number of a refusal.
pub fn answered(result: u32) -> Result<Answer, u32> {
    match Answer::from_number(result) {
        Answer { code: 0, nodes } => Err(nodes),
        answer => Ok(answer),
    }
}

/// 0 for an accepted image, otherwise number × 2^32 + place.
pub fn check(image: &[u8]) -> u64 {
    // SAFETY: the pointer and the length are the slice's own.
    unsafe { raw::foqtirel_check(image.as_ptr(), image.len()) }
}

/// The number of rules, or number × 2^32 + place. Each rule has a byte of `marks`: 1 for one of a small clash, else 0.
pub fn clash(image: &[u8], marks: &mut [u8]) -> u64 {
    let (table, room) = (marks.as_mut_ptr(), marks.len());
    // SAFETY: the pointers and lengths are the slices' own.
    unsafe { raw::foqtirel_clash(image.as_ptr(), image.len(), table, room) }
}

/// The length of the filed form, or number × 2^32 + place. The old number of each filed rule goes to `numbers`.
pub fn file(image: &[u8], out: &mut [u8], numbers: &mut [u8]) -> u64 {
    // SAFETY: the pointers and lengths are the slices' own.
    unsafe {
        raw::foqtirel_file(
            image.as_ptr(),
            image.len(),
            out.as_mut_ptr(),
            out.len(),
            numbers.as_mut_ptr(),
            numbers.len(),
        )
    }
}

/// The length of the filed image in old order, or number × 2^32 + place.
pub fn unfile(image: &[u8], numbers: &[u8], out: &mut [u8]) -> u64 {
    let (table, room) = (out.as_mut_ptr(), out.len());
    let (entries, count) = (numbers.as_ptr(), numbers.len());
    // SAFETY: the pointers and lengths are the slices' own.
    unsafe { raw::foqtirel_unfile(image.as_ptr(), image.len(), entries, count, table, room) }
}

/// The number of arguments, or number × 2^32 + place.
pub fn list(image: &[u8], arguments: &mut [u32]) -> u64 {
    let (table, room) = (arguments.as_mut_ptr(), arguments.len());
    // SAFETY: the pointers and lengths are the slices' own.
    unsafe { raw::foqtirel_list(image.as_ptr(), image.len(), table, room) }
}

/// Code × 2^16 + nodes, or number × 2^32 + place.
pub fn trees(
    image: &[u8],
    literal: u32,
    budget: u32,
    arguments: &mut [u32],
    nodes: &mut [Node],
) -> u64 {
    // SAFETY: the pointers and lengths are the slices' own.
    unsafe {
        raw::foqtirel_trees(
            image.as_ptr(),
            image.len(),
            literal,
            budget,
            arguments.as_mut_ptr(),
            arguments.len(),
            nodes.as_mut_ptr(),
            nodes.len(),
        )
    }
}

/// Code × 2^16 + nodes, or the bare number of a refusal.
pub fn query(image: &[u8], literal: u32, budget: u32) -> u32 {
    // SAFETY: the pointer and the length are the slice's own.
    unsafe { raw::foqtirel_query(image.as_ptr(), image.len(), literal, budget) }
}

/// What each branch pays for its lines, or a refusal.
pub fn bill(lines: &[u64]) -> Billed {
    // SAFETY: the pointer and the length are the slice's own.
    unsafe { raw::foqtirel_bill(lines.as_ptr(), lines.len()) }
}

/// The archive that is linked, for whoever links or looks at it by other means.
pub fn library() -> &'static Path {
    Path::new(env!("FOQTIREL_LIBRARY"))
}

#[cfg(test)]
mod tests {
    use super::*;

    const REFUSED: Refusal = Refusal {
        number: 10,
        place: 3,
    };
    const YES: Answer = Answer { code: 1, nodes: 3 };

    #[test]
    fn results_of_64_bits() {
        assert_eq!(granted(0), Ok(0));
        assert_eq!(granted(78_057), Ok(78_057));
        assert_eq!(granted((10 << 32) + 3), Err(REFUSED));
        assert_eq!(answered_with_trees((1 << 16) + 3), Ok(YES));
        assert_eq!(answered_with_trees((10 << 32) + 3), Err(REFUSED));
    }

    #[test]
    fn results_of_32_bits() {
        assert_eq!(answered((1 << 16) + 3), Ok(YES));
        assert_eq!(answered(4 << 16), Ok(Answer { code: 4, nodes: 0 }));
        assert_eq!(answered(23), Err(23));
    }

    /// A fact, by every call.
    #[test]
    fn calls_on_an_image() {
        let image = [1, 0, 1, 0, 0, 0, 0, 0, 16, 0, 2, 0, 18, 0, 0, 0, 0, 1];
        let mut arguments = [7; 2];
        let mut nodes = [Node::default(); 2];
        let (mut out, mut numbers) = ([7; 20], [7; 2]);
        let number = |result: u64| granted(result).map_err(|refusal| refusal.number);
        assert_eq!(number(check(&image)), Ok(0));
        assert_eq!(number(file(&image, &mut out, &mut numbers)), Ok(18));
        assert_eq!((&out[..18], &out[18..]), (&image[..], &[7, 7][..]));
        assert_eq!(numbers, [0, 7]);
        assert_eq!(number(file(&image, &mut out[..17], &mut numbers)), Err(24));
        assert_eq!(number(file(&image, &mut out, &mut [])), Err(25));
        let mut typed = [7; 20];
        assert_eq!(number(unfile(&image, &numbers, &mut typed)), Ok(18));
        assert_eq!(typed, out);
        assert_eq!(number(unfile(&image, &[1], &mut typed)), Err(26));
        assert_eq!(granted(list(&image, &mut arguments)), Ok(1));
        assert_eq!(arguments, [1, 7]);
        let answer = Answer { code: 2, nodes: 1 };
        let result = trees(&image, 0, 2, &mut arguments, &mut nodes);
        assert_eq!(answered_with_trees(result), Ok(answer));
        assert_eq!(answered(query(&image, 0, 2)), Ok(answer));
        assert!(nodes[0].undefeated() && !nodes[1].undefeated());
        assert!(granted(check(&image[1..])).is_err());
        assert_eq!(number(clash(&image, &mut [])), Err(28));
    }

    #[test]
    fn a_bill_is_shared_out() {
        let lines = [line(4, (1 << 16) + 16), line(7, (2 << 16) + 9)];
        let mut shares = [0; BRANCHES];
        (shares[4], shares[7]) = (164, 163);
        assert_eq!(bill(&lines).shares(), Ok(shares));
        assert_eq!(bill(&[]).shares(), Ok([0; BRANCHES]));
        let refused = bill(&[lines[0], line(12, 3 << 16), line(0, 23)]);
        let cause = Refusal {
            number: 35,
            place: 1,
        };
        assert_eq!(
            (refused.shares(), refused.shares),
            (Err(cause), [0; BRANCHES])
        );
        assert_eq!(bill(&[lines[0]; 513]).number, 34);
    }

    /// A fact, something else and the fact's complement.
    #[test]
    fn a_clash_is_marked() {
        let image = [
            2, 0, 3, 0, 0, 0, 0, 0, 24, 0, 2, 0, 26, 0, 2, 0, 28, 0, 2, 0, 30, 0, 0, 0, 0, 0, 0, 2,
            0, 1,
        ];
        let mut marks = [7; 5];
        assert_eq!(clash(&image, &mut marks[..2]), 29 << 32);
        assert_eq!(marks, [7; 5]);
        assert_eq!(granted(clash(&image, &mut marks)), Ok(3));
        assert_eq!(marks, [1, 0, 1, 7, 7]);
        assert_eq!(check(&image), 14 << 32);
    }
}
