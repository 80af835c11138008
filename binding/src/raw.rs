//! The C calls as `include/foqtirel.h` declares them, for tables that are not initialised and for null pointers.
//!
//! # Safety
//! Of each call: a pointer goes with its number of bytes or entries and may be null where that is 0. The image, and a
//! table that a call only reads, are readable and stay as they are during the call; the other tables are writable and
//! apart from these and from each other. They may hold anything, and an entry that the result doesn't name is as it was
//! afterwards.

use crate::{Billed, Node};

#[link(name = "foqtirel", kind = "static")]
extern "C" {
    /// 0 for an accepted image, otherwise number × 2^32 + place.
    ///
    /// # Safety
    /// See [the module](self).
    pub fn foqtirel_check(image: *const u8, length: usize) -> u64;

    /// The number of rules, or number × 2^32 + place. So many bytes at the front of the table are written.
    ///
    /// # Safety
    /// See [the module](self).
    pub fn foqtirel_clash(image: *const u8, length: usize, marks: *mut u8, room: usize) -> u64;

    /// The length of the filed form, or number × 2^32 + place.
    ///
    /// # Safety
    /// See [the module](self).
    pub fn foqtirel_file(
        image: *const u8,
        length: usize,
        out: *mut u8,
        room: usize,
        numbers: *mut u8,
        number_room: usize,
    ) -> u64;

    /// The length of the image in old order, or number × 2^32 + place. The numbers are only read, and of them as many as the
    /// image has rules.
    ///
    /// # Safety
    /// See [the module](self).
    pub fn foqtirel_unfile(
        image: *const u8,
        length: usize,
        numbers: *const u8,
        count: usize,
        out: *mut u8,
        room: usize,
    ) -> u64;

    /// The number of arguments, or number × 2^32 + place.
    ///
    /// # Safety
    /// See [the module](self).
    pub fn foqtirel_list(image: *const u8, length: usize, arguments: *mut u32, room: usize) -> u64;

    /// Code × 2^16 + nodes, or number × 2^32 + place.
    ///
    /// # Safety
    /// See [the module](self).
    pub fn foqtirel_trees(
        image: *const u8,
        length: usize,
        literal: u32,
        budget: u32,
        arguments: *mut u32,
        room: usize,
        nodes: *mut Node,
        node_room: usize,
    ) -> u64;

    /// Code × 2^16 + nodes, or the bare number of a refusal.
    ///
    /// # Safety
    /// See [the module](self).
    pub fn foqtirel_query(image: *const u8, length: usize, literal: u32, budget: u32) -> u32;

    /// The twelve shares, or a refusal.
    ///
    /// # Safety
    /// See [the module](self): the lines are a table that is only read.
    pub fn foqtirel_bill(lines: *const u64, count: usize) -> Billed;
}
