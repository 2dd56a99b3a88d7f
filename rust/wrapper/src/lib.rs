//! Safe calls over the proved reader of PRICAT deliveries: a reading and slices in, structs out. Every call answers for every slice, place and
//! number; `include/schaumtruhe.h` lists the refusal numbers. Places count every byte of the delivery, skipped line breaks too.

/// The service characters of a delivery without UNA, and whether line breaks are skipped; a part of a `Reading`, which makes it.
#[repr(C)]
#[derive(Clone, Copy, Debug, PartialEq, Eq)]
struct Syntax {
    component: u8,
    element: u8,
    decimal: u8,
    release: u8,
    terminator: u8,
    skips: bool,
}

/// How a delivery is read: every call takes it first.
#[repr(C)]
#[derive(Clone, Copy, Debug, PartialEq, Eq)]
pub struct Reading {
    syntax: Syntax,
}

impl Reading {
    /// CR and LF, in any run, directly after a segment's end, after UNA and at the delivery's start are skipped; UNA is looked for behind those at
    /// the start. They belong to no segment, no piece and no message. Anywhere else they are bytes that are not allowed.
    pub fn usual() -> Reading {
        // SAFETY: takes nothing; the same holds below.
        unsafe { schaumtruhe_usual() }
    }

    /// Every byte counts, and line breaks are bytes that are not allowed. Archives ask for it.
    pub fn strict() -> Reading {
        // SAFETY: as in `usual`.
        unsafe { schaumtruhe_strict() }
    }

    /// The same with other service characters for a delivery without UNA: component separator, element separator, decimal mark, release and
    /// terminator, which are `:+.?'` otherwise. A delivery that begins UNA has UNA's characters, and these are then not looked at. Those used have to
    /// be distinct, allowed bytes (32 to 126, 160 to 255) and no ASCII letter, digit, blank or minus; else the delivery is refused with 2.
    pub fn with_characters(mut self, characters: [u8; 5]) -> Reading {
        let [component, element, decimal, release, terminator] = characters;
        self.syntax = Syntax { component, element, decimal, release, terminator, ..self.syntax };
        self
    }
}

/// The longest delivery that is read, skipped line breaks counted; a longer one gets 1.
pub const LIMIT: usize = 1_048_576;

/// Numbers to a price in a row: position; the article's place from the message's start or -1; its length; amount; decimals; the unit's rank
/// or 0; place of PRI; place of RNG or -1.
pub const PRICE: usize = 8;

/// The whole delivery; `number` is 0, or 1 or 2 with zeros.
#[repr(C)]
#[derive(Clone, Copy, Debug, PartialEq, Eq)]
pub struct Totals {
    pub number: u32,
    pub messages: usize,
    pub accepted: usize,
    pub outside: usize,
}

/// `found` is 1 with a message's first byte and the byte after its last, or 0 with zeros.
#[repr(C)]
#[derive(Clone, Copy, Debug, PartialEq, Eq)]
pub struct Next {
    pub found: u32,
    pub start: usize,
    pub end: usize,
}

/// Refused: number, segment, place of its first byte, node. Accepted: 0, the count of segments, the byte after the message, 0.
#[repr(C)]
#[derive(Clone, Copy, Debug, PartialEq, Eq)]
pub struct Judged {
    pub number: u32,
    pub segment: usize,
    pub place: usize,
    pub node: usize,
}

/// How many prices were written and how many the message has; `number` is 0, or 1, 2, 31 or 30 with zeros.
#[repr(C)]
#[derive(Clone, Copy, Debug, PartialEq, Eq)]
pub struct Prices {
    pub number: u32,
    pub written: usize,
    pub total: usize,
}

/// `found` is 1 with a segment's first byte, the byte after its last, and `piece`: 1 if it has no terminator, else 0; or 0 with zeros.
#[repr(C)]
#[derive(Clone, Copy, Debug, PartialEq, Eq)]
pub struct Segment {
    pub found: u32,
    pub start: usize,
    pub end: usize,
    pub piece: u32,
}

#[repr(C)]
struct Placed {
    number: u32,
    place: usize,
    length: usize,
}

/// The article of a price, as that part of the delivery itself, release marks included. `number` is 0, or 1, 2, 31, 30 or 32 with the empty
/// part at the delivery's start.
#[derive(Clone, Copy, Debug, PartialEq, Eq)]
pub struct Article<'a> {
    pub number: u32,
    pub part: &'a [u8],
}

extern "C" {
    fn schaumtruhe_usual() -> Reading;
    fn schaumtruhe_strict() -> Reading;
    fn schaumtruhe_survey(reading: Reading, delivery: *const u8, length: usize) -> Totals;
    fn schaumtruhe_next_message(syntax: Syntax, delivery: *const u8, length: usize, from: usize) -> Next;
    fn schaumtruhe_judge_at(reading: Reading, delivery: *const u8, length: usize, at: usize) -> Judged;
    fn schaumtruhe_prices(reading: Reading, delivery: *const u8, length: usize, at: usize, k: usize, row: *mut i64, count: usize)
        -> Prices;
    fn schaumtruhe_article(reading: Reading, delivery: *const u8, length: usize, at: usize, k: usize) -> Placed;
    fn schaumtruhe_segment_at(syntax: Syntax, delivery: *const u8, length: usize, at: usize) -> Segment;
    fn schaumtruhe_plain(
        syntax: Syntax,
        delivery: *const u8,
        length: usize,
        place: usize,
        count: usize,
        out: *mut u8,
        room: usize,
    ) -> usize;
}

/// Messages found, accepted, and segments outside.
pub fn survey(reading: Reading, delivery: &[u8]) -> Totals {
    // SAFETY: pointer and length are a slice's, which is borrowed for the call; the same holds of each call below.
    unsafe { schaumtruhe_survey(reading, delivery.as_ptr(), delivery.len()) }
}

/// The first message that begins at `from` or later; none in a delivery that is refused with 1 or 2. Going on from `end` gives every message
/// once. A message ends where its last segment ends, before line breaks.
pub fn next_message(reading: Reading, delivery: &[u8], from: usize) -> Next {
    // SAFETY: as in `survey`.
    unsafe { schaumtruhe_next_message(reading.syntax, delivery.as_ptr(), delivery.len(), from) }
}

/// The verdict of the message that begins at `at`; 1, 2 or 31 with zeros.
pub fn judge_at(reading: Reading, delivery: &[u8], at: usize) -> Judged {
    // SAFETY: as in `survey`.
    unsafe { schaumtruhe_judge_at(reading, delivery.as_ptr(), delivery.len(), at) }
}

/// The prices of that message from the k-th on, `PRICE` numbers to a price, as many as fit whole; the rest of the row is unchanged.
pub fn prices(reading: Reading, delivery: &[u8], at: usize, k: usize, row: &mut [i64]) -> Prices {
    // SAFETY: as in `survey`; the row is borrowed alone, so it lies apart from the delivery.
    unsafe { schaumtruhe_prices(reading, delivery.as_ptr(), delivery.len(), at, k, row.as_mut_ptr(), row.len()) }
}

/// The article of price k of that message; an absent one is the empty part at the message's start.
pub fn article(reading: Reading, delivery: &[u8], at: usize, k: usize) -> Article<'_> {
    // SAFETY: as in `survey`.
    let placed = unsafe { schaumtruhe_article(reading, delivery.as_ptr(), delivery.len(), at, k) };
    // That it lies within is proved (`article-in-delivery`); the slices below test it all the same.
    Article { number: placed.number, part: &delivery[placed.place..][..placed.length] }
}

/// The segment that the bytes from `at` on begin with, behind the line breaks that are skipped; a place within UNA, or before it, is before the
/// first. None where only skipped bytes follow, none at or past the end, and none in a delivery that is refused with 1 or 2. From 0 on, and then
/// from each `end`, it gives every segment once, in order.
pub fn segment_at(reading: Reading, delivery: &[u8], at: usize) -> Segment {
    // SAFETY: as in `survey`.
    unsafe { schaumtruhe_segment_at(reading.syntax, delivery.as_ptr(), delivery.len(), at) }
}

/// The part of the delivery from `place` on, `count` bytes as far as they lie within it, without its release marks: as many bytes as fit into `out`,
/// the rest of which is unchanged. Gives how many bytes the part has without its marks, so that a call with an empty slice tells how many are needed; 0
/// in a delivery that is refused with 1 or 2. The release is the delivery's own.
pub fn plain(reading: Reading, delivery: &[u8], place: usize, count: usize, out: &mut [u8]) -> usize {
    // SAFETY: as in `prices`, with bytes for numbers.
    unsafe { schaumtruhe_plain(reading.syntax, delivery.as_ptr(), delivery.len(), place, count, out.as_mut_ptr(), out.len()) }
}
