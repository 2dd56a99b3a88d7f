//! The pages of the guide: the components of each element, in the order of the page (docs/PAGES.md, source 001; where
//! 2.0c differs, source 003).
//!
//! A composite with a required component is itself required, so "must be non-empty" needs no look at the rest of its
//! composite. The one exception is IMD's C273 in 2.0c: its rows come twice, see `unless_filled`.

use crate::guide::NODES;
use crate::text::key;

type Codes = &'static [u64];

/// What a component may hold, and what the judge keeps of it.
#[derive(Clone, Copy)]
pub enum Rule {
    /// Status N, and all beyond the last row.
    NotUsed,
    /// As `NotUsed`, but a required component of the composite is empty and comes first.
    Overdue,
    /// `an..k`
    Text(usize),
    /// `an..k` with codes.
    Code(usize, Codes),
    /// `n..k`
    Number(usize),
    /// `n5` with codes.
    Exactly(usize, Codes),
    /// DE0057.
    Edition,
    /// UNH's reference and UNT's.
    Reference,
    LastReference,
    /// BGM's code: Z04 or not.
    Document(Codes),
    /// LIN's number and UNT's count, both `n..6`.
    Count,
    Article,
    /// As `Text` and `Code`, and compared by rule 23 as the component with this number.
    ComparedText(usize, u8),
    ComparedCode(usize, Codes, u8),
    /// PRI's price and unit.
    Amount,
    Unit(Codes),
}

#[derive(Clone, Copy)]
pub struct Row {
    pub rule: Rule,
    pub must: bool,
    /// A required component follows in this element.
    pub must_follow_in_element: bool,
    /// A required component follows in this segment.
    pub must_follow: bool,
    /// The row behind `:` and the row behind `+`.
    pub next_component: u8,
    pub next_element: u8,
    /// How far behind stands the row that is taken in place of this one if the component is not empty.
    pub twin: u8,
    /// Not a row of the page, but all that stands beyond the last component of an element.
    is_beyond: bool,
}

/// Status D and O.
const fn may(rule: Rule) -> Row {
    Row {
        rule,
        must: false,
        must_follow_in_element: false,
        must_follow: false,
        next_component: 0,
        next_element: 0,
        twin: 0,
        is_beyond: false,
    }
}

/// Status M and R.
const fn must(rule: Rule) -> Row {
    Row { must: true, ..may(rule) }
}

/// A row of an optional composite with `rows` rows, one of them required. They stand twice: first as they are while all of
/// the composite is empty, with nothing required, then as they are once something stands.
const fn unless_filled(rows: u8, row: Row) -> Row {
    Row { twin: rows + 1, ..row }
}

const NOT_USED: Row = may(NotUsed);
const BEYOND: Row = Row { is_beyond: true, ..NOT_USED };

/// Fills in what follows each row. The last row stands for all elements beyond the page's last.
const fn page<const ROWS: usize>(rows: [Row; ROWS]) -> [Row; ROWS] {
    let mut page = rows;
    let mut at = ROWS - 1;
    page[at].next_component = at as u8;
    page[at].next_element = at as u8;
    while at > 0 {
        at -= 1;
        if page[at].is_beyond {
            // Behind a composite that stands twice the element's other rows are passed over.
            let twin = page[at - 1].twin;
            let next = page[at + 1 + twin as usize];
            page[at].must_follow = next.must || next.must_follow;
            page[at].next_component = at as u8;
            page[at].next_element = at as u8 + 1 + twin;
            if twin != 0 {
                page[at].rule = Overdue;
            }
        } else {
            let next = page[at + 1];
            page[at].must_follow = next.must || next.must_follow;
            page[at].must_follow_in_element = next.must || next.must_follow_in_element;
            page[at].next_component = at as u8 + 1;
            page[at].next_element = next.next_element;
        }
    }
    page
}

macro_rules! codes {
    ($($code:literal)*) => { &[$(key($code)),*] };
}

/// `NAME: [rows of element 1] [rows of element 2] ..;`
macro_rules! pages {
    ($($name:ident: $([$($row:expr),*])*;)*) => {
        $(pub const $name: &[Row] = &page([$($($row,)* BEYOND,)* BEYOND]);)*
    };
}

use Rule::*;

const fn text(most: usize) -> Row {
    must(Text(most))
}

const fn code(most: usize, codes: Codes) -> Row {
    must(Code(most, codes))
}

const TO_THE_MINUTE: &[u64] = codes!(b"303");
const AGENCIES: &[u64] = codes!(b"9" b"293" b"332");

/// IMD's 7077, 7081, 7009 and 7008.
const DESCRIPTION_FORM: Rule = ComparedCode(3, codes!(b"C" b"X"), 6);
const DESCRIPTION: Rule = ComparedCode(
    3,
    codes!(b"Z15" b"Z16" b"Z17" b"Z18" b"Z19" b"Z20" b"Z21" b"Z22" b"Z23" b"Z24" b"Z25" b"Z28" b"Z29" b"Z30" b"Z31"
        b"Z32" b"Z41"),
    7,
);
const VOLTAGE: Rule = ComparedCode(17, codes!(b"Z08" b"Z09" b"Z10" b"Z11"), 8);
const DESCRIPTION_TEXT: Rule = ComparedText(256, 9);

pages! {
    UNH:
        [must(Reference)]
        [code(6, codes!(b"PRICAT")), code(3, codes!(b"D")), code(3, codes!(b"20B")), code(2, codes!(b"UN")),
         must(Edition)];
    BGM:
        [must(Document(codes!(b"Z04" b"Z32" b"Z54" b"Z64" b"Z67" b"Z70" b"Z77")))]
        [text(70)] [NOT_USED] [NOT_USED] [may(Code(3, codes!(b"11")))];
    DTM_492: [code(3, codes!(b"492")), text(35), code(3, codes!(b"610"))];
    DTM_137: [code(3, codes!(b"137")), text(35), code(3, TO_THE_MINUTE)];
    DTM_157: [code(3, codes!(b"157")), text(35), code(3, TO_THE_MINUTE)];
    RFF_ACW: [code(3, codes!(b"ACW")), text(70)];
    RFF_Z56: [code(3, codes!(b"Z56")), text(35)];
    RFF_Z13: [code(3, codes!(b"Z13")), must(Exactly(5, codes!(b"27001" b"27002" b"27003")))];
    NAD_MR: [code(3, codes!(b"MR"))] [text(35), NOT_USED, code(3, AGENCIES)];
    NAD_MS: [code(3, codes!(b"MS"))] [text(35), NOT_USED, code(3, AGENCIES)];
    LOC: [code(3, codes!(b"231"))] [text(35)];
    CTA: [code(3, codes!(b"IC"))] [NOT_USED, text(256)];
    COM: [text(512), code(3, codes!(b"EM" b"FX" b"TE" b"AJ" b"AL"))];
    CUX: [code(3, codes!(b"2")), code(3, codes!(b"EUR")), code(3, codes!(b"8"))];
    PGI_9: [code(3, codes!(b"9"))];
    LIN_9: [must(Count)] [NOT_USED] [must(Article), must(ComparedCode(3, codes!(b"Z01" b"Z09"), 2))];
    PIA:
        [must(ComparedCode(3, codes!(b"1"), 3))]
        [must(ComparedText(35, 4)), must(ComparedCode(3, codes!(b"Z06"), 5))];
    IMD:
        [must(DESCRIPTION_FORM)] [must(DESCRIPTION)]
        [may(VOLTAGE), NOT_USED, NOT_USED, may(DESCRIPTION_TEXT)];
    IMD_20C:
        [must(DESCRIPTION_FORM)] [must(DESCRIPTION)]
        [unless_filled(4, may(VOLTAGE)), NOT_USED, NOT_USED, unless_filled(4, may(DESCRIPTION_TEXT))]
        [may(VOLTAGE), NOT_USED, NOT_USED, must(DESCRIPTION_TEXT)];
    PRI_9:
        [code(3, codes!(b"CAL")), must(Amount), NOT_USED, NOT_USED, may(Number(9)), may(Unit(codes!(b"ANN")))];
    RNG_9: [code(3, codes!(b"10"))] [code(8, codes!(b"H87" b"DAY")), must(Number(18)), may(Number(18))];
    DTM_163: [code(3, codes!(b"163" b"164")), text(35), code(3, TO_THE_MINUTE)];
    PGI_Z01: [code(3, codes!(b"Z01"))];
    LIN_Z01: [must(Count)] [NOT_USED] [must(Article), must(ComparedCode(3, codes!(b"Z09"), 2))];
    PRI_Z01: [code(3, codes!(b"CAL")), must(Amount)];
    RNG_Z01: [code(3, codes!(b"10"))] [code(8, codes!(b"KWH")), must(Number(18)), may(Number(18))];
    UNT: [must(Count)] [must(LastReference)];
}

/// The page of each node of 2.0d; the root has none.
pub const PAGES: [&[Row]; NODES] = [
    &[],
    UNH,
    BGM,
    DTM_492,
    DTM_137,
    DTM_157,
    RFF_ACW,
    RFF_Z56,
    RFF_Z13,
    NAD_MR,
    NAD_MS,
    LOC,
    CTA,
    COM,
    CUX,
    PGI_9,
    LIN_9,
    PIA,
    IMD,
    PRI_9,
    RNG_9,
    DTM_163,
    PGI_Z01,
    LIN_Z01,
    PRI_Z01,
    RNG_Z01,
    UNT,
];
