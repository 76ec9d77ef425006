//! Data Matrix ECC 200, the squares and rectangles of ISO/IEC 16022 and of ISO/IEC 21471, by the C library ecc200: a
//! safe interface over `ecc200.h`, whose conventions hold here too. Put this file beside yours, write `mod ecc200;`,
//! and link the library: `rustc -l ecc200`, with `-L` for its folder. It needs Rust 1.82 or later.
//!
//! What `ecc200.h` asks of callers holds here for any arguments: slices point to all of their elements, and a `&mut`
//! overlaps nothing.
#![deny(unsafe_op_in_unsafe_fn)]
#![allow(dead_code)]

use std::alloc::{self, Layout};
use std::ffi::{CStr, c_char};
use std::fmt;

/// FNC1 among the items of a message.
// ecc200.h: fnc1
pub const FNC1: u16 = 256;
// ecc200.h: end

// ecc200.h: constants
const ABI: u16 = 1;
const MOST_MODULES: usize = 20736;
const MOST_ITEMS: usize = 3123;
const MOST_MARKS: usize = 779;
const MOST_CODEWORDS: usize = 2178;
const MOST_BLOCKS: usize = 10;
const SIZE_COUNT: usize = 48;
const BEYOND: u8 = 255;
// ecc200.h: end

/// What is read: ASCII, C40, Text, X12 and Base 256; or these, EDIFACT, a macro 05 or 06 in front, an Upper Shift that
/// waits at the end of a run, marks, heads, and the other dealing of 144 x 144. What `Usual` reads `Wide` reads as the
/// same.
#[derive(Clone, Copy, Debug, Default, PartialEq, Eq)]
pub enum Extent {
    // ecc200.h: extents
    #[default]
    Wide = 0,
    Usual = 1,
    // ecc200.h: end
}

/// The normal form of what a symbol says: ASCII encodation, or one Base 256 segment where there is neither head nor
/// mark and that is shorter.
#[derive(Clone, Copy, Debug, PartialEq, Eq)]
pub enum Profile {
    // ecc200.h: profiles
    Ascii = 0,
    Shorter = 1,
    // ecc200.h: end
}

// ecc200.h: numbers
const SMALLEST: u16 = 2;
const SQUARE: u16 = 0;
const RECTANGLE: u16 = 1;
const EXTENDED: u16 = 2;
const ANY: u16 = 3;
const ONE: u16 = 4;
const NO_HEAD: u16 = 0;
const PART: u16 = 1;
const PROGRAMMING: u16 = 2;
const USUAL_LIMIT: u16 = 0;
const SURE_LIMIT: u16 = 1;
const ANY_LIMIT: u16 = 2;
const GIVEN_LIMIT: u16 = 3;
// ecc200.h: end

/// How many border modules that aren't doubtful may have the wrong colour.
#[derive(Clone, Copy, Debug, Default, PartialEq, Eq)]
pub enum BorderLimit {
    /// As many as [`usual_limit`] says.
    #[default]
    Usual,
    /// Any number where each block leaves a correction unused, which shows that it is a symbol; else as many as usual.
    Sure,
    /// Any number.
    Any,
    /// So many modules.
    Modules(u16),
}

/// The form in which something is written: as a profile has it; or in the encodations by which it fits the smallest
/// size, of those that the readers of an extent read.
#[derive(Clone, Copy, Debug, PartialEq, Eq)]
pub enum Form {
    Normal(Profile),
    Smallest(Extent),
}

impl Default for Form {
    /// ASCII encodation.
    fn default() -> Self {
        Form::Normal(Profile::Ascii)
    }
}

/// How the items from a place on are meant: the number of an ECI assignment, 0 to 999999, and how many items stand
/// before it. Marks come in order.
// ecc200.h: mark
#[repr(C)]
#[derive(Clone, Copy, Debug, Default, PartialEq, Eq)]
pub struct Mark {
    pub number: u32,
    pub place: u32,
}
// ecc200.h: end

/// What stands in front of all that a symbol says.
#[derive(Clone, Copy, Debug, PartialEq, Eq)]
pub enum Head {
    /// The symbol is a part, from 1 on, of what so many symbols say together, 2 to 16, which have these two numbers of
    /// their file in common, 1 to 254 each (structured append).
    Part { part: u16, parts: u16, file: [u8; 2] },
    /// The symbol programs the reader (reader programming).
    Programming,
}

/// What `Fault::code` may be; `ecc200.h` explains `value` and `place` for each.
pub mod code {
    // ecc200.h: codes
    /// No fault.
    pub const OK: u16 = 0;
    /// The modules aren't as many as the rows times the columns.
    pub const SHAPE: u16 = 3;
    /// No size has these rows and columns.
    pub const SIZE: u16 = 4;
    /// Too many border modules have the wrong colour.
    pub const BORDER: u16 = 5;
    /// A block is damaged beyond correction.
    pub const BLOCK: u16 = 6;
    /// A reserved codeword.
    pub const RESERVED: u16 = 7;
    /// An encodation or function that isn't supported.
    pub const LEFT_OUT: u16 = 8;
    /// An Upper Shift that no character follows.
    pub const UPPER_SHIFT: u16 = 9;
    /// A pair of codewords that doesn't stand for three values.
    pub const TRIPLET: u16 = 10;
    /// A value that has no meaning after a shift.
    pub const VALUE: u16 = 11;
    /// A wrong Base 256 length.
    pub const LENGTH: u16 = 12;
    /// The run or the symbol ends before the character of an Upper Shift.
    pub const UNFINISHED: u16 = 13;
    /// The message is too long for any size that may be taken.
    pub const TOO_LONG: u16 = 14;
    /// An item above 256.
    pub const ITEM: u16 = 15;
    /// No such profile.
    pub const PROFILE: u16 = 16;
    /// No such extent.
    pub const EXTENT: u16 = 17;
    /// No such shape.
    pub const CHOICE: u16 = 18;
    /// The doubtful modules aren't as many as the modules.
    pub const DOUBT: u16 = 19;
    /// An ECI without the designator of a number.
    pub const DESIGNATOR: u16 = 20;
    /// A structured append that is no part of a file.
    pub const APPEND: u16 = 21;
    /// A mark out of order, behind the items, or with a number above 999999.
    pub const MARK: u16 = 22;
    /// No such head.
    pub const HEAD: u16 = 23;
    /// No such border limit.
    pub const LIMIT: u16 = 24;
    // ecc200.h: end
}

/// Why a symbol or a message is refused: one of [`code`], and its numbers.
// ecc200.h: fault
#[repr(C)]
#[derive(Clone, Copy, Debug, Default, PartialEq, Eq)]
pub struct Fault {
    pub code: u16,
    pub value: u16,
    pub place: u16,
}
// ecc200.h: end

impl fmt::Display for Fault {
    fn fmt(&self, f: &mut fmt::Formatter<'_>) -> fmt::Result {
        f.write_str(match self.code {
            // ecc200.h: words
            code::OK => "no fault",
            code::SHAPE => "the modules aren't as many as the rows times the columns",
            code::SIZE => "no size has these rows and columns",
            code::BORDER => "too many border modules have the wrong colour",
            code::BLOCK => "a block is damaged beyond correction",
            code::RESERVED => "a reserved codeword",
            code::LEFT_OUT => "an encodation or function that isn't supported",
            code::UPPER_SHIFT => "an Upper Shift that no character follows",
            code::TRIPLET => "a pair of codewords that doesn't stand for three values",
            code::VALUE => "a value that has no meaning after a shift",
            code::LENGTH => "a wrong Base 256 length",
            code::UNFINISHED => "the run or the symbol ends before the character of an Upper Shift",
            code::TOO_LONG => "the message is too long for any size that may be taken",
            code::ITEM => "an item above 256",
            code::PROFILE => "no such profile",
            code::EXTENT => "no such extent",
            code::CHOICE => "no such shape",
            code::DOUBT => "the doubtful modules aren't as many as the modules",
            code::DESIGNATOR => "an ECI without the designator of a number",
            code::APPEND => "a structured append that is no part of a file",
            code::MARK => "a mark out of order, behind the items, or with a number above 999999",
            code::HEAD => "no such head",
            code::LIMIT => "no such border limit",
            // ecc200.h: end
            _ => "not a code of this library",
        })
    }
}

impl std::error::Error for Fault {}

/// A symbol: `rows * columns` modules, row by row from the top, 1 for dark.
#[derive(Clone, Debug, PartialEq, Eq)]
pub struct Symbol {
    pub rows: u16,
    pub columns: u16,
    pub modules: Vec<u8>,
}

impl Symbol {
    /// The symbol as it is read, with no module doubtful.
    pub fn grid(&self) -> Grid<'_> {
        Grid::new(&self.modules, self.rows, self.columns)
    }
}

/// What is read: modules, row by row from the top, anything but 0 for dark; and as many bytes that are 0 but for those
/// modules of which it is known that their colours tell nothing, or none.
#[derive(Clone, Copy, Debug, PartialEq, Eq)]
pub struct Grid<'a> {
    pub modules: &'a [u8],
    pub doubtful: &'a [u8],
    pub rows: u16,
    pub columns: u16,
}

impl<'a> Grid<'a> {
    /// A grid with no module doubtful.
    pub fn new(modules: &'a [u8], rows: u16, columns: u16) -> Self {
        Grid { modules, doubtful: &[], rows, columns }
    }

    /// The same grid with these modules doubtful.
    pub fn doubting(self, doubtful: &'a [u8]) -> Self {
        Grid { doubtful, ..self }
    }
}

/// The sizes that a symbol that is written may have: of the squares, of the rectangles of ISO/IEC 16022, of these and
/// those of ISO/IEC 21471, or of all, the smallest that holds what is said; or the one with these rows and columns.
#[derive(Clone, Copy, Debug, Default, PartialEq, Eq)]
pub enum Shape {
    #[default]
    Square,
    Rectangle,
    Extended,
    Any,
    One {
        rows: u16,
        columns: u16,
    },
}

/// How something is written; by default in ASCII encodation, in the smallest square, without a head.
#[derive(Clone, Copy, Debug, Default, PartialEq, Eq)]
pub struct How {
    pub form: Form,
    pub shape: Shape,
    pub head: Option<Head>,
}

/// What a symbol says, and how much of it was wrong.
#[derive(Clone, Debug, Default, PartialEq, Eq)]
pub struct Reading {
    pub head: Option<Head>,
    /// The message: 0 to 255, or [`FNC1`].
    pub items: Vec<u16>,
    pub marks: Vec<Mark>,
    /// 1 to 6: the symbology identifier of ISO/IEC 15424 is `]d` and this digit. It belongs to the codewords that were
    /// printed: symbols that say the same may have others.
    pub identifier: u16,
    /// Whether the codewords are dealt into blocks by the other dealing of 144 x 144.
    pub is_dealt_anew: bool,
    /// For each block, how many of its codewords were corrected, those not counted that are erased.
    pub corrected: Vec<u8>,
    /// For each block, how many of its codewords are erased, since a module of theirs is doubtful.
    pub erased: Vec<u8>,
    /// For each block, how many of its check codewords neither have used: a correction uses two, an erasure one.
    pub left: Vec<u8>,
    /// How many border modules that aren't doubtful have the wrong colour.
    pub border_faults: u16,
}

impl Reading {
    /// The bytes of the message without an FNC1 in front, and whether there was one; any other FNC1 becomes the byte
    /// 0x1D.
    pub fn text(&self) -> (Vec<u8>, bool) {
        let gs1 = self.items.first() == Some(&FNC1);
        let rest = self.items[usize::from(gs1)..].iter();
        (rest.map(|item| u8::try_from(*item).unwrap_or(0x1D)).collect(), gs1)
    }
}

/// The codewords of a symbol.
#[derive(Clone, Debug, PartialEq, Eq)]
pub struct Inspection {
    /// As they stand in the symbol: data codewords and then check codewords.
    pub held: Vec<u8>,
    /// With each block corrected; a block beyond correction is left as it is.
    pub mended: Vec<u8>,
    /// For each block as in a [`Reading`], or None beyond correction.
    pub corrected: Vec<Option<u8>>,
    /// For each block as in a [`Reading`], or 0 beyond correction.
    pub erased: Vec<u8>,
    /// The same.
    pub left: Vec<u8>,
    /// How many border modules that aren't doubtful have the wrong colour.
    pub border_faults: u16,
    /// The ECI designators: as the marks of a [`Reading`], but the place of each is how many codewords stand before its
    /// ECI, 241. There are none where a block is beyond correction, and where [`Extent::Wide`] reads nothing.
    pub designators: Vec<Mark>,
}

/// What a module is.
#[derive(Clone, Copy, Debug, PartialEq, Eq)]
pub enum Place {
    /// A bit of a codeword: codewords count from 0, bits from 1, the highest, to 8.
    Bit { codeword: u16, bit: u8 },
    /// A module of the border, which should be dark or light.
    Border { dark: bool },
    /// A module of the fixed square.
    Fixed { dark: bool },
}

/// A row of the table of sizes.
// ecc200.h: size
#[repr(C)]
#[derive(Clone, Copy, Debug, Default, PartialEq, Eq)]
pub struct Size {
    pub rows: u16,
    pub columns: u16,
    pub region_rows: u16,
    pub region_columns: u16,
    pub regions_down: u16,
    pub regions_across: u16,
    pub mapping_rows: u16,
    pub mapping_columns: u16,
    pub data_codewords: u16,
    pub check_codewords: u16,
    pub blocks: u16,
    pub limit: u16,
    pub extension: u16,
}
// ecc200.h: end

mod sys {
    use super::*;
    use std::mem::offset_of;

    // ecc200.h: structs
    #[repr(C)]
    pub struct ScanIn {
        pub rows: u16,
        pub columns: u16,
        pub limit: u16,
        pub border_limit: u16,
        pub extent: u16,
    }

    #[repr(C)]
    #[derive(Clone, Copy)]
    pub struct HeadNumbers {
        pub kind: u16,
        pub part: u16,
        pub parts: u16,
        pub file: [u8; 2],
    }

    #[repr(C)]
    pub struct ReadingOut {
        pub fault: Fault,
        pub rows: u16,
        pub columns: u16,
        pub border_faults: u16,
        pub block_count: u16,
        pub item_count: u16,
        pub mark_count: u16,
        pub identifier: u16,
        pub dealing: u16,
        pub head: HeadNumbers,
        pub corrected: [u8; MOST_BLOCKS],
        pub erased: [u8; MOST_BLOCKS],
        pub left: [u8; MOST_BLOCKS],
        pub marks: [Mark; MOST_MARKS],
        pub items: [u16; MOST_ITEMS],
    }

    #[repr(C)]
    pub struct HowIn {
        pub form: u16,
        pub shape: u16,
        pub rows: u16,
        pub columns: u16,
        pub extent: u16,
        pub head: HeadNumbers,
    }

    #[repr(C)]
    pub struct SymbolOut {
        pub fault: Fault,
        pub rows: u16,
        pub columns: u16,
        pub modules: [u8; MOST_MODULES],
    }

    #[repr(C)]
    pub struct InspectionOut {
        pub fault: Fault,
        pub rows: u16,
        pub columns: u16,
        pub border_faults: u16,
        pub block_count: u16,
        pub codeword_count: u16,
        pub dealing: u16,
        pub designator_count: u16,
        pub designators: [Mark; MOST_MARKS],
        pub corrected: [u8; MOST_BLOCKS],
        pub erased: [u8; MOST_BLOCKS],
        pub left: [u8; MOST_BLOCKS],
        pub held: [u8; MOST_CODEWORDS],
        pub mended: [u8; MOST_CODEWORDS],
    }

    #[repr(C)]
    #[derive(Clone, Copy)]
    pub struct PlaceOut {
        pub codeword: u16,
        pub bit: u8,
        pub kind: u8,
    }

    #[repr(C)]
    pub struct PlacesOut {
        pub fault: Fault,
        pub rows: u16,
        pub columns: u16,
        pub places: [PlaceOut; MOST_MODULES],
    }

    #[repr(C)]
    pub struct SizesOut {
        pub sizes: [Size; SIZE_COUNT],
    }
    // ecc200.h: end

    unsafe extern "C" {
        pub safe fn ecc200_abi() -> u16;
        pub safe fn ecc200_usual_limit(rows: u16, columns: u16) -> u16;
        pub fn ecc200_read(
            modules: *const u8,
            count: usize,
            doubtful: *const u8,
            doubtful_count: usize,
            scan: *const ScanIn,
            out: *mut ReadingOut,
        ) -> u16;
        pub safe fn ecc200_version() -> *const c_char;
        pub fn ecc200_write_bytes(bytes: *const u8, count: usize, how: *const HowIn, out: *mut SymbolOut) -> u16;
        pub fn ecc200_write(
            items: *const u16,
            count: usize,
            marks: *const Mark,
            mark_count: usize,
            how: *const HowIn,
            out: *mut SymbolOut,
        ) -> u16;
        pub fn ecc200_normal(
            modules: *const u8,
            count: usize,
            doubtful: *const u8,
            doubtful_count: usize,
            scan: *const ScanIn,
            profile: u16,
            out: *mut SymbolOut,
        ) -> u16;
        pub fn ecc200_inspect(
            modules: *const u8,
            count: usize,
            doubtful: *const u8,
            doubtful_count: usize,
            rows: u16,
            columns: u16,
            out: *mut InspectionOut,
        ) -> u16;
        pub safe fn ecc200_places(rows: u16, columns: u16, out: &mut PlacesOut) -> u16;
        pub safe fn ecc200_sizes(out: &mut SizesOut);
    }

    // ecc200.h: layout
    const _: () = assert!(size_of::<Fault>() == 6);
    const _: () = assert!(offset_of!(Fault, code) == 0);
    const _: () = assert!(offset_of!(Fault, value) == 2);
    const _: () = assert!(offset_of!(Fault, place) == 4);
    const _: () = assert!(size_of::<ScanIn>() == 10);
    const _: () = assert!(offset_of!(ScanIn, rows) == 0);
    const _: () = assert!(offset_of!(ScanIn, columns) == 2);
    const _: () = assert!(offset_of!(ScanIn, limit) == 4);
    const _: () = assert!(offset_of!(ScanIn, border_limit) == 6);
    const _: () = assert!(offset_of!(ScanIn, extent) == 8);
    const _: () = assert!(size_of::<HeadNumbers>() == 8);
    const _: () = assert!(offset_of!(HeadNumbers, kind) == 0);
    const _: () = assert!(offset_of!(HeadNumbers, part) == 2);
    const _: () = assert!(offset_of!(HeadNumbers, parts) == 4);
    const _: () = assert!(offset_of!(HeadNumbers, file) == 6);
    const _: () = assert!(size_of::<Mark>() == 8);
    const _: () = assert!(offset_of!(Mark, number) == 0);
    const _: () = assert!(offset_of!(Mark, place) == 4);
    const _: () = assert!(size_of::<ReadingOut>() == 12540);
    const _: () = assert!(offset_of!(ReadingOut, fault) == 0);
    const _: () = assert!(offset_of!(ReadingOut, rows) == 6);
    const _: () = assert!(offset_of!(ReadingOut, columns) == 8);
    const _: () = assert!(offset_of!(ReadingOut, border_faults) == 10);
    const _: () = assert!(offset_of!(ReadingOut, block_count) == 12);
    const _: () = assert!(offset_of!(ReadingOut, item_count) == 14);
    const _: () = assert!(offset_of!(ReadingOut, mark_count) == 16);
    const _: () = assert!(offset_of!(ReadingOut, identifier) == 18);
    const _: () = assert!(offset_of!(ReadingOut, dealing) == 20);
    const _: () = assert!(offset_of!(ReadingOut, head) == 22);
    const _: () = assert!(offset_of!(ReadingOut, corrected) == 30);
    const _: () = assert!(offset_of!(ReadingOut, erased) == 40);
    const _: () = assert!(offset_of!(ReadingOut, left) == 50);
    const _: () = assert!(offset_of!(ReadingOut, marks) == 60);
    const _: () = assert!(offset_of!(ReadingOut, items) == 6292);
    const _: () = assert!(size_of::<HowIn>() == 18);
    const _: () = assert!(offset_of!(HowIn, form) == 0);
    const _: () = assert!(offset_of!(HowIn, shape) == 2);
    const _: () = assert!(offset_of!(HowIn, rows) == 4);
    const _: () = assert!(offset_of!(HowIn, columns) == 6);
    const _: () = assert!(offset_of!(HowIn, extent) == 8);
    const _: () = assert!(offset_of!(HowIn, head) == 10);
    const _: () = assert!(size_of::<SymbolOut>() == 20746);
    const _: () = assert!(offset_of!(SymbolOut, fault) == 0);
    const _: () = assert!(offset_of!(SymbolOut, rows) == 6);
    const _: () = assert!(offset_of!(SymbolOut, columns) == 8);
    const _: () = assert!(offset_of!(SymbolOut, modules) == 10);
    const _: () = assert!(size_of::<InspectionOut>() == 10640);
    const _: () = assert!(offset_of!(InspectionOut, fault) == 0);
    const _: () = assert!(offset_of!(InspectionOut, rows) == 6);
    const _: () = assert!(offset_of!(InspectionOut, columns) == 8);
    const _: () = assert!(offset_of!(InspectionOut, border_faults) == 10);
    const _: () = assert!(offset_of!(InspectionOut, block_count) == 12);
    const _: () = assert!(offset_of!(InspectionOut, codeword_count) == 14);
    const _: () = assert!(offset_of!(InspectionOut, dealing) == 16);
    const _: () = assert!(offset_of!(InspectionOut, designator_count) == 18);
    const _: () = assert!(offset_of!(InspectionOut, designators) == 20);
    const _: () = assert!(offset_of!(InspectionOut, corrected) == 6252);
    const _: () = assert!(offset_of!(InspectionOut, erased) == 6262);
    const _: () = assert!(offset_of!(InspectionOut, left) == 6272);
    const _: () = assert!(offset_of!(InspectionOut, held) == 6282);
    const _: () = assert!(offset_of!(InspectionOut, mended) == 8460);
    const _: () = assert!(size_of::<PlaceOut>() == 4);
    const _: () = assert!(offset_of!(PlaceOut, codeword) == 0);
    const _: () = assert!(offset_of!(PlaceOut, bit) == 2);
    const _: () = assert!(offset_of!(PlaceOut, kind) == 3);
    const _: () = assert!(size_of::<PlacesOut>() == 82954);
    const _: () = assert!(offset_of!(PlacesOut, fault) == 0);
    const _: () = assert!(offset_of!(PlacesOut, rows) == 6);
    const _: () = assert!(offset_of!(PlacesOut, columns) == 8);
    const _: () = assert!(offset_of!(PlacesOut, places) == 10);
    const _: () = assert!(size_of::<Size>() == 26);
    const _: () = assert!(offset_of!(Size, rows) == 0);
    const _: () = assert!(offset_of!(Size, columns) == 2);
    const _: () = assert!(offset_of!(Size, region_rows) == 4);
    const _: () = assert!(offset_of!(Size, region_columns) == 6);
    const _: () = assert!(offset_of!(Size, regions_down) == 8);
    const _: () = assert!(offset_of!(Size, regions_across) == 10);
    const _: () = assert!(offset_of!(Size, mapping_rows) == 12);
    const _: () = assert!(offset_of!(Size, mapping_columns) == 14);
    const _: () = assert!(offset_of!(Size, data_codewords) == 16);
    const _: () = assert!(offset_of!(Size, check_codewords) == 18);
    const _: () = assert!(offset_of!(Size, blocks) == 20);
    const _: () = assert!(offset_of!(Size, limit) == 22);
    const _: () = assert!(offset_of!(Size, extension) == 24);
    const _: () = assert!(size_of::<SizesOut>() == 1248);
    const _: () = assert!(offset_of!(SizesOut, sizes) == 0);
    // ecc200.h: end
}

/// A struct of the library with all its bytes 0, on the heap.
///
/// # Safety
/// All bytes 0 must be a valid value of the type, and the type must have a size above 0.
unsafe fn zeros<T>() -> Box<T> {
    let layout = Layout::new::<T>();
    let place = unsafe { alloc::alloc_zeroed(layout) };
    if place.is_null() {
        alloc::handle_alloc_error(layout);
    }
    unsafe { Box::from_raw(place.cast()) }
}

/// Whether the linked library has the interface of this file.
pub fn is_compatible() -> bool {
    sys::ecc200_abi() == ABI
}

/// The version of the linked library.
pub fn version() -> &'static str {
    unsafe { CStr::from_ptr(sys::ecc200_version()) }.to_str().unwrap_or_default()
}

/// The sum of the rows and the columns, divided by 8 and rounded down.
pub fn usual_limit(rows: u16, columns: u16) -> u16 {
    sys::ecc200_usual_limit(rows, columns)
}

fn scan(extent: Extent, grid: Grid<'_>, border_limit: BorderLimit) -> sys::ScanIn {
    let (limit, border_limit) = match border_limit {
        BorderLimit::Usual => (USUAL_LIMIT, 0),
        BorderLimit::Sure => (SURE_LIMIT, 0),
        BorderLimit::Any => (ANY_LIMIT, 0),
        BorderLimit::Modules(count) => (GIVEN_LIMIT, count),
    };
    sys::ScanIn { rows: grid.rows, columns: grid.columns, limit, border_limit, extent: extent as u16 }
}

/// What a symbol says, in the extent `Wide`.
pub fn read(grid: Grid<'_>, border_limit: BorderLimit) -> Result<Reading, Fault> {
    read_as(Extent::Wide, grid, border_limit)
}

/// What a symbol says, in an extent.
pub fn read_as(extent: Extent, grid: Grid<'_>, border_limit: BorderLimit) -> Result<Reading, Fault> {
    let mut out = unsafe { zeros::<sys::ReadingOut>() };
    let (modules, doubtful, scan) = (grid.modules, grid.doubtful, scan(extent, grid, border_limit));
    let code = unsafe {
        sys::ecc200_read(modules.as_ptr(), modules.len(), doubtful.as_ptr(), doubtful.len(), &scan, &mut *out)
    };
    let blocks = usize::from(out.block_count);
    match code {
        0 => Ok(Reading {
            head: head(&out.head),
            items: out.items[..usize::from(out.item_count)].to_vec(),
            marks: out.marks[..usize::from(out.mark_count)].to_vec(),
            identifier: out.identifier,
            is_dealt_anew: out.dealing != 0,
            corrected: out.corrected[..blocks].to_vec(),
            erased: out.erased[..blocks].to_vec(),
            left: out.left[..blocks].to_vec(),
            border_faults: out.border_faults,
        }),
        _ => Err(out.fault),
    }
}

fn head(of: &sys::HeadNumbers) -> Option<Head> {
    match of.kind {
        PART => Some(Head::Part { part: of.part, parts: of.parts, file: of.file }),
        PROGRAMMING => Some(Head::Programming),
        _ => None,
    }
}

fn symbol(code: u16, out: &sys::SymbolOut) -> Result<Symbol, Fault> {
    let (rows, columns) = (out.rows, out.columns);
    match code {
        0 => Ok(Symbol { rows, columns, modules: out.modules[..usize::from(rows) * usize::from(columns)].to_vec() }),
        _ => Err(out.fault),
    }
}

fn numbers(head: Option<Head>) -> sys::HeadNumbers {
    match head {
        Some(Head::Part { part, parts, file }) => sys::HeadNumbers { kind: PART, part, parts, file },
        Some(Head::Programming) => sys::HeadNumbers { kind: PROGRAMMING, part: 0, parts: 0, file: [0; 2] },
        None => sys::HeadNumbers { kind: NO_HEAD, part: 0, parts: 0, file: [0; 2] },
    }
}

fn given(how: How) -> sys::HowIn {
    let (shape, rows, columns) = match how.shape {
        Shape::Square => (SQUARE, 0, 0),
        Shape::Rectangle => (RECTANGLE, 0, 0),
        Shape::Extended => (EXTENDED, 0, 0),
        Shape::Any => (ANY, 0, 0),
        Shape::One { rows, columns } => (ONE, rows, columns),
    };
    let (form, extent) = match how.form {
        Form::Normal(profile) => (profile as u16, 0),
        Form::Smallest(extent) => (SMALLEST, extent as u16),
    };
    sys::HowIn { form, shape, rows, columns, extent, head: numbers(how.head) }
}

/// The symbol that says these items and marks, and the head of `how`; by default its normal grid.
pub fn write(items: &[u16], marks: &[Mark], how: How) -> Result<Symbol, Fault> {
    let mut out = unsafe { zeros::<sys::SymbolOut>() };
    let how = given(how);
    let code = unsafe {
        sys::ecc200_write(items.as_ptr(), items.len(), marks.as_ptr(), marks.len(), &how, &mut *out)
    };
    symbol(code, &out)
}

/// The symbol of bytes, each of which is an item, without marks.
pub fn write_bytes(bytes: &[u8], how: How) -> Result<Symbol, Fault> {
    let mut out = unsafe { zeros::<sys::SymbolOut>() };
    let code = unsafe { sys::ecc200_write_bytes(bytes.as_ptr(), bytes.len(), &given(how), &mut *out) };
    symbol(code, &out)
}

/// The normal grid of what a symbol says, read in the extent `Wide`.
pub fn normal(grid: Grid<'_>, border_limit: BorderLimit, profile: Profile) -> Result<Symbol, Fault> {
    normal_as(Extent::Wide, grid, border_limit, profile)
}

/// The normal grid of what a symbol says, read in an extent.
pub fn normal_as(
    extent: Extent,
    grid: Grid<'_>,
    border_limit: BorderLimit,
    profile: Profile,
) -> Result<Symbol, Fault> {
    let mut out = unsafe { zeros::<sys::SymbolOut>() };
    let (modules, doubtful, scan) = (grid.modules, grid.doubtful, scan(extent, grid, border_limit));
    let code = unsafe {
        sys::ecc200_normal(
            modules.as_ptr(),
            modules.len(),
            doubtful.as_ptr(),
            doubtful.len(),
            &scan,
            profile as u16,
            &mut *out,
        )
    };
    symbol(code, &out)
}

/// The codewords of a symbol, even if it can't be read.
pub fn inspect(grid: Grid<'_>) -> Result<Inspection, Fault> {
    let mut out = unsafe { zeros::<sys::InspectionOut>() };
    let (modules, doubtful) = (grid.modules, grid.doubtful);
    let code = unsafe {
        sys::ecc200_inspect(
            modules.as_ptr(),
            modules.len(),
            doubtful.as_ptr(),
            doubtful.len(),
            grid.rows,
            grid.columns,
            &mut *out,
        )
    };
    let (blocks, count) = (usize::from(out.block_count), usize::from(out.codeword_count));
    match code {
        0 => Ok(Inspection {
            held: out.held[..count].to_vec(),
            mended: out.mended[..count].to_vec(),
            corrected: out.corrected[..blocks].iter().map(|count| (*count != BEYOND).then_some(*count)).collect(),
            erased: out.erased[..blocks].to_vec(),
            left: out.left[..blocks].to_vec(),
            border_faults: out.border_faults,
            designators: out.designators[..usize::from(out.designator_count)].to_vec(),
        }),
        _ => Err(out.fault),
    }
}

/// What each module of a symbol of these rows and columns is, row by row.
pub fn places(rows: u16, columns: u16) -> Result<Vec<Place>, Fault> {
    let mut out = unsafe { zeros::<sys::PlacesOut>() };
    match sys::ecc200_places(rows, columns, &mut out) {
        0 => Ok(out.places[..usize::from(rows) * usize::from(columns)].iter().map(place).collect()),
        _ => Err(out.fault),
    }
}

// ecc200.h: kinds
const BIT: u8 = 1;
const BORDER_LIGHT: u8 = 2;
const BORDER_DARK: u8 = 3;
const FIXED_LIGHT: u8 = 4;
const FIXED_DARK: u8 = 5;
// ecc200.h: end

fn place(at: &sys::PlaceOut) -> Place {
    match at.kind {
        BIT => Place::Bit { codeword: at.codeword, bit: at.bit },
        kind @ (BORDER_LIGHT | BORDER_DARK) => Place::Border { dark: kind == BORDER_DARK },
        kind => Place::Fixed { dark: kind == FIXED_DARK },
    }
}

/// The table of sizes, by rising number of modules, and of those with as many by rising columns.
pub fn sizes() -> [Size; SIZE_COUNT] {
    let mut out = sys::SizesOut { sizes: [Size::default(); SIZE_COUNT] };
    sys::ecc200_sizes(&mut out);
    out.sizes
}
