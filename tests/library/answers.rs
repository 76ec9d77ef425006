//! Answers requests, one on each line of the standard input, by every public function of `ecc200.rs`, with a line for
//! each. `tests/library/cases.py` has the requests and the answers that are wanted.
mod ecc200;

use ecc200::{BorderLimit, Extent, Fault, Form, Grid, Head, How, Inspection, Mark};
use ecc200::{Place, Profile, Reading, Shape, Size, Symbol};
use std::error::Error;
use std::io::{self, BufRead, Write};

/// Words of a request.
struct Words<'a>(std::str::SplitAsciiWhitespace<'a>);

impl Words<'_> {
    fn word(&mut self) -> &str {
        self.0.next().expect("a request lacks a word")
    }

    fn number(&mut self) -> u16 {
        self.word().parse().expect("a number")
    }

    /// Bytes that are written as pairs of hexadecimal digits, or none as -.
    fn bytes(&mut self) -> Vec<u8> {
        let text = self.word().trim_matches('-').as_bytes();
        let digit = |letter: u8| (letter as char).to_digit(16).expect("a digit") as u8;
        text.chunks(2).map(|pair| 16 * digit(pair[0]) + digit(pair[1])).collect()
    }

    /// What is written with commas between it, or none as -.
    fn list<T>(&mut self, item: fn(&str) -> T) -> Vec<T> {
        self.word().trim_matches('-').split(',').filter(|text| !text.is_empty()).map(item).collect()
    }

    fn items(&mut self) -> Vec<u16> {
        self.list(|text| text.parse().expect("an item"))
    }

    /// An extent that exists: no other can be given to a function.
    fn extent(&mut self) -> Extent {
        [Extent::Wide, Extent::Usual][usize::from(self.number())]
    }

    /// A border limit that exists, written as its kind and its number with a colon between them.
    fn limit(&mut self) -> BorderLimit {
        let (kind, number) = self.word().split_once(':').expect("a limit");
        match kind {
            "0" => BorderLimit::Usual,
            "1" => BorderLimit::Sure,
            "2" => BorderLimit::Any,
            _ => BorderLimit::Modules(number.parse().expect("a number")),
        }
    }

    /// A shape that exists, or a size.
    fn shape(&mut self) -> Shape {
        let (shape, rows, columns) = (self.number(), self.number(), self.number());
        let one = Shape::One { rows, columns };
        [Shape::Square, Shape::Rectangle, Shape::Extended, Shape::Any, one][usize::from(shape)]
    }

    /// Marks that are written as a number, @ and a place.
    fn marks(&mut self) -> Vec<Mark> {
        self.list(|text| {
            let (number, place) = text.split_once('@').expect("a mark");
            Mark { number: number.parse().expect("a number"), place: place.parse().expect("a place") }
        })
    }

    /// A head that is written as five numbers with colons between them.
    fn head(&mut self) -> Option<Head> {
        let each: Vec<u16> = self.word().split(':').map(|number| number.parse().expect("a number")).collect();
        match each[0] {
            0 => None,
            1 => Some(Head::Part { part: each[1], parts: each[2], file: [each[3] as u8, each[4] as u8] }),
            _ => Some(Head::Programming),
        }
    }

    /// A form, a shape or a size, an extent, which is of no account without the form that has one, and a head.
    fn how(&mut self) -> How {
        let (form, shape, extent) = (self.number(), self.shape(), self.extent());
        let forms = [Form::Normal(Profile::Ascii), Form::Normal(Profile::Shorter), Form::Smallest(extent)];
        How { form: forms[usize::from(form)], shape, head: self.head() }
    }

    /// A profile that exists.
    fn profile(&mut self) -> Profile {
        [Profile::Ascii, Profile::Shorter][usize::from(self.number())]
    }
}

fn numbers<T: ToString>(some: &[T]) -> String {
    match some {
        [] => "-".to_string(),
        _ => some.iter().map(T::to_string).collect::<Vec<_>>().join(","),
    }
}

fn refused(why: Fault) -> String {
    format!("no {} {} {}", why.code, why.value, why.place)
}

/// What each block had.
fn blocks(corrected: &[String], erased: &[u8], left: &[u8]) -> String {
    let counts = format!("corrected {} erased {} left {}", numbers(corrected), numbers(erased), numbers(left));
    format!("blocks {} {counts}", corrected.len())
}

fn marking(marks: &[Mark]) -> String {
    numbers(&marks.iter().map(|mark| format!("{}@{}", mark.number, mark.place)).collect::<Vec<_>>())
}

/// Items, marks and head.
fn said(got: &Reading) -> String {
    let head = match got.head {
        None => "0:0:0:0:0".to_string(),
        Some(Head::Part { part, parts, file: [a, b] }) => format!("1:{part}:{parts}:{a}:{b}"),
        Some(Head::Programming) => "2:0:0:0:0".to_string(),
    };
    format!("items {} marks {} head {head}", numbers(&got.items), marking(&got.marks))
}

fn reading(rows: u16, columns: u16, got: Reading) -> String {
    let counted: Vec<_> = got.corrected.iter().map(u8::to_string).collect();
    let counts = blocks(&counted, &got.erased, &got.left);
    let dealing = u8::from(got.is_dealt_anew);
    let found = format!("rows {rows} columns {columns} border {} {counts}", got.border_faults);
    format!("{found} {} identifier {} dealing {dealing}", said(&got), got.identifier)
}

/// The size of the smallest symbol, whether the usual extent reads it, and what it says.
fn smallest(words: &mut Words) -> Result<String, Fault> {
    let (extent, shape, head) = (words.extent(), words.shape(), words.head());
    let marks = words.marks();
    let how = How { form: Form::Smallest(extent), shape, head };
    let symbol = ecc200::write(&words.items(), &marks, how)?;
    let none = BorderLimit::Modules(0);
    let usual = u8::from(ecc200::read_as(Extent::Usual, symbol.grid(), none).is_ok());
    let got = ecc200::read_as(extent, symbol.grid(), none)?;
    Ok(format!("rows {} columns {} usual {usual} {}", symbol.rows, symbol.columns, said(&got)))
}

fn symbol(Symbol { rows, columns, modules }: Symbol) -> String {
    let shown = modules.iter().map(u8::to_string).collect::<String>();
    format!("rows {rows} columns {columns} modules {shown}")
}

fn inspection(rows: u16, columns: u16, got: Inspection) -> String {
    let Inspection { held, mended, corrected, erased, left, border_faults, designators } = got;
    let shown = |count: &Option<u8>| count.map_or("beyond".to_string(), |it| it.to_string());
    let counted: Vec<_> = corrected.iter().map(shown).collect();
    let words = format!("held {} mended {} designators {}", numbers(&held), numbers(&mended), marking(&designators));
    format!("rows {rows} columns {columns} border {border_faults} {} {words}", blocks(&counted, &erased, &left))
}

fn place(at: &Place) -> String {
    match *at {
        Place::Bit { codeword, bit } => format!(" 1,{codeword},{bit}"),
        Place::Border { dark } => format!(" {},0,0", if dark { 3 } else { 2 }),
        Place::Fixed { dark } => format!(" {},0,0", if dark { 5 } else { 4 }),
    }
}

fn size(row: &Size) -> String {
    let Size { rows, columns, region_rows, region_columns, regions_down, regions_across, .. } = row;
    let Size { mapping_rows, mapping_columns, data_codewords, check_codewords, blocks, limit, extension, .. } = row;
    let regions = format!("{rows} {columns} {region_rows} {region_columns} {regions_down} {regions_across}");
    let codewords = format!("{data_codewords} {check_codewords} {blocks} {limit} {extension}");
    format!("{regions} {mapping_rows} {mapping_columns} {codewords}")
}

macro_rules! named {
    ($($name:ident)*) => { [$((stringify!($name), $name)),*] };
}

fn constants() -> String {
    use ecc200::code::*;
    use ecc200::FNC1;
    let others = [("WIDE", Extent::Wide as u16), ("USUAL", Extent::Usual as u16)].into_iter();
    let others = others.chain([("ASCII", Profile::Ascii as u16), ("SHORTER", Profile::Shorter as u16)]);
    let codes = named!(OK SHAPE SIZE BORDER BLOCK RESERVED LEFT_OUT UPPER_SHIFT TRIPLET VALUE LENGTH UNFINISHED TOO_LONG
        ITEM PROFILE EXTENT CHOICE DOUBT DESIGNATOR APPEND MARK HEAD LIMIT);
    let every = named!(FNC1).into_iter().chain(others).chain(codes);
    every.map(|(name, value)| format!("{name}={value} ")).collect()
}

/// The bytes of items as a reading gives them, and whether FNC1 stands in front.
fn text(items: Vec<u16>) -> String {
    let (bytes, gs1) = Reading { items, ..Reading::default() }.text();
    format!("{} gs1 {} bytes {}", bytes.len(), u8::from(gs1), numbers(&bytes))
}

/// A fault in words, as people and as other errors see it.
fn words(code: u16) -> String {
    let fault = Fault { code, ..Fault::default() };
    let why: Box<dyn Error> = Box::new(fault);
    assert_eq!((fault.value, fault.place, why.to_string()), (0, 0, fault.to_string()));
    fault.to_string()
}

/// Rows, columns, modules and doubtful modules.
struct Given {
    rows: u16,
    columns: u16,
    modules: Vec<u8>,
    doubtful: Vec<u8>,
}

impl Given {
    fn of(words: &mut Words) -> Self {
        let (rows, columns) = (words.number(), words.number());
        Given { rows, columns, modules: words.bytes(), doubtful: words.bytes() }
    }

    fn grid(&self) -> Grid<'_> {
        let grid = Grid::new(&self.modules, self.rows, self.columns);
        assert!(grid.doubtful.is_empty());
        grid.doubting(&self.doubtful)
    }
}

fn answer_read(words: &mut Words) -> Result<String, Fault> {
    let (extent, limit) = (words.extent(), words.limit());
    let given = Given::of(words);
    let got = ecc200::read_as(extent, given.grid(), limit);
    assert_eq!((Extent::default(), BorderLimit::default()), (Extent::Wide, BorderLimit::Usual));
    if extent == Extent::Wide {
        assert_eq!(ecc200::read(given.grid(), limit), got);
    }
    Ok(reading(given.rows, given.columns, got?))
}

fn answer_normal(words: &mut Words) -> Result<String, Fault> {
    let (extent, profile, limit) = (words.extent(), words.profile(), words.limit());
    let given = Given::of(words);
    let got = ecc200::normal_as(extent, given.grid(), limit, profile);
    if extent == Extent::Wide {
        assert_eq!(ecc200::normal(given.grid(), limit, profile), got);
    }
    let made = got?;
    assert_eq!(made.grid(), Grid::new(&made.modules, made.rows, made.columns));
    Ok(symbol(made))
}

fn answer(line: &str) -> Result<String, Fault> {
    let mut words = Words(line.split_ascii_whitespace());
    let name = words.word().to_string();
    Ok(match name.as_str() {
        "read" => answer_read(&mut words)?,
        "normal" => answer_normal(&mut words)?,
        "write" => {
            let (how, marks) = (words.how(), words.marks());
            let usual = How { form: Form::Normal(Profile::Ascii), shape: Shape::Square, head: None };
            assert_eq!(How::default(), usual);
            symbol(ecc200::write(&words.items(), &marks, how)?)
        }
        "write_bytes" => {
            let how = words.how();
            symbol(ecc200::write_bytes(&words.bytes(), how)?)
        }
        "smallest" => smallest(&mut words)?,
        "inspect" => {
            let given = Given::of(&mut words);
            inspection(given.rows, given.columns, ecc200::inspect(given.grid())?)
        }
        "places" => {
            let (rows, columns) = (words.number(), words.number());
            let each = ecc200::places(rows, columns)?.iter().map(place).collect::<String>();
            format!("rows {rows} columns {columns}{each}")
        }
        "sizes" => ecc200::sizes().iter().map(size).collect::<Vec<_>>().join(" | "),
        "compatible" => u8::from(ecc200::is_compatible()).to_string(),
        "limit" => ecc200::usual_limit(words.number(), words.number()).to_string(),
        "words" => self::words(words.number()),
        "text" => text(words.items()),
        "constants" => constants(),
        "version" => ecc200::version().to_string(),
        other => panic!("no such request: {other}"),
    })
}

fn main() -> io::Result<()> {
    let mut out = io::BufWriter::new(io::stdout().lock());
    for line in io::stdin().lock().lines() {
        writeln!(out, "{}", answer(&line?).unwrap_or_else(refused))?;
    }
    out.flush()
}
