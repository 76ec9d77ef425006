//! One printed symbol, one damaged symbol, one refusal, one text with its charset.
//!
//!     rustc --edition 2021 -O library/examples/example.rs -L native=library/out -l static=ecc200
#[path = "../ecc200.rs"]
mod ecc200;

use ecc200::{BorderLimit, Extent, Fault, Form, How, Mark, Shape, Symbol};

/// A symbol with a quiet zone of one module on all sides.
fn print(symbol: &Symbol) {
    let blank = vec![0; usize::from(symbol.columns)];
    let rows = symbol.modules.chunks(blank.len());
    for row in std::iter::once(&blank[..]).chain(rows).chain(std::iter::once(&blank[..])) {
        let inside: String = row.iter().map(|module| if *module == 1 { "##" } else { "  " }).collect();
        println!("  {inside}  ");
    }
}

fn main() -> Result<(), Fault> {
    // a printed symbol
    let items: Vec<u16> = "Mitsubadoor".bytes().map(u16::from).collect();
    let mut symbol = ecc200::write(&items, &[], How::default())?;
    print(&symbol);

    // a damaged symbol: four modules in one corner
    let side = usize::from(symbol.columns);
    for at in 1..5 {
        symbol.modules[at * side + at] ^= 1;
    }
    let reading = ecc200::read(symbol.grid(), BorderLimit::Usual)?;
    let (text, _) = reading.text();
    println!(
        "{}: {} codewords corrected, {} border modules wrong",
        String::from_utf8_lossy(&text),
        reading.corrected[0],
        reading.border_faults
    );

    // a refusal: a symbol that is cut off below
    symbol.modules[(side - 1) * side..].fill(0);
    if let Err(why) = ecc200::read(symbol.grid(), BorderLimit::Usual) {
        println!("refused with {}: {why} ({})", why.code, why.value);
    }

    // a text with its charset: ECI 26 is UTF-8
    let items: Vec<u16> = "caf\u{E9}".bytes().map(u16::from).collect();
    let smallest = How { form: Form::Smallest(Extent::Wide), shape: Shape::Any, head: None };
    let symbol = ecc200::write(&items, &[Mark { number: 26, place: 0 }], smallest)?;
    let reading = ecc200::read(symbol.grid(), BorderLimit::Modules(0))?;
    let Mark { number, place } = reading.marks[0];
    let (size, count) = (format!("{} x {}", symbol.rows, symbol.columns), reading.items.len());
    println!("{size}: ]d{}, {count} bytes, ECI {number} at {place}", reading.identifier);
    Ok(())
}
