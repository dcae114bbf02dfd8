//! Rings up a sale: scan, show, pay, print, and the day's totals in a file. Usage: sale FILE
//!
//! The file is created if it is missing. `sale.py` and `sale.c` are the same sale.
use kijolvar::standard::{DisplayAttribute, ErrorReply, PrinterStation, ResultCode, ScanDataType};
use kijolvar::{
    Cause, Error, Event, HardTotals, LineDisplay, PosPrinter, Printed, Scanner, Till, Totals, Work,
};

const PROFILE: &str = r#"
device = [
    { name = "drawer", category = "CashDrawer" },
    { name = "scanner", category = "Scanner" },
    { name = "display", category = "LineDisplay", rows = 2, columns = 20 },
    { name = "printer", category = "POSPrinter", chars = 20, lines = 2, near = 1 },
    { name = "totals", category = "HardTotals" },
]
"#;
const ARTICLES: [(&str, &str, u64); 2] = [("4006381", "Bread", 450), ("4006398", "Milk", 139)];

type Basket = Vec<(&'static str, u64)>;

fn total(basket: &Basket) -> u64 {
    basket.iter().map(|(_, cents)| cents).sum()
}

fn row(text: &str, cents: u64) -> String {
    format!("{text:<13}{:4}.{:02}", cents / 100, cents % 100)
}

/// Hears the scanner. A scan that fails drops those before it, and the article is scanned again.
fn hear(scanner: &Scanner, display: &LineDisplay, basket: &mut Basket) -> Result<(), Error> {
    for event in scanner.events() {
        match event? {
            Event::Error(error) => {
                let (code, locus) = (error.code.number(), error.locus.number());
                println!("scanner: ErrorEvent {code} 0 {locus}: clear");
                scanner.reply_to(error, ErrorReply::Clear)?;
            }
            Event::Data => {
                let label = scanner.scan_data_label()?;
                let found = ARTICLES.iter().find(|(code, ..)| code.as_bytes() == label);
                basket.extend(found.map(|(_, name, cents)| (*name, *cents)));
                let unknown = || format!("{:<20}", "Unknown article");
                let first = found.map_or_else(unknown, |(_, name, cents)| row(name, *cents));
                display.clear_text()?;
                display.display_text(
                    first + &row("Total", total(basket)),
                    DisplayAttribute::Normal,
                )?;
                scanner.set_data_event_enabled(true)?;
            }
            _ => {}
        }
    }
    Ok(())
}

fn scan(till: &Till) -> Result<Basket, Error> {
    let scanner = till.scanner("scanner")?.enabled()?;
    let display = till.line_display("display")?.enabled()?;
    let mut basket = Basket::new();
    scanner.set_decode_data(true)?;
    scanner.set_data_event_enabled(true)?;
    till.input_scan("scanner", ScanDataType::Ean13.into(), "4006381", "4006381")?;
    hear(&scanner, &display, &mut basket)?;
    till.input_scan("scanner", ScanDataType::Ean13.into(), "4006398", "4006398")?;
    till.input_scan_fault("scanner")?;
    hear(&scanner, &display, &mut basket)?;
    till.input_scan("scanner", ScanDataType::Ean13.into(), "4006398", "4006398")?;
    hear(&scanner, &display, &mut basket)?;
    println!(
        "display: {}",
        String::from_utf8_lossy(&till.show_display("display")?.characters)
    );
    Ok(basket)
}

fn pay(till: &Till) -> Result<(), Error> {
    let drawer = till.cash_drawer("drawer")?.enabled()?;
    drawer.open_drawer()?;
    for event in drawer.events() {
        if let Event::StatusUpdate(status) = event? {
            println!("drawer: StatusUpdateEvent {}", status.number());
        }
    }
    Ok(())
}

/// Returns the handle of a file of the totals, which is created if it is missing.
fn file_of(totals: &HardTotals, name: &str) -> Result<u64, Error> {
    match totals.find(name) {
        Err(error) if error.code() == Some(ResultCode::NoExist) => totals.create(name, 8, false),
        found => found.map(|(handle, _)| handle),
    }
}

fn number_in(totals: &HardTotals, handle: u64) -> Result<u64, Error> {
    Ok(totals
        .read(handle, 0, 8)?
        .iter()
        .fold(0, |number, byte| number << 8 | u64::from(*byte)))
}

/// Adds the sale to the day's totals: both files, or none.
fn book(till: &Till, cents: u64) -> Result<(), Error> {
    let totals = till.hard_totals("totals")?.enabled()?;
    let files = [
        (file_of(&totals, "SALES")?, cents),
        (file_of(&totals, "COUNT")?, 1),
    ];
    totals.transaction(|totals| {
        for (handle, more) in files {
            let sum = number_in(totals, handle)? + more;
            totals.write(handle, 0, sum.to_be_bytes())?;
        }
        Ok(())
    })
}

/// Prints the receipt while the sale goes on. The paper runs out, and is loaded.
fn print_receipt(till: &Till, printer: &PosPrinter, basket: &Basket) -> Result<(), Error> {
    let rows = basket.iter().copied().chain([("Total", total(basket))]);
    let text: String = rows.map(|(name, cents)| row(name, cents) + "\n").collect();
    printer.set_async_mode(true)?;
    printer.print_normal(PrinterStation::Receipt, text)?;
    while till.work("printer")? != Work::Idle {
        for event in printer.events() {
            match event? {
                Event::Error(error) => {
                    let extended = error.extended.map_or(0, |code| code.number());
                    println!(
                        "printer: ErrorEvent {} {extended} {}: retry",
                        error.code.number(),
                        error.locus.number()
                    );
                    till.input_paper("printer", 100)?;
                    printer.reply_to(error, ErrorReply::Retry)?;
                }
                Event::OutputComplete { output_id } => {
                    println!("printer: OutputCompleteEvent {output_id}")
                }
                Event::StatusUpdate(status) => {
                    println!("printer: StatusUpdateEvent {}", status.number())
                }
                _ => {}
            }
        }
    }
    for item in till.show_printer("printer")?.items {
        if let Printed::Line(_, text) = item {
            println!("receipt: {}", String::from_utf8_lossy(&text.characters));
        }
    }
    Ok(())
}

fn sell(till: &Till) -> Result<(), Error> {
    let printer = till.pos_printer("printer")?.enabled()?;
    let basket = scan(till)?;
    pay(till)?;
    book(till, total(&basket))?;
    print_receipt(till, &printer, &basket)?;
    till.input_cover("printer", true)?;
    if let Err(error) = printer.print_immediate(PrinterStation::Receipt, "Thank you") {
        let number = |number: Option<u32>| number.unwrap_or(0);
        let (code, extended) = (
            error.code().map(|code| code.number()),
            error.extended().map(|code| code.number()),
        );
        println!("print_immediate: {} {}", number(code), number(extended));
    }
    Ok(())
}

fn report(till: &Till) -> Result<(), Error> {
    let totals = till.hard_totals("totals")?.enabled()?;
    for index in 0..totals.number_of_files()? {
        let name = totals.find_by_index(index)?;
        let number = number_in(&totals, totals.find(&name)?.0)?;
        println!("totals: {} {number}", String::from_utf8_lossy(&name));
    }
    Ok(())
}

fn main() -> Result<(), Box<dyn std::error::Error>> {
    let path = std::env::args().nth(1).ok_or("usage: sale FILE")?;
    if let Err(error) = Till::open(&PROFILE.replace("rows = 2", "rows = 9"), Totals::Memory) {
        let Cause::BadProfile(mistake) = error.cause() else {
            return Err(error.into());
        };
        println!("profile: {mistake}");
    }
    sell(&Till::open(PROFILE, Totals::create(&path))?)?;
    report(&Till::open(PROFILE, Totals::existing(&path))?)?;
    Ok(())
}
