//! Rings up a sale by typed calls and by lines of the text interface, as c/sale.c does. Usage: sale_rust FILE
use kijolvar::standard::{DisplayAttribute, PrinterStation};
use kijolvar::{
    CashDrawer, Control, Error, Event, HardTotals, LineDisplay, PosPrinter, Scanner, Till, Totals, BUILT_PROFILE,
};
use std::time::Duration;

/// Carries out a line, and prints its answer.
fn tell(till: &Till, line: &str) -> Result<(), Error> {
    let answer = till.carry_out(line)?;
    let answer = answer.trim_end();
    match answer.strip_prefix("ok") {
        Some(value) => println!("{line}: 0{value}"),
        None => println!("{line}: {}", answer.trim_start_matches("err ")),
    }
    Ok(())
}

fn code<T>(returned: Result<T, Error>) -> u32 {
    returned
        .err()
        .and_then(|error| error.code())
        .map_or(0, |code| code.number())
}

/// Opens a control on a device, claims it and enables it.
fn begin(control: &Control, device: &str) -> u32 {
    let enable = || {
        control.open(device)?;
        control.claim(Some(Duration::ZERO))?;
        control.set_device_enabled(true)
    };
    code(enable())
}

fn hear(control: &Control) -> Result<(), Error> {
    for event in control.events() {
        match event? {
            Event::Data => println!("{}: DataEvent 0", control.name()),
            Event::StatusUpdate(status) => {
                println!("{}: StatusUpdateEvent {}", control.name(), status.number())
            }
            _ => {}
        }
    }
    Ok(())
}

fn sell(till: &Till) -> Result<(), Error> {
    let (drawer, scanner) = (
        CashDrawer::named(till, "drawer")?,
        Scanner::named(till, "scanner")?,
    );
    let (display, printer) = (
        LineDisplay::named(till, "display")?,
        PosPrinter::named(till, "printer")?,
    );
    let totals = HardTotals::named(till, "totals")?;
    let controls: [(&Control, &str); 5] = [
        (&drawer, "d1"),
        (&scanner, "s1"),
        (&display, "p1"),
        (&printer, "r1"),
        (&totals, "t1"),
    ];
    let codes = controls.map(|(control, device)| begin(control, device).to_string());
    println!("controls: {}", codes.join(" "));
    tell(till, "set scanner DataEventEnabled true")?;
    tell(till, "input s1 scan 104 34303036333831 34303036333831")?;
    hear(&scanner)?;
    tell(till, "get scanner ScanData")?;
    println!(
        "display: {}",
        code(display.display_text("4.50", DisplayAttribute::Normal))
    );
    println!(
        "print: {}",
        code(printer.print_normal(PrinterStation::Receipt, "Bread 4.50\n"))
    );
    tell(till, "call printer cutPaper 100")?;
    println!("drawer: {}", code(drawer.open_drawer()));
    hear(&drawer)?;
    tell(till, "call totals create 64617973616c6573 4 false")?;
    tell(till, "call totals write 1 0 000001c2")?;
    tell(till, "show r1")?;
    tell(till, "show p1")
}

fn look(till: &Till) -> Result<(), Error> {
    let totals = HardTotals::named(till, "totals")?;
    println!("totals: {}", begin(&totals, "t1"));
    tell(till, "call totals find 64617973616c6573")?;
    tell(till, "call totals read 1 0 4")
}

fn main() -> Result<(), Error> {
    let path = std::env::args().nth(1).unwrap_or_default();
    sell(&Till::open(BUILT_PROFILE, Totals::create(&path))?)?;
    look(&Till::open(BUILT_PROFILE, Totals::create(&path))?)
}
