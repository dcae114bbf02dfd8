//! The methods and properties by their words in scripts. Written by abi/typed_rust.py: don't change it by hand.
use crate::words::{bytes, bytes_shown, device, nothing, number, pair, shown, timeout, truth, Shown};
use kijolvar::standard::{DisplayAttribute, PowerNotify, PrinterStation, ScrollDirection};
use kijolvar::{CashDrawer, Control, HardTotals, LineDisplay, PosPrinter, Scanner};

/// Calls a method of every category: what is printed, or nothing if there is no typed call.
pub fn common_method(control: &Control, word: &str, words: &[&str]) -> Option<Shown> {
    Some(match (word, words.len()) {
        ("open", 1) => nothing(control.open(device(words[0])?)),
        ("close", 0) => nothing(control.close()),
        ("claim", 1) => nothing(control.claim(timeout(words[0])?)),
        ("release", 0) => nothing(control.release()),
        _ => return None,
    })
}

/// Reads a property of every category.
pub fn common_get(control: &Control, name: &str) -> Option<Shown> {
    Some(match name {
        "State" => shown(control.state().map(|found| found.number())),
        "Claimed" => shown(control.claimed()),
        "DeviceEnabled" => shown(control.device_enabled()),
        "FreezeEvents" => shown(control.freeze_events()),
        "CapPowerReporting" => shown(control.cap_power_reporting().map(|found| found.number())),
        "PowerNotify" => shown(control.power_notify().map(|found| found.number())),
        "PowerState" => shown(control.power_state().map(|found| found.number())),
        _ => return None,
    })
}

/// Sets a property of every category.
pub fn common_set(control: &Control, name: &str, word: &str) -> Option<Shown> {
    Some(match name {
        "DeviceEnabled" => nothing(control.set_device_enabled(truth(word)?)),
        "FreezeEvents" => nothing(control.set_freeze_events(truth(word)?)),
        "PowerNotify" => nothing(control.set_power_notify(PowerNotify::from_number(number(word)?)?)),
        _ => return None,
    })
}

/// Calls a method of CashDrawer: what is printed, or nothing if there is no typed call.
pub fn drawer_method(control: &CashDrawer, word: &str, words: &[&str]) -> Option<Shown> {
    Some(match (word, words.len()) {
        ("openDrawer", 0) => nothing(control.open_drawer()),
        _ => return None,
    })
}

/// Reads a property of CashDrawer.
pub fn drawer_get(control: &CashDrawer, name: &str) -> Option<Shown> {
    Some(match name {
        "CapStatus" => shown(control.cap_status()),
        "DrawerOpened" => shown(control.drawer_opened()),
        _ => return None,
    })
}

/// Calls a method of Scanner: what is printed, or nothing if there is no typed call.
pub fn scanner_method(control: &Scanner, word: &str, words: &[&str]) -> Option<Shown> {
    Some(match (word, words.len()) {
        ("clearInput", 0) => nothing(control.clear_input()),
        ("clearInputProperties", 0) => nothing(control.clear_input_properties()),
        _ => return None,
    })
}

/// Reads a property of Scanner.
pub fn scanner_get(control: &Scanner, name: &str) -> Option<Shown> {
    Some(match name {
        "DataEventEnabled" => shown(control.data_event_enabled()),
        "AutoDisable" => shown(control.auto_disable()),
        "DataCount" => shown(control.data_count()),
        "DecodeData" => shown(control.decode_data()),
        "ScanData" => bytes_shown(control.scan_data()),
        "ScanDataLabel" => bytes_shown(control.scan_data_label()),
        "ScanDataType" => shown(control.scan_data_type()),
        _ => return None,
    })
}

/// Sets a property of Scanner.
pub fn scanner_set(control: &Scanner, name: &str, word: &str) -> Option<Shown> {
    Some(match name {
        "DataEventEnabled" => nothing(control.set_data_event_enabled(truth(word)?)),
        "AutoDisable" => nothing(control.set_auto_disable(truth(word)?)),
        "DecodeData" => nothing(control.set_decode_data(truth(word)?)),
        _ => return None,
    })
}

/// Calls a method of LineDisplay: what is printed, or nothing if there is no typed call.
pub fn display_method(control: &LineDisplay, word: &str, words: &[&str]) -> Option<Shown> {
    Some(match (word, words.len()) {
        ("displayText", 2) => {
            nothing(control.display_text(bytes(words[0])?, DisplayAttribute::from_number(number(words[1])?)?))
        }
        ("displayTextAt", 4) => {
            nothing(control.display_text_at(
                number(words[0])?,
                number(words[1])?,
                bytes(words[2])?,
                DisplayAttribute::from_number(number(words[3])?)?,
            ))
        }
        ("clearText", 0) => nothing(control.clear_text()),
        ("scrollText", 2) => {
            nothing(control.scroll_text(ScrollDirection::from_number(number(words[0])?)?, number(words[1])?))
        }
        _ => return None,
    })
}

/// Reads a property of LineDisplay.
pub fn display_get(control: &LineDisplay, name: &str) -> Option<Shown> {
    Some(match name {
        "Rows" => shown(control.rows()),
        "Columns" => shown(control.columns()),
        "CursorRow" => shown(control.cursor_row()),
        "CursorColumn" => shown(control.cursor_column()),
        "CursorUpdate" => shown(control.cursor_update()),
        _ => return None,
    })
}

/// Sets a property of LineDisplay.
pub fn display_set(control: &LineDisplay, name: &str, word: &str) -> Option<Shown> {
    Some(match name {
        "CursorRow" => nothing(control.set_cursor_row(number(word)?)),
        "CursorColumn" => nothing(control.set_cursor_column(number(word)?)),
        "CursorUpdate" => nothing(control.set_cursor_update(truth(word)?)),
        _ => return None,
    })
}

/// Calls a method of POSPrinter: what is printed, or nothing if there is no typed call.
pub fn printer_method(control: &PosPrinter, word: &str, words: &[&str]) -> Option<Shown> {
    Some(match (word, words.len()) {
        ("printNormal", 2) => {
            nothing(control.print_normal(PrinterStation::from_number(number(words[0])?)?, bytes(words[1])?))
        }
        ("printImmediate", 2) => {
            nothing(control.print_immediate(PrinterStation::from_number(number(words[0])?)?, bytes(words[1])?))
        }
        ("cutPaper", 1) => nothing(control.cut_paper(number(words[0])?)),
        ("clearOutput", 0) => nothing(control.clear_output()),
        _ => return None,
    })
}

/// Reads a property of POSPrinter.
pub fn printer_get(control: &PosPrinter, name: &str) -> Option<Shown> {
    Some(match name {
        "AsyncMode" => shown(control.async_mode()),
        "OutputID" => shown(control.output_id()),
        "RecLineChars" => shown(control.rec_line_chars()),
        "CoverOpen" => shown(control.cover_open()),
        "RecEmpty" => shown(control.rec_empty()),
        "RecNearEnd" => shown(control.rec_near_end()),
        _ => return None,
    })
}

/// Sets a property of POSPrinter.
pub fn printer_set(control: &PosPrinter, name: &str, word: &str) -> Option<Shown> {
    Some(match name {
        "AsyncMode" => nothing(control.set_async_mode(truth(word)?)),
        _ => return None,
    })
}

/// Calls a method of HardTotals: what is printed, or nothing if there is no typed call.
pub fn totals_method(control: &HardTotals, word: &str, words: &[&str]) -> Option<Shown> {
    Some(match (word, words.len()) {
        ("create", 3) => shown(control.create(bytes(words[0])?, number(words[1])?, truth(words[2])?)),
        ("delete", 1) => nothing(control.delete(bytes(words[0])?)),
        ("find", 1) => pair(control.find(bytes(words[0])?)),
        ("findByIndex", 1) => bytes_shown(control.find_by_index(number(words[0])?)),
        ("read", 3) => bytes_shown(control.read(number(words[0])?, number(words[1])?, number(words[2])?)),
        ("write", 3) => nothing(control.write(number(words[0])?, number(words[1])?, bytes(words[2])?)),
        ("setAll", 2) => nothing(control.set_all(number(words[0])?, number(words[1])?)),
        ("rename", 2) => nothing(control.rename(number(words[0])?, bytes(words[1])?)),
        ("claimFile", 2) => nothing(control.claim_file(number(words[0])?, timeout(words[1])?)),
        ("releaseFile", 1) => nothing(control.release_file(number(words[0])?)),
        ("beginTrans", 0) => nothing(control.begin_trans()),
        ("commitTrans", 0) => nothing(control.commit_trans()),
        ("rollback", 0) => nothing(control.rollback()),
        _ => return None,
    })
}

/// Reads a property of HardTotals.
pub fn totals_get(control: &HardTotals, name: &str) -> Option<Shown> {
    Some(match name {
        "TotalsSize" => shown(control.totals_size()),
        "FreeData" => shown(control.free_data()),
        "NumberOfFiles" => shown(control.number_of_files()),
        "TransactionInProgress" => shown(control.transaction_in_progress()),
        "CapTransactions" => shown(control.cap_transactions()),
        "CapSingleFile" => shown(control.cap_single_file()),
        "CapErrorDetection" => shown(control.cap_error_detection()),
        _ => return None,
    })
}
