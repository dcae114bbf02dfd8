//! What a printer sends, as what it means for a device.

/// What the hardware of a device is, as numbers. Only those of the device's kind count. Later versions may have more,
/// so end with `..WireSettings::default()`.
#[repr(C)]
#[derive(Debug, Clone, Copy, PartialEq, Eq)]
pub struct WireSettings {
    /// Printer: how many characters it prints on a line, at least the device's RecLineChars.
    pub width: u32,
    /// Printer: what its cutter does: 0 cuts both ways, 1 full only, 2 partial only; 3 if there is none.
    pub cutter: u32,
    /// Printer: how far it feeds the paper before a cut, 0 to 255 dots; without a cutter, lines.
    pub feed: u32,
    /// Printer: how many lines a good roll has: more than the device's `near`, at most 100,000.
    pub lines: u32,
    /// Drawer: the pin of the connector that opens it, 2 or 5.
    pub pin: u32,
    /// Drawer: how long the pulse lasts, 0 to 255, in 2 ms.
    pub on: u32,
    /// Drawer: how long the pin is off after it at least, 0 to 255, in 2 ms.
    pub off: u32,
    /// Drawer: 1 if pin 3 of the connector is high while it is open, 0 if it is low.
    pub open_is_high: u32,
    /// Display: 0 is CD5220, 1 ESC/POS.
    pub protocol: u32,
}

impl Default for WireSettings {
    /// Returns the settings of a printer of 42 characters with a cutter, and a drawer on it.
    fn default() -> WireSettings {
        WireSettings {
            width: 42,
            cutter: 0,
            feed: 0,
            lines: 1000,
            pin: 2,
            on: 25,
            off: 250,
            open_is_high: 1,
            protocol: 0,
        }
    }
}

/// What a printer was asked before. The first four are answered at once (DLE EOT), the others in order (GS r).
#[derive(Debug, Clone, Copy, PartialEq, Eq)]
#[non_exhaustive]
pub enum Asked {
    /// Nothing.
    Nothing = 0,
    /// The drawer's pin, and whether it is offline.
    Printer = 1,
    /// Why it is offline.
    OfflineCause = 2,
    /// Its faults.
    Fault = 3,
    /// Its paper.
    Paper = 4,
    /// Its paper, in order.
    PaperInOrder = 5,
    /// The drawer's pin, in order.
    DrawerInOrder = 6,
}

/// What was read of a printer's bytes, up to the end of its first reply ([`Till::reply`](crate::Till::reply)).
#[derive(Debug, Clone, PartialEq, Eq)]
#[non_exhaustive]
pub struct PrinterReply {
    /// How many bytes were read. Pass the others again, with what comes after them.
    pub used: usize,
    /// How many of those are no reply.
    pub skipped: usize,
    /// The lines of the reply: inputs and `status ..`, or `job N` (abi/README.md). There are none if no reply ended.
    pub lines: Vec<String>,
}
