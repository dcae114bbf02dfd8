//! The codes and constants of the standard. Written by abi/typed_rust.py: don't change it by hand.
use std::fmt;

/// The numbers of the library's exports.
#[allow(dead_code)]
pub(crate) mod library {
    /// The version of the exports.
    pub(crate) const VERSION: u32 = 2;
    /// The least bytes of a file for totals.
    pub(crate) const DISK_LENGTH: u64 = 327680;
    /// The call did what it says.
    pub(crate) const OK: u32 = 0;
    /// Memory ran out, and nothing was done but lines before one that is held.
    pub(crate) const NO_MEMORY: u32 = 1;
    /// The profile is refused (docs/reference/profile.md).
    pub(crate) const BAD_PROFILE: u32 = 2;
    /// The room is too short for what would be written.
    pub(crate) const SHORT: u32 = 3;
    /// Memory ran out for the answer, of which a front is kept.
    pub(crate) const CUT: u32 = 4;
    /// The lines were carried out, and their answer waits until the host has done its errands.
    pub(crate) const ERRANDS: u32 = 5;
    /// Errands of earlier lines are left, so these lines were not carried out.
    pub(crate) const UNDONE: u32 = 6;
    /// The file isn't as the totals are: an errand failed, or memory ran out for one. The till can only be closed.
    pub(crate) const DISK_FAILED: u32 = 7;
    /// The file has totals already.
    pub(crate) const FORMATTED: u32 = 8;
    /// The file is shorter than a disk of totals.
    pub(crate) const TOO_SMALL: u32 = 9;
    /// The errand writes bytes at a place.
    pub(crate) const WRITE: u32 = 10;
    /// The errand makes what was written stay.
    pub(crate) const SYNC: u32 = 11;
    /// An order was written.
    pub(crate) const ORDER: u32 = 12;
    /// No device of the name has orders, or replies.
    pub(crate) const NO_DEVICE: u32 = 13;
    /// The profile isn't UTF-8, or is no TOML document.
    pub(crate) const BAD_TEXT: u32 = 14;
    /// The file isn't formatted.
    pub(crate) const UNFORMATTED: u32 = 15;
    /// The totals in the file are damaged.
    pub(crate) const DAMAGED: u32 = 16;
    /// The totals in the file have layout 2 already.
    pub(crate) const MOVED: u32 = 17;
    /// A control has an event to deliver.
    pub(crate) const EVENT: u32 = 18;
    /// No control has the name.
    pub(crate) const NO_CONTROL: u32 = 19;
    /// A line waits until the host has reported what became of an order.
    pub(crate) const WAITS: u32 = 20;
    /// There is no order to report, or none that has bytes.
    pub(crate) const NO_ORDER: u32 = 21;
    /// The settings of the hardware are out of their ranges.
    pub(crate) const BAD_SETTINGS: u32 = 22;
}

/// A result code of the standard (ErrorCode) by which a control refuses a call.
#[derive(Debug, Clone, Copy, PartialEq, Eq, Hash)]
#[non_exhaustive]
pub enum ResultCode {
    /// E_CLOSED: the control is closed.
    Closed = 101,
    /// E_CLAIMED: another control has claimed the device or the file.
    Claimed = 102,
    /// E_NOTCLAIMED: the device has to be claimed first.
    NotClaimed = 103,
    /// E_NOSERVICE: no peripheral is attached to the device.
    NoService = 104,
    /// E_DISABLED: the device has to be enabled first.
    Disabled = 105,
    /// E_ILLEGAL: an argument is out of its range, or the control's state doesn't allow the call.
    Illegal = 106,
    /// E_NOHARDWARE: the device can't be used: the disk of the totals isn't formatted.
    NoHardware = 107,
    /// E_OFFLINE: the device is off.
    Offline = 108,
    /// E_NOEXIST: there is no device or file of that name.
    NoExist = 109,
    /// E_EXISTS: there is a file of that name already.
    Exists = 110,
    /// E_FAILURE: the device failed, or the totals are off. A failed disk is
    /// [`Cause::DiskFailed`](crate::Cause::DiskFailed).
    Failure = 111,
    /// E_TIMEOUT: another control has the device or the file, so the claim failed.
    Timeout = 112,
    /// E_BUSY: earlier requests still wait, so a synchronous one is refused.
    Busy = 113,
    /// E_EXTENDED: the extended code says what is wrong.
    Extended = 114,
}

impl ResultCode {
    /// Returns the number in the standard.
    pub fn number(self) -> u32 {
        self as u32
    }

    /// Returns the constant of a number, if there is one.
    pub fn from_number(number: u64) -> Option<ResultCode> {
        match number {
            101 => Some(ResultCode::Closed),
            102 => Some(ResultCode::Claimed),
            103 => Some(ResultCode::NotClaimed),
            104 => Some(ResultCode::NoService),
            105 => Some(ResultCode::Disabled),
            106 => Some(ResultCode::Illegal),
            107 => Some(ResultCode::NoHardware),
            108 => Some(ResultCode::Offline),
            109 => Some(ResultCode::NoExist),
            110 => Some(ResultCode::Exists),
            111 => Some(ResultCode::Failure),
            112 => Some(ResultCode::Timeout),
            113 => Some(ResultCode::Busy),
            114 => Some(ResultCode::Extended),
            _ => None,
        }
    }

    /// Returns the name in the standard.
    pub fn name(self) -> &'static str {
        match self {
            ResultCode::Closed => "E_CLOSED",
            ResultCode::Claimed => "E_CLAIMED",
            ResultCode::NotClaimed => "E_NOTCLAIMED",
            ResultCode::NoService => "E_NOSERVICE",
            ResultCode::Disabled => "E_DISABLED",
            ResultCode::Illegal => "E_ILLEGAL",
            ResultCode::NoHardware => "E_NOHARDWARE",
            ResultCode::Offline => "E_OFFLINE",
            ResultCode::NoExist => "E_NOEXIST",
            ResultCode::Exists => "E_EXISTS",
            ResultCode::Failure => "E_FAILURE",
            ResultCode::Timeout => "E_TIMEOUT",
            ResultCode::Busy => "E_BUSY",
            ResultCode::Extended => "E_EXTENDED",
        }
    }
}

impl fmt::Display for ResultCode {
    fn fmt(&self, out: &mut fmt::Formatter<'_>) -> fmt::Result {
        let text = match self {
            ResultCode::Closed => "The control is closed.",
            ResultCode::Claimed => "Another control has claimed the device or the file.",
            ResultCode::NotClaimed => "The device has to be claimed first.",
            ResultCode::NoService => "No peripheral is attached to the device.",
            ResultCode::Disabled => "The device has to be enabled first.",
            ResultCode::Illegal => "An argument is out of its range, or the control's state doesn't allow the call.",
            ResultCode::NoHardware => "The device can't be used: the disk of the totals isn't formatted.",
            ResultCode::Offline => "The device is off.",
            ResultCode::NoExist => "There is no device or file of that name.",
            ResultCode::Exists => "There is a file of that name already.",
            ResultCode::Failure => "The device or the disk failed.",
            ResultCode::Timeout => "Another control has the device or the file, so the claim failed.",
            ResultCode::Busy => "Earlier requests still wait, so a synchronous one is refused.",
            ResultCode::Extended => "The extended code says what is wrong.",
        };
        write!(out, "{}: {text}", self.name())
    }
}

/// An extended code of the standard (ErrorCodeExtended), which comes with E_EXTENDED.
#[derive(Debug, Clone, Copy, PartialEq, Eq, Hash)]
#[non_exhaustive]
pub enum ExtendedCode {
    /// ETOT_NOROOM: the totals have no room for the file, or the transaction has none for the change.
    TotalsNoRoom,
    /// EPTR_COVER_OPEN: the printer's cover is open.
    PrinterCoverOpen,
    /// EPTR_REC_EMPTY: the receipt doesn't have enough paper.
    PrinterRecEmpty,
}

impl ExtendedCode {
    /// Returns the number in the standard.
    pub fn number(self) -> u32 {
        match self {
            ExtendedCode::TotalsNoRoom => 201,
            ExtendedCode::PrinterCoverOpen => 201,
            ExtendedCode::PrinterRecEmpty => 203,
        }
    }

    /// Returns the code of a category by its number, if there is one.
    pub fn from_number(category: Category, number: u64) -> Option<ExtendedCode> {
        match (category, number) {
            (Category::HardTotals, 201) => Some(ExtendedCode::TotalsNoRoom),
            (Category::PosPrinter, 201) => Some(ExtendedCode::PrinterCoverOpen),
            (Category::PosPrinter, 203) => Some(ExtendedCode::PrinterRecEmpty),
            _ => None,
        }
    }

    /// Returns the name in the standard.
    pub fn name(self) -> &'static str {
        match self {
            ExtendedCode::TotalsNoRoom => "ETOT_NOROOM",
            ExtendedCode::PrinterCoverOpen => "EPTR_COVER_OPEN",
            ExtendedCode::PrinterRecEmpty => "EPTR_REC_EMPTY",
        }
    }
}

impl fmt::Display for ExtendedCode {
    fn fmt(&self, out: &mut fmt::Formatter<'_>) -> fmt::Result {
        let text = match self {
            ExtendedCode::TotalsNoRoom => {
                "The totals have no room for the file, or the transaction has none for the change."
            }
            ExtendedCode::PrinterCoverOpen => "The printer's cover is open.",
            ExtendedCode::PrinterRecEmpty => "The receipt doesn't have enough paper.",
        };
        write!(out, "{}: {text}", self.name())
    }
}

/// A category of devices.
#[derive(Debug, Clone, Copy, PartialEq, Eq, Hash)]
#[non_exhaustive]
pub enum Category {
    /// A cash drawer. Several controls may share a drawer. A claim only keeps the others from opening it.
    CashDrawer,
    /// A scanner of bar codes. An exclusive-use device: claim it before you enable it. What it reads comes as a
    /// DataEvent.
    Scanner,
    /// A line display for the customer. An exclusive-use device: claim it before you enable it. Each control has a
    /// cursor of its own.
    LineDisplay,
    /// A receipt printer. An exclusive-use device: claim it before you enable it.
    PosPrinter,
    /// Hard Totals: small files that survive a loss of power. Several controls may share the totals. Enabling the first
    /// one recovers the files from the disk. A change is on the disk before its call returns.
    HardTotals,
}

impl Category {
    /// Returns the category's name in the standard and in profiles.
    pub fn word(self) -> &'static str {
        match self {
            Category::CashDrawer => "CashDrawer",
            Category::Scanner => "Scanner",
            Category::LineDisplay => "LineDisplay",
            Category::PosPrinter => "POSPrinter",
            Category::HardTotals => "HardTotals",
        }
    }
}

impl Category {
    /// Whether its devices are exclusive-use ones, which have to be claimed before they are enabled.
    pub fn is_exclusive(self) -> bool {
        matches!(self, Category::Scanner | Category::LineDisplay | Category::PosPrinter)
    }
}

/// A reply to an ErrorEvent (ErrorResponse).
#[derive(Debug, Clone, Copy, PartialEq, Eq, Hash)]
pub enum ErrorReply {
    /// ER_RETRY: tries the output again; at EL_INPUT_DATA it continues, and at EL_INPUT it clears.
    Retry,
    /// ER_CLEAR: deletes the input that is held, or the output that waits.
    Clear,
    /// ER_CONTINUEINPUT: delivers the input that is held; at EL_INPUT it clears, and at EL_OUTPUT it tries again.
    ContinueInput,
}

impl ErrorReply {
    /// Returns the reply's word in lines of the text interface.
    pub fn word(self) -> &'static str {
        match self {
            ErrorReply::Retry => "retry",
            ErrorReply::Clear => "clear",
            ErrorReply::ContinueInput => "continue",
        }
    }
}

/// The values of State (chapter Common Properties, Methods and Events).
#[derive(Debug, Clone, Copy, PartialEq, Eq, Hash)]
#[non_exhaustive]
pub enum State {
    /// S_CLOSED: the control is closed.
    Closed = 1,
    /// S_IDLE: the control is open, and nothing waits.
    Idle = 2,
    /// S_BUSY: output waits.
    Busy = 3,
    /// S_ERROR: the control is in an error state of input or output.
    Error = 4,
}

impl State {
    /// Returns the number in the standard.
    pub fn number(self) -> u32 {
        self as u32
    }

    /// Returns the constant of a number, if there is one.
    pub fn from_number(number: u64) -> Option<State> {
        match number {
            1 => Some(State::Closed),
            2 => Some(State::Idle),
            3 => Some(State::Busy),
            4 => Some(State::Error),
            _ => None,
        }
    }

    /// Returns the name in the standard.
    pub fn name(self) -> &'static str {
        match self {
            State::Closed => "S_CLOSED",
            State::Idle => "S_IDLE",
            State::Busy => "S_BUSY",
            State::Error => "S_ERROR",
        }
    }
}

/// The statuses of a cash drawer, in StatusUpdateEvents (chapter Cash Drawer).
#[derive(Debug, Clone, Copy, PartialEq, Eq, Hash)]
#[non_exhaustive]
pub enum DrawerStatus {
    /// CASH_SUE_DRAWERCLOSED: the drawer is closed.
    Closed = 0,
    /// CASH_SUE_DRAWEROPEN: the drawer is open.
    Open = 1,
}

impl DrawerStatus {
    /// Returns the number in the standard.
    pub fn number(self) -> u32 {
        self as u32
    }

    /// Returns the constant of a number, if there is one.
    pub fn from_number(number: u64) -> Option<DrawerStatus> {
        match number {
            0 => Some(DrawerStatus::Closed),
            1 => Some(DrawerStatus::Open),
            _ => None,
        }
    }

    /// Returns the name in the standard.
    pub fn name(self) -> &'static str {
        match self {
            DrawerStatus::Closed => "CASH_SUE_DRAWERCLOSED",
            DrawerStatus::Open => "CASH_SUE_DRAWEROPEN",
        }
    }
}

/// The statuses of a receipt printer, in StatusUpdateEvents (chapter POS Printer).
#[derive(Debug, Clone, Copy, PartialEq, Eq, Hash)]
#[non_exhaustive]
pub enum PrinterStatus {
    /// PTR_SUE_COVER_OPEN: the cover is open.
    CoverOpen = 11,
    /// PTR_SUE_COVER_OK: the cover is closed.
    CoverOk = 12,
    /// PTR_SUE_REC_EMPTY: there is no paper.
    RecEmpty = 24,
    /// PTR_SUE_REC_NEAREMPTY: the paper is near its end.
    RecNearEmpty = 25,
    /// PTR_SUE_REC_PAPEROK: there is enough paper.
    RecPaperOk = 26,
}

impl PrinterStatus {
    /// Returns the number in the standard.
    pub fn number(self) -> u32 {
        self as u32
    }

    /// Returns the constant of a number, if there is one.
    pub fn from_number(number: u64) -> Option<PrinterStatus> {
        match number {
            11 => Some(PrinterStatus::CoverOpen),
            12 => Some(PrinterStatus::CoverOk),
            24 => Some(PrinterStatus::RecEmpty),
            25 => Some(PrinterStatus::RecNearEmpty),
            26 => Some(PrinterStatus::RecPaperOk),
            _ => None,
        }
    }

    /// Returns the name in the standard.
    pub fn name(self) -> &'static str {
        match self {
            PrinterStatus::CoverOpen => "PTR_SUE_COVER_OPEN",
            PrinterStatus::CoverOk => "PTR_SUE_COVER_OK",
            PrinterStatus::RecEmpty => "PTR_SUE_REC_EMPTY",
            PrinterStatus::RecNearEmpty => "PTR_SUE_REC_NEAREMPTY",
            PrinterStatus::RecPaperOk => "PTR_SUE_REC_PAPEROK",
        }
    }
}

/// The statuses of a device's power, in StatusUpdateEvents (chapter Common Properties, Methods and Events).
#[derive(Debug, Clone, Copy, PartialEq, Eq, Hash)]
#[non_exhaustive]
pub enum PowerStatus {
    /// SUE_POWER_ONLINE: the device is on.
    Online = 2001,
    /// SUE_POWER_OFF_OFFLINE: the device is off.
    OffOffline = 2004,
}

impl PowerStatus {
    /// Returns the number in the standard.
    pub fn number(self) -> u32 {
        self as u32
    }

    /// Returns the constant of a number, if there is one.
    pub fn from_number(number: u64) -> Option<PowerStatus> {
        match number {
            2001 => Some(PowerStatus::Online),
            2004 => Some(PowerStatus::OffOffline),
            _ => None,
        }
    }

    /// Returns the name in the standard.
    pub fn name(self) -> &'static str {
        match self {
            PowerStatus::Online => "SUE_POWER_ONLINE",
            PowerStatus::OffOffline => "SUE_POWER_OFF_OFFLINE",
        }
    }
}

/// The values of CapPowerReporting (chapter Common Properties, Methods and Events).
#[derive(Debug, Clone, Copy, PartialEq, Eq, Hash)]
#[non_exhaustive]
pub enum PowerReporting {
    /// PR_NONE: the device doesn't report its power.
    None = 0,
    /// PR_STANDARD: the device reports if it is on or off.
    Standard = 1,
}

impl PowerReporting {
    /// Returns the number in the standard.
    pub fn number(self) -> u32 {
        self as u32
    }

    /// Returns the constant of a number, if there is one.
    pub fn from_number(number: u64) -> Option<PowerReporting> {
        match number {
            0 => Some(PowerReporting::None),
            1 => Some(PowerReporting::Standard),
            _ => None,
        }
    }

    /// Returns the name in the standard.
    pub fn name(self) -> &'static str {
        match self {
            PowerReporting::None => "PR_NONE",
            PowerReporting::Standard => "PR_STANDARD",
        }
    }
}

/// The values of PowerNotify (chapter Common Properties, Methods and Events).
#[derive(Debug, Clone, Copy, PartialEq, Eq, Hash)]
#[non_exhaustive]
pub enum PowerNotify {
    /// PN_DISABLED: the control gets no events of the device's power.
    Disabled = 0,
    /// PN_ENABLED: the control gets events of the device's power.
    Enabled = 1,
}

impl PowerNotify {
    /// Returns the number in the standard.
    pub fn number(self) -> u32 {
        self as u32
    }

    /// Returns the constant of a number, if there is one.
    pub fn from_number(number: u64) -> Option<PowerNotify> {
        match number {
            0 => Some(PowerNotify::Disabled),
            1 => Some(PowerNotify::Enabled),
            _ => None,
        }
    }

    /// Returns the name in the standard.
    pub fn name(self) -> &'static str {
        match self {
            PowerNotify::Disabled => "PN_DISABLED",
            PowerNotify::Enabled => "PN_ENABLED",
        }
    }
}

/// The values of PowerState (chapter Common Properties, Methods and Events).
#[derive(Debug, Clone, Copy, PartialEq, Eq, Hash)]
#[non_exhaustive]
pub enum PowerState {
    /// PS_UNKNOWN: the control is disabled, or PowerNotify is PN_DISABLED.
    Unknown = 2000,
    /// PS_ONLINE: the device is on.
    Online = 2001,
    /// PS_OFF_OFFLINE: the device is off.
    OffOffline = 2004,
}

impl PowerState {
    /// Returns the number in the standard.
    pub fn number(self) -> u32 {
        self as u32
    }

    /// Returns the constant of a number, if there is one.
    pub fn from_number(number: u64) -> Option<PowerState> {
        match number {
            2000 => Some(PowerState::Unknown),
            2001 => Some(PowerState::Online),
            2004 => Some(PowerState::OffOffline),
            _ => None,
        }
    }

    /// Returns the name in the standard.
    pub fn name(self) -> &'static str {
        match self {
            PowerState::Unknown => "PS_UNKNOWN",
            PowerState::Online => "PS_ONLINE",
            PowerState::OffOffline => "PS_OFF_OFFLINE",
        }
    }
}

/// Where an error is, in ErrorEvents (chapter Common Properties, Methods and Events).
#[derive(Debug, Clone, Copy, PartialEq, Eq, Hash)]
#[non_exhaustive]
pub enum ErrorLocus {
    /// EL_OUTPUT: output failed.
    Output = 1,
    /// EL_INPUT: input failed, and no earlier input is held any more.
    Input = 2,
    /// EL_INPUT_DATA: input failed, and earlier input is still held.
    InputData = 3,
}

impl ErrorLocus {
    /// Returns the number in the standard.
    pub fn number(self) -> u32 {
        self as u32
    }

    /// Returns the constant of a number, if there is one.
    pub fn from_number(number: u64) -> Option<ErrorLocus> {
        match number {
            1 => Some(ErrorLocus::Output),
            2 => Some(ErrorLocus::Input),
            3 => Some(ErrorLocus::InputData),
            _ => None,
        }
    }

    /// Returns the name in the standard.
    pub fn name(self) -> &'static str {
        match self {
            ErrorLocus::Output => "EL_OUTPUT",
            ErrorLocus::Input => "EL_INPUT",
            ErrorLocus::InputData => "EL_INPUT_DATA",
        }
    }
}

/// Types of bar codes (ScanDataType). The standard has others, and a scan may have any of 0 to 999 (chapter Scanner
/// (Bar Code Reader)).
#[derive(Debug, Clone, Copy, PartialEq, Eq, Hash)]
#[non_exhaustive]
pub enum ScanDataType {
    /// SCAN_SDT_UNKNOWN: it isn't known.
    Unknown = 0,
    /// SCAN_SDT_UPCA: UPC-A; with an AIM identifier it comes as EAN-13.
    UpcA = 101,
    /// SCAN_SDT_UPCE: UPC-E; with an AIM identifier it comes as EAN-13.
    UpcE = 102,
    /// SCAN_SDT_EAN8: EAN-8.
    Ean8 = 103,
    /// SCAN_SDT_EAN13: EAN-13.
    Ean13 = 104,
    /// SCAN_SDT_TF: 2 of 5.
    Tf = 105,
    /// SCAN_SDT_ITF: interleaved 2 of 5.
    Itf = 106,
    /// SCAN_SDT_Codabar: Codabar.
    Codabar = 107,
    /// SCAN_SDT_Code39: Code 39.
    Code39 = 108,
    /// SCAN_SDT_Code93: Code 93.
    Code93 = 109,
    /// SCAN_SDT_Code128: Code 128.
    Code128 = 110,
    /// SCAN_SDT_EAN13_S: EAN-13 with a supplement.
    Ean13S = 119,
    /// SCAN_SDT_EAN128: GS1-128.
    Ean128 = 120,
    /// SCAN_SDT_OCRA: OCR-A.
    OcrA = 121,
    /// SCAN_SDT_OCRB: OCR-B.
    OcrB = 122,
    /// SCAN_SDT_GS1DATABAR: GS1 DataBar.
    Gs1DataBar = 131,
    /// SCAN_SDT_PDF417: PDF417.
    Pdf417 = 201,
    /// SCAN_SDT_MAXICODE: MaxiCode.
    MaxiCode = 202,
    /// SCAN_SDT_DATAMATRIX: Data Matrix.
    DataMatrix = 203,
    /// SCAN_SDT_QRCODE: QR Code.
    QrCode = 204,
    /// SCAN_SDT_AZTEC: Aztec Code.
    Aztec = 206,
    /// SCAN_SDT_OTHER: another type.
    Other = 501,
}

impl ScanDataType {
    /// Returns the number in the standard.
    pub fn number(self) -> u32 {
        self as u32
    }

    /// Returns the constant of a number, if there is one.
    pub fn from_number(number: u64) -> Option<ScanDataType> {
        match number {
            0 => Some(ScanDataType::Unknown),
            101 => Some(ScanDataType::UpcA),
            102 => Some(ScanDataType::UpcE),
            103 => Some(ScanDataType::Ean8),
            104 => Some(ScanDataType::Ean13),
            105 => Some(ScanDataType::Tf),
            106 => Some(ScanDataType::Itf),
            107 => Some(ScanDataType::Codabar),
            108 => Some(ScanDataType::Code39),
            109 => Some(ScanDataType::Code93),
            110 => Some(ScanDataType::Code128),
            119 => Some(ScanDataType::Ean13S),
            120 => Some(ScanDataType::Ean128),
            121 => Some(ScanDataType::OcrA),
            122 => Some(ScanDataType::OcrB),
            131 => Some(ScanDataType::Gs1DataBar),
            201 => Some(ScanDataType::Pdf417),
            202 => Some(ScanDataType::MaxiCode),
            203 => Some(ScanDataType::DataMatrix),
            204 => Some(ScanDataType::QrCode),
            206 => Some(ScanDataType::Aztec),
            501 => Some(ScanDataType::Other),
            _ => None,
        }
    }

    /// Returns the name in the standard.
    pub fn name(self) -> &'static str {
        match self {
            ScanDataType::Unknown => "SCAN_SDT_UNKNOWN",
            ScanDataType::UpcA => "SCAN_SDT_UPCA",
            ScanDataType::UpcE => "SCAN_SDT_UPCE",
            ScanDataType::Ean8 => "SCAN_SDT_EAN8",
            ScanDataType::Ean13 => "SCAN_SDT_EAN13",
            ScanDataType::Tf => "SCAN_SDT_TF",
            ScanDataType::Itf => "SCAN_SDT_ITF",
            ScanDataType::Codabar => "SCAN_SDT_Codabar",
            ScanDataType::Code39 => "SCAN_SDT_Code39",
            ScanDataType::Code93 => "SCAN_SDT_Code93",
            ScanDataType::Code128 => "SCAN_SDT_Code128",
            ScanDataType::Ean13S => "SCAN_SDT_EAN13_S",
            ScanDataType::Ean128 => "SCAN_SDT_EAN128",
            ScanDataType::OcrA => "SCAN_SDT_OCRA",
            ScanDataType::OcrB => "SCAN_SDT_OCRB",
            ScanDataType::Gs1DataBar => "SCAN_SDT_GS1DATABAR",
            ScanDataType::Pdf417 => "SCAN_SDT_PDF417",
            ScanDataType::MaxiCode => "SCAN_SDT_MAXICODE",
            ScanDataType::DataMatrix => "SCAN_SDT_DATAMATRIX",
            ScanDataType::QrCode => "SCAN_SDT_QRCODE",
            ScanDataType::Aztec => "SCAN_SDT_AZTEC",
            ScanDataType::Other => "SCAN_SDT_OTHER",
        }
    }
}

impl From<ScanDataType> for u64 {
    fn from(constant: ScanDataType) -> u64 {
        constant.number().into()
    }
}

/// How a line display shows characters (chapter Line Display).
#[derive(Debug, Clone, Copy, PartialEq, Eq, Hash)]
#[non_exhaustive]
pub enum DisplayAttribute {
    /// DISP_DT_NORMAL: plain.
    Normal = 0,
    /// DISP_DT_BLINK: blinking.
    Blink = 1,
    /// DISP_DT_REVERSE: reverse.
    Reverse = 2,
    /// DISP_DT_BLINK_REVERSE: blinking and reverse.
    BlinkReverse = 3,
}

impl DisplayAttribute {
    /// Returns the number in the standard.
    pub fn number(self) -> u32 {
        self as u32
    }

    /// Returns the constant of a number, if there is one.
    pub fn from_number(number: u64) -> Option<DisplayAttribute> {
        match number {
            0 => Some(DisplayAttribute::Normal),
            1 => Some(DisplayAttribute::Blink),
            2 => Some(DisplayAttribute::Reverse),
            3 => Some(DisplayAttribute::BlinkReverse),
            _ => None,
        }
    }

    /// Returns the name in the standard.
    pub fn name(self) -> &'static str {
        match self {
            DisplayAttribute::Normal => "DISP_DT_NORMAL",
            DisplayAttribute::Blink => "DISP_DT_BLINK",
            DisplayAttribute::Reverse => "DISP_DT_REVERSE",
            DisplayAttribute::BlinkReverse => "DISP_DT_BLINK_REVERSE",
        }
    }
}

/// Where scrollText moves the text (chapter Line Display).
#[derive(Debug, Clone, Copy, PartialEq, Eq, Hash)]
#[non_exhaustive]
pub enum ScrollDirection {
    /// DISP_ST_UP: up.
    Up = 1,
    /// DISP_ST_DOWN: down.
    Down = 2,
    /// DISP_ST_LEFT: to the left.
    Left = 3,
    /// DISP_ST_RIGHT: to the right.
    Right = 4,
}

impl ScrollDirection {
    /// Returns the number in the standard.
    pub fn number(self) -> u32 {
        self as u32
    }

    /// Returns the constant of a number, if there is one.
    pub fn from_number(number: u64) -> Option<ScrollDirection> {
        match number {
            1 => Some(ScrollDirection::Up),
            2 => Some(ScrollDirection::Down),
            3 => Some(ScrollDirection::Left),
            4 => Some(ScrollDirection::Right),
            _ => None,
        }
    }

    /// Returns the name in the standard.
    pub fn name(self) -> &'static str {
        match self {
            ScrollDirection::Up => "DISP_ST_UP",
            ScrollDirection::Down => "DISP_ST_DOWN",
            ScrollDirection::Left => "DISP_ST_LEFT",
            ScrollDirection::Right => "DISP_ST_RIGHT",
        }
    }
}

/// The stations of a printer (chapter POS Printer).
#[derive(Debug, Clone, Copy, PartialEq, Eq, Hash)]
#[non_exhaustive]
pub enum PrinterStation {
    /// PTR_S_RECEIPT: the receipt.
    Receipt = 2,
}

impl PrinterStation {
    /// Returns the number in the standard.
    pub fn number(self) -> u32 {
        self as u32
    }

    /// Returns the constant of a number, if there is one.
    pub fn from_number(number: u64) -> Option<PrinterStation> {
        match number {
            2 => Some(PrinterStation::Receipt),
            _ => None,
        }
    }

    /// Returns the name in the standard.
    pub fn name(self) -> &'static str {
        match self {
            PrinterStation::Receipt => "PTR_S_RECEIPT",
        }
    }
}

/// A full cut. (chapter POS Printer)
pub const PTR_CP_FULLCUT: u64 = 100;
