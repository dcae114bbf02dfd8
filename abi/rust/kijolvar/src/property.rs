//! The properties of all categories. Written by abi/typed_rust.py: don't change it by hand.

/// A property of a control.
#[derive(Debug, Clone, Copy, PartialEq, Eq, Hash)]
#[non_exhaustive]
pub enum Property {
    /// State of every category: what the control is doing; it can be read while the control is closed, too.
    State,
    /// Claimed of every category: whether the control has claimed its device.
    Claimed,
    /// DeviceEnabled of every category: whether the device works for this control.
    DeviceEnabled,
    /// FreezeEvents of every category: whether events are held back: none is delivered while this is true.
    FreezeEvents,
    /// CapPowerReporting of every category: whether the device reports that it is on or off.
    CapPowerReporting,
    /// PowerNotify of every category: whether the control gets StatusUpdateEvents of the device's power.
    PowerNotify,
    /// PowerState of every category: whether the device is on, if the control is enabled and PowerNotify is PN_ENABLED.
    PowerState,
    /// CapStatus of CashDrawer: whether the drawer reports if it is open: always true.
    CapStatus,
    /// DrawerOpened of CashDrawer: whether the drawer is open.
    DrawerOpened,
    /// DataEventEnabled of Scanner: whether DataEvents and ErrorEvents of input are delivered.
    DataEventEnabled,
    /// AutoDisable of Scanner: whether the next scan disables the control.
    AutoDisable,
    /// DataCount of Scanner: how many DataEvents wait.
    DataCount,
    /// DecodeData of Scanner: whether a DataEvent sets ScanDataLabel and ScanDataType.
    DecodeData,
    /// ScanData of Scanner: all that was read, of the DataEvent that was delivered last.
    ScanData,
    /// ScanDataLabel of Scanner: the label of the bar code, of the DataEvent that was delivered last.
    ScanDataLabel,
    /// ScanDataType of Scanner: the type of the bar code, of the DataEvent that was delivered last.
    ScanDataType,
    /// Rows of LineDisplay: how many rows the display has.
    Rows,
    /// Columns of LineDisplay: how many columns the display has.
    Columns,
    /// CursorRow of LineDisplay: the row in which the next text begins, counted from 0.
    CursorRow,
    /// CursorColumn of LineDisplay: the column in which the next text begins, counted from 0; Columns is right of the
    /// last.
    CursorColumn,
    /// CursorUpdate of LineDisplay: whether displayText and displayTextAt move the cursor to the end of the text.
    CursorUpdate,
    /// AsyncMode of POSPrinter: whether printNormal and cutPaper are queued and done later.
    AsyncMode,
    /// OutputID of POSPrinter: the OutputID of the request that was queued last, or 0 if none was since the control was
    /// opened.
    OutputId,
    /// RecLineChars of POSPrinter: how many characters a line of the receipt has.
    RecLineChars,
    /// CoverOpen of POSPrinter: whether the printer's cover is open.
    CoverOpen,
    /// RecEmpty of POSPrinter: whether the receipt has no paper.
    RecEmpty,
    /// RecNearEnd of POSPrinter: whether the receipt's paper is near its end, or gone.
    RecNearEnd,
    /// TotalsSize of HardTotals: how many bytes all files may have together.
    TotalsSize,
    /// FreeData of HardTotals: how many bytes are left for new files, which is TotalsSize less the sizes of all files.
    FreeData,
    /// NumberOfFiles of HardTotals: how many files there are.
    NumberOfFiles,
    /// TransactionInProgress of HardTotals: whether the control is in a transaction.
    TransactionInProgress,
    /// CapTransactions of HardTotals: whether there are transactions: always true.
    CapTransactions,
    /// CapSingleFile of HardTotals: whether there may be only one file: always false.
    CapSingleFile,
    /// CapErrorDetection of HardTotals: whether error detection can be chosen for a file: always false.
    CapErrorDetection,
}

/// The type of a property.
#[derive(Debug, Clone, Copy, PartialEq, Eq, Hash)]
#[non_exhaustive]
pub enum PropertyType {
    /// A number that isn't negative.
    Number,
    /// `true` or `false`.
    Truth,
    /// Bytes.
    Bytes,
}

/// A property's value.
#[derive(Debug, Clone, PartialEq, Eq, Hash)]
#[non_exhaustive]
pub enum Value {
    /// A number.
    Number(u64),
    /// `true` or `false`.
    Truth(bool),
    /// Bytes.
    Bytes(Vec<u8>),
}

impl Property {
    /// All properties.
    pub const ALL: [Property; 34] = [
        Property::State,
        Property::Claimed,
        Property::DeviceEnabled,
        Property::FreezeEvents,
        Property::CapPowerReporting,
        Property::PowerNotify,
        Property::PowerState,
        Property::CapStatus,
        Property::DrawerOpened,
        Property::DataEventEnabled,
        Property::AutoDisable,
        Property::DataCount,
        Property::DecodeData,
        Property::ScanData,
        Property::ScanDataLabel,
        Property::ScanDataType,
        Property::Rows,
        Property::Columns,
        Property::CursorRow,
        Property::CursorColumn,
        Property::CursorUpdate,
        Property::AsyncMode,
        Property::OutputId,
        Property::RecLineChars,
        Property::CoverOpen,
        Property::RecEmpty,
        Property::RecNearEnd,
        Property::TotalsSize,
        Property::FreeData,
        Property::NumberOfFiles,
        Property::TransactionInProgress,
        Property::CapTransactions,
        Property::CapSingleFile,
        Property::CapErrorDetection,
    ];

    /// Returns the name in the standard.
    pub fn name(self) -> &'static str {
        match self {
            Property::State => "State",
            Property::Claimed => "Claimed",
            Property::DeviceEnabled => "DeviceEnabled",
            Property::FreezeEvents => "FreezeEvents",
            Property::CapPowerReporting => "CapPowerReporting",
            Property::PowerNotify => "PowerNotify",
            Property::PowerState => "PowerState",
            Property::CapStatus => "CapStatus",
            Property::DrawerOpened => "DrawerOpened",
            Property::DataEventEnabled => "DataEventEnabled",
            Property::AutoDisable => "AutoDisable",
            Property::DataCount => "DataCount",
            Property::DecodeData => "DecodeData",
            Property::ScanData => "ScanData",
            Property::ScanDataLabel => "ScanDataLabel",
            Property::ScanDataType => "ScanDataType",
            Property::Rows => "Rows",
            Property::Columns => "Columns",
            Property::CursorRow => "CursorRow",
            Property::CursorColumn => "CursorColumn",
            Property::CursorUpdate => "CursorUpdate",
            Property::AsyncMode => "AsyncMode",
            Property::OutputId => "OutputID",
            Property::RecLineChars => "RecLineChars",
            Property::CoverOpen => "CoverOpen",
            Property::RecEmpty => "RecEmpty",
            Property::RecNearEnd => "RecNearEnd",
            Property::TotalsSize => "TotalsSize",
            Property::FreeData => "FreeData",
            Property::NumberOfFiles => "NumberOfFiles",
            Property::TransactionInProgress => "TransactionInProgress",
            Property::CapTransactions => "CapTransactions",
            Property::CapSingleFile => "CapSingleFile",
            Property::CapErrorDetection => "CapErrorDetection",
        }
    }

    /// Returns the type.
    pub fn type_of(self) -> PropertyType {
        match self {
            Property::State => PropertyType::Number,
            Property::Claimed => PropertyType::Truth,
            Property::DeviceEnabled => PropertyType::Truth,
            Property::FreezeEvents => PropertyType::Truth,
            Property::CapPowerReporting => PropertyType::Number,
            Property::PowerNotify => PropertyType::Number,
            Property::PowerState => PropertyType::Number,
            Property::CapStatus => PropertyType::Truth,
            Property::DrawerOpened => PropertyType::Truth,
            Property::DataEventEnabled => PropertyType::Truth,
            Property::AutoDisable => PropertyType::Truth,
            Property::DataCount => PropertyType::Number,
            Property::DecodeData => PropertyType::Truth,
            Property::ScanData => PropertyType::Bytes,
            Property::ScanDataLabel => PropertyType::Bytes,
            Property::ScanDataType => PropertyType::Number,
            Property::Rows => PropertyType::Number,
            Property::Columns => PropertyType::Number,
            Property::CursorRow => PropertyType::Number,
            Property::CursorColumn => PropertyType::Number,
            Property::CursorUpdate => PropertyType::Truth,
            Property::AsyncMode => PropertyType::Truth,
            Property::OutputId => PropertyType::Number,
            Property::RecLineChars => PropertyType::Number,
            Property::CoverOpen => PropertyType::Truth,
            Property::RecEmpty => PropertyType::Truth,
            Property::RecNearEnd => PropertyType::Truth,
            Property::TotalsSize => PropertyType::Number,
            Property::FreeData => PropertyType::Number,
            Property::NumberOfFiles => PropertyType::Number,
            Property::TransactionInProgress => PropertyType::Truth,
            Property::CapTransactions => PropertyType::Truth,
            Property::CapSingleFile => PropertyType::Truth,
            Property::CapErrorDetection => PropertyType::Truth,
        }
    }

    /// Returns the property of a name, if there is one.
    pub fn from_name(name: &str) -> Option<Property> {
        Property::ALL.into_iter().find(|property| property.name() == name)
    }
}
