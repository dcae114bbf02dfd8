/* The methods, properties and codes of the controls. Written by abi/typed_c.py: don't change it by hand. */
#include "kij_internal.h"

const kij_property_row kij_internal_properties[] = {
    {KIJ_WORD(" State"), KIJ_SHAPE_NUMBER},
    {KIJ_WORD(" Claimed"), KIJ_SHAPE_TRUTH},
    {KIJ_WORD(" DeviceEnabled"), KIJ_SHAPE_TRUTH},
    {KIJ_WORD(" FreezeEvents"), KIJ_SHAPE_TRUTH},
    {KIJ_WORD(" CapPowerReporting"), KIJ_SHAPE_NUMBER},
    {KIJ_WORD(" PowerNotify"), KIJ_SHAPE_NUMBER},
    {KIJ_WORD(" PowerState"), KIJ_SHAPE_NUMBER},
    {KIJ_WORD(" CapStatus"), KIJ_SHAPE_TRUTH},
    {KIJ_WORD(" DrawerOpened"), KIJ_SHAPE_TRUTH},
    {KIJ_WORD(" DataEventEnabled"), KIJ_SHAPE_TRUTH},
    {KIJ_WORD(" AutoDisable"), KIJ_SHAPE_TRUTH},
    {KIJ_WORD(" DataCount"), KIJ_SHAPE_NUMBER},
    {KIJ_WORD(" DecodeData"), KIJ_SHAPE_TRUTH},
    {KIJ_WORD(" ScanData"), KIJ_SHAPE_BYTES},
    {KIJ_WORD(" ScanDataLabel"), KIJ_SHAPE_BYTES},
    {KIJ_WORD(" ScanDataType"), KIJ_SHAPE_NUMBER},
    {KIJ_WORD(" Rows"), KIJ_SHAPE_NUMBER},
    {KIJ_WORD(" Columns"), KIJ_SHAPE_NUMBER},
    {KIJ_WORD(" CursorRow"), KIJ_SHAPE_NUMBER},
    {KIJ_WORD(" CursorColumn"), KIJ_SHAPE_NUMBER},
    {KIJ_WORD(" CursorUpdate"), KIJ_SHAPE_TRUTH},
    {KIJ_WORD(" AsyncMode"), KIJ_SHAPE_TRUTH},
    {KIJ_WORD(" OutputID"), KIJ_SHAPE_NUMBER},
    {KIJ_WORD(" RecLineChars"), KIJ_SHAPE_NUMBER},
    {KIJ_WORD(" CoverOpen"), KIJ_SHAPE_TRUTH},
    {KIJ_WORD(" RecEmpty"), KIJ_SHAPE_TRUTH},
    {KIJ_WORD(" RecNearEnd"), KIJ_SHAPE_TRUTH},
    {KIJ_WORD(" TotalsSize"), KIJ_SHAPE_NUMBER},
    {KIJ_WORD(" FreeData"), KIJ_SHAPE_NUMBER},
    {KIJ_WORD(" NumberOfFiles"), KIJ_SHAPE_NUMBER},
    {KIJ_WORD(" TransactionInProgress"), KIJ_SHAPE_TRUTH},
    {KIJ_WORD(" CapTransactions"), KIJ_SHAPE_TRUTH},
    {KIJ_WORD(" CapSingleFile"), KIJ_SHAPE_TRUTH},
    {KIJ_WORD(" CapErrorDetection"), KIJ_SHAPE_TRUTH},
};

const size_t kij_internal_property_count = sizeof kij_internal_properties / sizeof kij_internal_properties[0];

const kij_number_row kij_internal_codes[] = {
    {KIJ_NO_CATEGORY, 0, "E_SUCCESS",
     "The call succeeded."},
    {KIJ_NO_CATEGORY, 101, "E_CLOSED",
     "The control is closed."},
    {KIJ_NO_CATEGORY, 102, "E_CLAIMED",
     "Another control has claimed the device or the file."},
    {KIJ_NO_CATEGORY, 103, "E_NOTCLAIMED",
     "The device has to be claimed first."},
    {KIJ_NO_CATEGORY, 104, "E_NOSERVICE",
     "No peripheral is attached to the device."},
    {KIJ_NO_CATEGORY, 105, "E_DISABLED",
     "The device has to be enabled first."},
    {KIJ_NO_CATEGORY, 106, "E_ILLEGAL",
     "An argument is out of its range, or the control's state doesn't allow the call."},
    {KIJ_NO_CATEGORY, 107, "E_NOHARDWARE",
     "The device can't be used: the disk of the totals isn't formatted."},
    {KIJ_NO_CATEGORY, 108, "E_OFFLINE",
     "The device is off."},
    {KIJ_NO_CATEGORY, 109, "E_NOEXIST",
     "There is no device or file of that name."},
    {KIJ_NO_CATEGORY, 110, "E_EXISTS",
     "There is a file of that name already."},
    {KIJ_NO_CATEGORY, 111, "E_FAILURE",
     "The device or the disk failed."},
    {KIJ_NO_CATEGORY, 112, "E_TIMEOUT",
     "Another control has the device or the file, so the claim failed."},
    {KIJ_NO_CATEGORY, 113, "E_BUSY",
     "Earlier requests still wait, so a synchronous one is refused."},
    {KIJ_NO_CATEGORY, 114, "E_EXTENDED",
     "The extended code says what is wrong."},
};

const size_t kij_internal_code_count = sizeof kij_internal_codes / sizeof kij_internal_codes[0];

const kij_number_row kij_internal_extended[] = {
    {KIJ_HARD_TOTALS, 201, "ETOT_NOROOM",
     "The totals have no room for the file, or the transaction has none for the change."},
    {KIJ_POS_PRINTER, 201, "EPTR_COVER_OPEN",
     "The printer's cover is open."},
    {KIJ_POS_PRINTER, 203, "EPTR_REC_EMPTY",
     "The receipt doesn't have enough paper."},
};

const size_t kij_internal_extended_count = sizeof kij_internal_extended / sizeof kij_internal_extended[0];

const kij_reason_row kij_internal_reasons[] = {
    {KIJ_NO_CATEGORY, KIJ_VERB_OPEN, NULL, KIJ_E_ILLEGAL, 0,
     "The control is open already."},
    {KIJ_NO_CATEGORY, KIJ_VERB_OPEN, NULL, KIJ_E_NOEXIST, 0,
     "No device of the control's category has the name."},
    {KIJ_NO_CATEGORY, KIJ_VERB_CLAIM, NULL, KIJ_E_ILLEGAL, 0,
     "The timeout is below -1."},
    {KIJ_NO_CATEGORY, KIJ_VERB_CLAIM, NULL, KIJ_E_TIMEOUT, 0,
     "Another control has claimed the device, or a file of the totals."},
    {KIJ_NO_CATEGORY, KIJ_VERB_RELEASE, NULL, KIJ_E_ILLEGAL, 0,
     "The control hasn't claimed the device."},
    {KIJ_NO_CATEGORY, KIJ_VERB_SET, " DeviceEnabled", KIJ_E_CLAIMED, 0,
     "Another control has claimed the device, which is an exclusive-use device."},
    {KIJ_NO_CATEGORY, KIJ_VERB_SET, " DeviceEnabled", KIJ_E_NOTCLAIMED, 0,
     "The control hasn't claimed the device, which is an exclusive-use device."},
    {KIJ_NO_CATEGORY, KIJ_VERB_SET, " DeviceEnabled", KIJ_E_NOHARDWARE, 0,
     "The disk of the totals isn't formatted."},
    {KIJ_NO_CATEGORY, KIJ_VERB_SET, " DeviceEnabled", KIJ_E_FAILURE, 0,
     "The totals can't be recovered."},
    {KIJ_NO_CATEGORY, KIJ_VERB_SET, " PowerNotify", KIJ_E_ILLEGAL, 0,
     "The value is out of its range, would change while the device is enabled, or is PN_ENABLED and the device "
     "doesn't report its power."},
    {KIJ_CASH_DRAWER, KIJ_VERB_CALL, " openDrawer", KIJ_E_CLAIMED, 0,
     "Another control has claimed the device."},
    {KIJ_CASH_DRAWER, KIJ_VERB_CALL, " openDrawer", KIJ_E_DISABLED, 0,
     "The control is disabled."},
    {KIJ_CASH_DRAWER, KIJ_VERB_CALL, " openDrawer", KIJ_E_FAILURE, 0,
     "The drawer, or the printer that it is on, can't answer."},
    {KIJ_CASH_DRAWER, KIJ_VERB_CALL, " openDrawer", KIJ_E_OFFLINE, 0,
     "The drawer is off."},
    {KIJ_CASH_DRAWER, KIJ_VERB_GET, " DrawerOpened", KIJ_E_DISABLED, 0,
     "The control is disabled."},
    {KIJ_SCANNER, KIJ_VERB_CALL, " clearInput", KIJ_E_CLAIMED, 0,
     "Another control has claimed the device."},
    {KIJ_SCANNER, KIJ_VERB_CALL, " clearInput", KIJ_E_NOTCLAIMED, 0,
     "No control has claimed the device."},
    {KIJ_SCANNER, KIJ_VERB_CALL, " clearInputProperties", KIJ_E_CLAIMED, 0,
     "Another control has claimed the device."},
    {KIJ_SCANNER, KIJ_VERB_CALL, " clearInputProperties", KIJ_E_NOTCLAIMED, 0,
     "No control has claimed the device."},
    {KIJ_LINE_DISPLAY, KIJ_VERB_CALL, " displayText", KIJ_E_CLAIMED, 0,
     "Another control has claimed the device."},
    {KIJ_LINE_DISPLAY, KIJ_VERB_CALL, " displayText", KIJ_E_NOTCLAIMED, 0,
     "No control has claimed the device."},
    {KIJ_LINE_DISPLAY, KIJ_VERB_CALL, " displayText", KIJ_E_DISABLED, 0,
     "The control is disabled."},
    {KIJ_LINE_DISPLAY, KIJ_VERB_CALL, " displayText", KIJ_E_ILLEGAL, 0,
     "The text has more than 4,096 bytes, or one other than 0x20 to 0x7E, LF and CR, or the attribute is out of its "
     "range."},
    {KIJ_LINE_DISPLAY, KIJ_VERB_CALL, " displayText", KIJ_E_FAILURE, 0,
     "The display didn't answer."},
    {KIJ_LINE_DISPLAY, KIJ_VERB_CALL, " displayText", KIJ_E_OFFLINE, 0,
     "The display is off."},
    {KIJ_LINE_DISPLAY, KIJ_VERB_CALL, " displayTextAt", KIJ_E_CLAIMED, 0,
     "Another control has claimed the device."},
    {KIJ_LINE_DISPLAY, KIJ_VERB_CALL, " displayTextAt", KIJ_E_NOTCLAIMED, 0,
     "No control has claimed the device."},
    {KIJ_LINE_DISPLAY, KIJ_VERB_CALL, " displayTextAt", KIJ_E_DISABLED, 0,
     "The control is disabled."},
    {KIJ_LINE_DISPLAY, KIJ_VERB_CALL, " displayTextAt", KIJ_E_ILLEGAL, 0,
     "The row, column or attribute is out of its range, or displayText refuses a byte of the text."},
    {KIJ_LINE_DISPLAY, KIJ_VERB_CALL, " displayTextAt", KIJ_E_FAILURE, 0,
     "The display didn't answer."},
    {KIJ_LINE_DISPLAY, KIJ_VERB_CALL, " displayTextAt", KIJ_E_OFFLINE, 0,
     "The display is off."},
    {KIJ_LINE_DISPLAY, KIJ_VERB_CALL, " clearText", KIJ_E_CLAIMED, 0,
     "Another control has claimed the device."},
    {KIJ_LINE_DISPLAY, KIJ_VERB_CALL, " clearText", KIJ_E_NOTCLAIMED, 0,
     "No control has claimed the device."},
    {KIJ_LINE_DISPLAY, KIJ_VERB_CALL, " clearText", KIJ_E_DISABLED, 0,
     "The control is disabled."},
    {KIJ_LINE_DISPLAY, KIJ_VERB_CALL, " clearText", KIJ_E_FAILURE, 0,
     "The display didn't answer."},
    {KIJ_LINE_DISPLAY, KIJ_VERB_CALL, " clearText", KIJ_E_OFFLINE, 0,
     "The display is off."},
    {KIJ_LINE_DISPLAY, KIJ_VERB_CALL, " scrollText", KIJ_E_CLAIMED, 0,
     "Another control has claimed the device."},
    {KIJ_LINE_DISPLAY, KIJ_VERB_CALL, " scrollText", KIJ_E_NOTCLAIMED, 0,
     "No control has claimed the device."},
    {KIJ_LINE_DISPLAY, KIJ_VERB_CALL, " scrollText", KIJ_E_DISABLED, 0,
     "The control is disabled."},
    {KIJ_LINE_DISPLAY, KIJ_VERB_CALL, " scrollText", KIJ_E_ILLEGAL, 0,
     "The direction or the units are out of their range."},
    {KIJ_LINE_DISPLAY, KIJ_VERB_CALL, " scrollText", KIJ_E_FAILURE, 0,
     "The display didn't answer."},
    {KIJ_LINE_DISPLAY, KIJ_VERB_CALL, " scrollText", KIJ_E_OFFLINE, 0,
     "The display is off."},
    {KIJ_LINE_DISPLAY, KIJ_VERB_SET, " CursorRow", KIJ_E_ILLEGAL, 0,
     "The value is out of its range."},
    {KIJ_LINE_DISPLAY, KIJ_VERB_SET, " CursorColumn", KIJ_E_ILLEGAL, 0,
     "The value is out of its range."},
    {KIJ_POS_PRINTER, KIJ_VERB_CALL, " printNormal", KIJ_E_CLAIMED, 0,
     "Another control has claimed the device."},
    {KIJ_POS_PRINTER, KIJ_VERB_CALL, " printNormal", KIJ_E_NOTCLAIMED, 0,
     "No control has claimed the device."},
    {KIJ_POS_PRINTER, KIJ_VERB_CALL, " printNormal", KIJ_E_DISABLED, 0,
     "The control is disabled."},
    {KIJ_POS_PRINTER, KIJ_VERB_CALL, " printNormal", KIJ_E_ILLEGAL, 0,
     "The station isn't the receipt; or the data has more than 4,096 bytes, a byte that isn't ASCII text, LF, CR or "
     "ESC, or a number out of range."},
    {KIJ_POS_PRINTER, KIJ_VERB_CALL, " printNormal", KIJ_E_BUSY, 0,
     "AsyncMode is false, and earlier requests still wait."},
    {KIJ_POS_PRINTER, KIJ_VERB_CALL, " printNormal", KIJ_E_FAILURE, 0,
     "The printer didn't answer, or no OutputID is left."},
    {KIJ_POS_PRINTER, KIJ_VERB_CALL, " printNormal", KIJ_E_OFFLINE, 0,
     "The printer is off."},
    {KIJ_POS_PRINTER, KIJ_VERB_CALL, " printNormal", KIJ_E_EXTENDED, KIJ_EPTR_COVER_OPEN,
     "The cover is open."},
    {KIJ_POS_PRINTER, KIJ_VERB_CALL, " printNormal", KIJ_E_EXTENDED, KIJ_EPTR_REC_EMPTY,
     "There isn't enough paper."},
    {KIJ_POS_PRINTER, KIJ_VERB_CALL, " printImmediate", KIJ_E_CLAIMED, 0,
     "Another control has claimed the device."},
    {KIJ_POS_PRINTER, KIJ_VERB_CALL, " printImmediate", KIJ_E_NOTCLAIMED, 0,
     "No control has claimed the device."},
    {KIJ_POS_PRINTER, KIJ_VERB_CALL, " printImmediate", KIJ_E_DISABLED, 0,
     "The control is disabled."},
    {KIJ_POS_PRINTER, KIJ_VERB_CALL, " printImmediate", KIJ_E_ILLEGAL, 0,
     "The station isn't the receipt; or the data has more than 4,096 bytes, a byte that isn't ASCII text, LF, CR or "
     "ESC, or a number out of range."},
    {KIJ_POS_PRINTER, KIJ_VERB_CALL, " printImmediate", KIJ_E_FAILURE, 0,
     "The printer didn't answer."},
    {KIJ_POS_PRINTER, KIJ_VERB_CALL, " printImmediate", KIJ_E_OFFLINE, 0,
     "The printer is off."},
    {KIJ_POS_PRINTER, KIJ_VERB_CALL, " printImmediate", KIJ_E_EXTENDED, KIJ_EPTR_COVER_OPEN,
     "The cover is open."},
    {KIJ_POS_PRINTER, KIJ_VERB_CALL, " printImmediate", KIJ_E_EXTENDED, KIJ_EPTR_REC_EMPTY,
     "There isn't enough paper."},
    {KIJ_POS_PRINTER, KIJ_VERB_CALL, " cutPaper", KIJ_E_CLAIMED, 0,
     "Another control has claimed the device."},
    {KIJ_POS_PRINTER, KIJ_VERB_CALL, " cutPaper", KIJ_E_NOTCLAIMED, 0,
     "No control has claimed the device."},
    {KIJ_POS_PRINTER, KIJ_VERB_CALL, " cutPaper", KIJ_E_DISABLED, 0,
     "The control is disabled."},
    {KIJ_POS_PRINTER, KIJ_VERB_CALL, " cutPaper", KIJ_E_ILLEGAL, 0,
     "The percentage is out of its range."},
    {KIJ_POS_PRINTER, KIJ_VERB_CALL, " cutPaper", KIJ_E_BUSY, 0,
     "AsyncMode is false, and earlier requests still wait."},
    {KIJ_POS_PRINTER, KIJ_VERB_CALL, " cutPaper", KIJ_E_FAILURE, 0,
     "The printer didn't answer, or no OutputID is left."},
    {KIJ_POS_PRINTER, KIJ_VERB_CALL, " cutPaper", KIJ_E_OFFLINE, 0,
     "The printer is off."},
    {KIJ_POS_PRINTER, KIJ_VERB_CALL, " cutPaper", KIJ_E_EXTENDED, KIJ_EPTR_COVER_OPEN,
     "The cover is open."},
    {KIJ_POS_PRINTER, KIJ_VERB_CALL, " cutPaper", KIJ_E_EXTENDED, KIJ_EPTR_REC_EMPTY,
     "There is no paper."},
    {KIJ_POS_PRINTER, KIJ_VERB_CALL, " clearOutput", KIJ_E_CLAIMED, 0,
     "Another control has claimed the device."},
    {KIJ_POS_PRINTER, KIJ_VERB_CALL, " clearOutput", KIJ_E_NOTCLAIMED, 0,
     "No control has claimed the device."},
    {KIJ_POS_PRINTER, KIJ_VERB_GET, " RecLineChars", KIJ_E_CLAIMED, 0,
     "Another control has claimed the device."},
    {KIJ_POS_PRINTER, KIJ_VERB_GET, " RecLineChars", KIJ_E_NOTCLAIMED, 0,
     "No control has claimed the device."},
    {KIJ_POS_PRINTER, KIJ_VERB_GET, " RecLineChars", KIJ_E_DISABLED, 0,
     "The control is disabled."},
    {KIJ_POS_PRINTER, KIJ_VERB_GET, " CoverOpen", KIJ_E_CLAIMED, 0,
     "Another control has claimed the device."},
    {KIJ_POS_PRINTER, KIJ_VERB_GET, " CoverOpen", KIJ_E_NOTCLAIMED, 0,
     "No control has claimed the device."},
    {KIJ_POS_PRINTER, KIJ_VERB_GET, " CoverOpen", KIJ_E_DISABLED, 0,
     "The control is disabled."},
    {KIJ_POS_PRINTER, KIJ_VERB_GET, " RecEmpty", KIJ_E_CLAIMED, 0,
     "Another control has claimed the device."},
    {KIJ_POS_PRINTER, KIJ_VERB_GET, " RecEmpty", KIJ_E_NOTCLAIMED, 0,
     "No control has claimed the device."},
    {KIJ_POS_PRINTER, KIJ_VERB_GET, " RecEmpty", KIJ_E_DISABLED, 0,
     "The control is disabled."},
    {KIJ_POS_PRINTER, KIJ_VERB_GET, " RecNearEnd", KIJ_E_CLAIMED, 0,
     "Another control has claimed the device."},
    {KIJ_POS_PRINTER, KIJ_VERB_GET, " RecNearEnd", KIJ_E_NOTCLAIMED, 0,
     "No control has claimed the device."},
    {KIJ_POS_PRINTER, KIJ_VERB_GET, " RecNearEnd", KIJ_E_DISABLED, 0,
     "The control is disabled."},
    {KIJ_HARD_TOTALS, KIJ_VERB_CALL, " create", KIJ_E_CLAIMED, 0,
     "Another control has claimed the device."},
    {KIJ_HARD_TOTALS, KIJ_VERB_CALL, " create", KIJ_E_DISABLED, 0,
     "The control is disabled."},
    {KIJ_HARD_TOTALS, KIJ_VERB_CALL, " create", KIJ_E_FAILURE, 0,
     "The totals are off. Or: No handle is left, or the sequence of the totals has run out."},
    {KIJ_HARD_TOTALS, KIJ_VERB_CALL, " create", KIJ_E_ILLEGAL, 0,
     "The control is in a transaction, the name is bad, or the size is below 0."},
    {KIJ_HARD_TOTALS, KIJ_VERB_CALL, " create", KIJ_E_EXISTS, 0,
     "A file has the name."},
    {KIJ_HARD_TOTALS, KIJ_VERB_CALL, " create", KIJ_E_EXTENDED, KIJ_ETOT_NOROOM,
     "The size is above FreeData, or there are as many files as there may be."},
    {KIJ_HARD_TOTALS, KIJ_VERB_CALL, " delete", KIJ_E_CLAIMED, 0,
     "Another control has claimed the device. Or: Another control has claimed the file."},
    {KIJ_HARD_TOTALS, KIJ_VERB_CALL, " delete", KIJ_E_DISABLED, 0,
     "The control is disabled."},
    {KIJ_HARD_TOTALS, KIJ_VERB_CALL, " delete", KIJ_E_FAILURE, 0,
     "The totals are off. Or: The sequence of the totals has run out."},
    {KIJ_HARD_TOTALS, KIJ_VERB_CALL, " delete", KIJ_E_ILLEGAL, 0,
     "The control is in a transaction."},
    {KIJ_HARD_TOTALS, KIJ_VERB_CALL, " delete", KIJ_E_NOEXIST, 0,
     "No file has the name."},
    {KIJ_HARD_TOTALS, KIJ_VERB_CALL, " find", KIJ_E_CLAIMED, 0,
     "Another control has claimed the device."},
    {KIJ_HARD_TOTALS, KIJ_VERB_CALL, " find", KIJ_E_DISABLED, 0,
     "The control is disabled."},
    {KIJ_HARD_TOTALS, KIJ_VERB_CALL, " find", KIJ_E_FAILURE, 0,
     "The totals are off."},
    {KIJ_HARD_TOTALS, KIJ_VERB_CALL, " find", KIJ_E_NOEXIST, 0,
     "No file has the name."},
    {KIJ_HARD_TOTALS, KIJ_VERB_CALL, " findByIndex", KIJ_E_CLAIMED, 0,
     "Another control has claimed the device."},
    {KIJ_HARD_TOTALS, KIJ_VERB_CALL, " findByIndex", KIJ_E_DISABLED, 0,
     "The control is disabled."},
    {KIJ_HARD_TOTALS, KIJ_VERB_CALL, " findByIndex", KIJ_E_FAILURE, 0,
     "The totals are off."},
    {KIJ_HARD_TOTALS, KIJ_VERB_CALL, " findByIndex", KIJ_E_ILLEGAL, 0,
     "No file is at the index."},
    {KIJ_HARD_TOTALS, KIJ_VERB_CALL, " read", KIJ_E_CLAIMED, 0,
     "Another control has claimed the device. Or: Another control has claimed the file."},
    {KIJ_HARD_TOTALS, KIJ_VERB_CALL, " read", KIJ_E_DISABLED, 0,
     "The control is disabled."},
    {KIJ_HARD_TOTALS, KIJ_VERB_CALL, " read", KIJ_E_FAILURE, 0,
     "The totals are off."},
    {KIJ_HARD_TOTALS, KIJ_VERB_CALL, " read", KIJ_E_ILLEGAL, 0,
     "No file has the handle, or the bytes aren't all within the file."},
    {KIJ_HARD_TOTALS, KIJ_VERB_CALL, " write", KIJ_E_CLAIMED, 0,
     "Another control has claimed the device. Or: Another control has claimed the file."},
    {KIJ_HARD_TOTALS, KIJ_VERB_CALL, " write", KIJ_E_DISABLED, 0,
     "The control is disabled."},
    {KIJ_HARD_TOTALS, KIJ_VERB_CALL, " write", KIJ_E_FAILURE, 0,
     "The totals are off. Or: There is no transaction, and the sequence of the totals has run out."},
    {KIJ_HARD_TOTALS, KIJ_VERB_CALL, " write", KIJ_E_ILLEGAL, 0,
     "No file has the handle, or the bytes aren't all within the file."},
    {KIJ_HARD_TOTALS, KIJ_VERB_CALL, " write", KIJ_E_EXTENDED, KIJ_ETOT_NOROOM,
     "The transaction has no room for the write."},
    {KIJ_HARD_TOTALS, KIJ_VERB_CALL, " setAll", KIJ_E_CLAIMED, 0,
     "Another control has claimed the device. Or: Another control has claimed the file."},
    {KIJ_HARD_TOTALS, KIJ_VERB_CALL, " setAll", KIJ_E_DISABLED, 0,
     "The control is disabled."},
    {KIJ_HARD_TOTALS, KIJ_VERB_CALL, " setAll", KIJ_E_FAILURE, 0,
     "The totals are off. Or: There is no transaction, and the sequence of the totals has run out."},
    {KIJ_HARD_TOTALS, KIJ_VERB_CALL, " setAll", KIJ_E_ILLEGAL, 0,
     "No file has the handle, or the value isn't that of a byte."},
    {KIJ_HARD_TOTALS, KIJ_VERB_CALL, " setAll", KIJ_E_EXTENDED, KIJ_ETOT_NOROOM,
     "The transaction has no room for the change."},
    {KIJ_HARD_TOTALS, KIJ_VERB_CALL, " rename", KIJ_E_CLAIMED, 0,
     "Another control has claimed the device. Or: Another control has claimed the file."},
    {KIJ_HARD_TOTALS, KIJ_VERB_CALL, " rename", KIJ_E_DISABLED, 0,
     "The control is disabled."},
    {KIJ_HARD_TOTALS, KIJ_VERB_CALL, " rename", KIJ_E_FAILURE, 0,
     "The totals are off. Or: The sequence of the totals has run out."},
    {KIJ_HARD_TOTALS, KIJ_VERB_CALL, " rename", KIJ_E_ILLEGAL, 0,
     "The control is in a transaction, no file has the handle, or the name is bad."},
    {KIJ_HARD_TOTALS, KIJ_VERB_CALL, " rename", KIJ_E_EXISTS, 0,
     "A file has the name, be it this one."},
    {KIJ_HARD_TOTALS, KIJ_VERB_CALL, " claimFile", KIJ_E_DISABLED, 0,
     "The control is disabled."},
    {KIJ_HARD_TOTALS, KIJ_VERB_CALL, " claimFile", KIJ_E_FAILURE, 0,
     "The totals are off."},
    {KIJ_HARD_TOTALS, KIJ_VERB_CALL, " claimFile", KIJ_E_ILLEGAL, 0,
     "No file has the handle, or the timeout is below -1."},
    {KIJ_HARD_TOTALS, KIJ_VERB_CALL, " claimFile", KIJ_E_TIMEOUT, 0,
     "Another control has claimed the file or the device."},
    {KIJ_HARD_TOTALS, KIJ_VERB_CALL, " releaseFile", KIJ_E_DISABLED, 0,
     "The control is disabled."},
    {KIJ_HARD_TOTALS, KIJ_VERB_CALL, " releaseFile", KIJ_E_FAILURE, 0,
     "The totals are off."},
    {KIJ_HARD_TOTALS, KIJ_VERB_CALL, " releaseFile", KIJ_E_ILLEGAL, 0,
     "No file has the handle, or the control hasn't claimed it."},
    {KIJ_HARD_TOTALS, KIJ_VERB_CALL, " beginTrans", KIJ_E_DISABLED, 0,
     "The control is disabled."},
    {KIJ_HARD_TOTALS, KIJ_VERB_CALL, " beginTrans", KIJ_E_FAILURE, 0,
     "The totals are off."},
    {KIJ_HARD_TOTALS, KIJ_VERB_CALL, " beginTrans", KIJ_E_ILLEGAL, 0,
     "The control is in a transaction already."},
    {KIJ_HARD_TOTALS, KIJ_VERB_CALL, " commitTrans", KIJ_E_CLAIMED, 0,
     "Another control has claimed the device. Or: Another control has claimed a file of the transaction."},
    {KIJ_HARD_TOTALS, KIJ_VERB_CALL, " commitTrans", KIJ_E_DISABLED, 0,
     "The control is disabled."},
    {KIJ_HARD_TOTALS, KIJ_VERB_CALL, " commitTrans", KIJ_E_FAILURE, 0,
     "The totals are off. Or: The sequence of the totals has run out; the transaction stays."},
    {KIJ_HARD_TOTALS, KIJ_VERB_CALL, " commitTrans", KIJ_E_ILLEGAL, 0,
     "The control is in no transaction."},
    {KIJ_HARD_TOTALS, KIJ_VERB_CALL, " commitTrans", KIJ_E_NOEXIST, 0,
     "A file of the transaction was deleted."},
    {KIJ_HARD_TOTALS, KIJ_VERB_CALL, " rollback", KIJ_E_DISABLED, 0,
     "The control is disabled."},
    {KIJ_HARD_TOTALS, KIJ_VERB_CALL, " rollback", KIJ_E_FAILURE, 0,
     "The totals are off."},
    {KIJ_HARD_TOTALS, KIJ_VERB_CALL, " rollback", KIJ_E_ILLEGAL, 0,
     "The control is in no transaction."},
    {KIJ_HARD_TOTALS, KIJ_VERB_GET, " FreeData", KIJ_E_DISABLED, 0,
     "The control is disabled."},
    {KIJ_HARD_TOTALS, KIJ_VERB_GET, " FreeData", KIJ_E_FAILURE, 0,
     "The totals are off."},
    {KIJ_HARD_TOTALS, KIJ_VERB_GET, " NumberOfFiles", KIJ_E_DISABLED, 0,
     "The control is disabled."},
    {KIJ_HARD_TOTALS, KIJ_VERB_GET, " NumberOfFiles", KIJ_E_FAILURE, 0,
     "The totals are off."},
};

const size_t kij_internal_reason_count = sizeof kij_internal_reasons / sizeof kij_internal_reasons[0];

kij_result kij_control_open(kij_control *control, const char *device) {
    kij_word word;
    if (!kij_internal_is_name(device, &word)) return kij_internal_result(KIJ_BAD_ARGUMENT, 0, KIJ_NO_CATEGORY);
    return kij_internal_call(control, KIJ_VERB_OPEN, &word, NULL, 0, NULL);
}

kij_result kij_control_close(kij_control *control) {
    return kij_internal_call(control, KIJ_VERB_CLOSE, NULL, NULL, 0, NULL);
}

kij_result kij_control_claim(kij_control *control, int64_t timeout) {
    kij_argument arguments[1];
    arguments[0] = kij_internal_number(timeout);
    return kij_internal_call(control, KIJ_VERB_CLAIM, NULL, arguments, 1, NULL);
}

kij_result kij_control_release(kij_control *control) {
    return kij_internal_call(control, KIJ_VERB_RELEASE, NULL, NULL, 0, NULL);
}

kij_result kij_drawer_open(kij_control *drawer) {
    static const kij_word method = KIJ_WORD(" openDrawer");
    return kij_internal_call(drawer, KIJ_VERB_CALL, &method, NULL, 0, NULL);
}

kij_result kij_scanner_clear_input(kij_control *scanner) {
    static const kij_word method = KIJ_WORD(" clearInput");
    return kij_internal_call(scanner, KIJ_VERB_CALL, &method, NULL, 0, NULL);
}

kij_result kij_scanner_clear_input_properties(kij_control *scanner) {
    static const kij_word method = KIJ_WORD(" clearInputProperties");
    return kij_internal_call(scanner, KIJ_VERB_CALL, &method, NULL, 0, NULL);
}

kij_result kij_display_text(kij_control *display, const void *text, size_t text_size, int64_t attribute) {
    static const kij_word method = KIJ_WORD(" displayText");
    kij_argument arguments[2];
    arguments[0] = kij_internal_bytes(text, text_size);
    arguments[1] = kij_internal_number(attribute);
    return kij_internal_call(display, KIJ_VERB_CALL, &method, arguments, 2, NULL);
}

kij_result kij_display_text_at(kij_control *display, int64_t row, int64_t column, const void *text, size_t text_size,
                               int64_t attribute) {
    static const kij_word method = KIJ_WORD(" displayTextAt");
    kij_argument arguments[4];
    arguments[0] = kij_internal_number(row);
    arguments[1] = kij_internal_number(column);
    arguments[2] = kij_internal_bytes(text, text_size);
    arguments[3] = kij_internal_number(attribute);
    return kij_internal_call(display, KIJ_VERB_CALL, &method, arguments, 4, NULL);
}

kij_result kij_display_clear_text(kij_control *display) {
    static const kij_word method = KIJ_WORD(" clearText");
    return kij_internal_call(display, KIJ_VERB_CALL, &method, NULL, 0, NULL);
}

kij_result kij_display_scroll_text(kij_control *display, int64_t direction, int64_t units) {
    static const kij_word method = KIJ_WORD(" scrollText");
    kij_argument arguments[2];
    arguments[0] = kij_internal_number(direction);
    arguments[1] = kij_internal_number(units);
    return kij_internal_call(display, KIJ_VERB_CALL, &method, arguments, 2, NULL);
}

kij_result kij_printer_print(kij_control *printer, int64_t station, const void *data, size_t data_size) {
    static const kij_word method = KIJ_WORD(" printNormal");
    kij_argument arguments[2];
    arguments[0] = kij_internal_number(station);
    arguments[1] = kij_internal_bytes(data, data_size);
    return kij_internal_call(printer, KIJ_VERB_CALL, &method, arguments, 2, NULL);
}

kij_result kij_printer_print_immediate(kij_control *printer, int64_t station, const void *data, size_t data_size) {
    static const kij_word method = KIJ_WORD(" printImmediate");
    kij_argument arguments[2];
    arguments[0] = kij_internal_number(station);
    arguments[1] = kij_internal_bytes(data, data_size);
    return kij_internal_call(printer, KIJ_VERB_CALL, &method, arguments, 2, NULL);
}

kij_result kij_printer_cut_paper(kij_control *printer, int64_t percentage) {
    static const kij_word method = KIJ_WORD(" cutPaper");
    kij_argument arguments[1];
    arguments[0] = kij_internal_number(percentage);
    return kij_internal_call(printer, KIJ_VERB_CALL, &method, arguments, 1, NULL);
}

kij_result kij_printer_clear_output(kij_control *printer) {
    static const kij_word method = KIJ_WORD(" clearOutput");
    return kij_internal_call(printer, KIJ_VERB_CALL, &method, NULL, 0, NULL);
}

kij_result kij_totals_create(kij_control *totals, const void *name, size_t name_size, int64_t size,
                             bool error_detection, int64_t *handle) {
    static const kij_word method = KIJ_WORD(" create");
    kij_argument arguments[3];
    arguments[0] = kij_internal_bytes(name, name_size);
    arguments[1] = kij_internal_number(size);
    arguments[2] = kij_internal_truth(error_detection);
    kij_value value;
    value.shape = KIJ_SHAPE_NUMBER;
    kij_result result = kij_internal_call(totals, KIJ_VERB_CALL, &method, arguments, 3, &value);
    if (result.code == KIJ_OK) {
        if (handle != NULL) *handle = value.number;
    }
    return result;
}

kij_result kij_totals_delete(kij_control *totals, const void *name, size_t name_size) {
    static const kij_word method = KIJ_WORD(" delete");
    kij_argument arguments[1];
    arguments[0] = kij_internal_bytes(name, name_size);
    return kij_internal_call(totals, KIJ_VERB_CALL, &method, arguments, 1, NULL);
}

kij_result kij_totals_find(kij_control *totals, const void *name, size_t name_size, int64_t *handle, int64_t *size) {
    static const kij_word method = KIJ_WORD(" find");
    kij_argument arguments[1];
    arguments[0] = kij_internal_bytes(name, name_size);
    kij_value value;
    value.shape = KIJ_SHAPE_PAIR;
    kij_result result = kij_internal_call(totals, KIJ_VERB_CALL, &method, arguments, 1, &value);
    if (result.code == KIJ_OK) {
        if (handle != NULL) *handle = value.number;
        if (size != NULL) *size = value.second;
    }
    return result;
}

kij_result kij_totals_find_by_index(kij_control *totals, int64_t index, const uint8_t **name, size_t *name_size) {
    static const kij_word method = KIJ_WORD(" findByIndex");
    kij_argument arguments[1];
    arguments[0] = kij_internal_number(index);
    kij_value value;
    value.shape = KIJ_SHAPE_BYTES;
    kij_result result = kij_internal_call(totals, KIJ_VERB_CALL, &method, arguments, 1, &value);
    if (result.code == KIJ_OK) {
        if (name != NULL) *name = value.data;
        if (name_size != NULL) *name_size = value.size;
    }
    return result;
}

kij_result kij_totals_read(kij_control *totals, int64_t handle, int64_t offset, int64_t count, const uint8_t **data,
                           size_t *data_size) {
    static const kij_word method = KIJ_WORD(" read");
    kij_argument arguments[3];
    arguments[0] = kij_internal_number(handle);
    arguments[1] = kij_internal_number(offset);
    arguments[2] = kij_internal_number(count);
    kij_value value;
    value.shape = KIJ_SHAPE_BYTES;
    kij_result result = kij_internal_call(totals, KIJ_VERB_CALL, &method, arguments, 3, &value);
    if (result.code == KIJ_OK) {
        if (data != NULL) *data = value.data;
        if (data_size != NULL) *data_size = value.size;
    }
    return result;
}

kij_result kij_totals_write(kij_control *totals, int64_t handle, int64_t offset, const void *data, size_t data_size) {
    static const kij_word method = KIJ_WORD(" write");
    kij_argument arguments[3];
    arguments[0] = kij_internal_number(handle);
    arguments[1] = kij_internal_number(offset);
    arguments[2] = kij_internal_bytes(data, data_size);
    return kij_internal_call(totals, KIJ_VERB_CALL, &method, arguments, 3, NULL);
}

kij_result kij_totals_set_all(kij_control *totals, int64_t handle, int64_t value) {
    static const kij_word method = KIJ_WORD(" setAll");
    kij_argument arguments[2];
    arguments[0] = kij_internal_number(handle);
    arguments[1] = kij_internal_number(value);
    return kij_internal_call(totals, KIJ_VERB_CALL, &method, arguments, 2, NULL);
}

kij_result kij_totals_rename(kij_control *totals, int64_t handle, const void *name, size_t name_size) {
    static const kij_word method = KIJ_WORD(" rename");
    kij_argument arguments[2];
    arguments[0] = kij_internal_number(handle);
    arguments[1] = kij_internal_bytes(name, name_size);
    return kij_internal_call(totals, KIJ_VERB_CALL, &method, arguments, 2, NULL);
}

kij_result kij_totals_claim_file(kij_control *totals, int64_t handle, int64_t timeout) {
    static const kij_word method = KIJ_WORD(" claimFile");
    kij_argument arguments[2];
    arguments[0] = kij_internal_number(handle);
    arguments[1] = kij_internal_number(timeout);
    return kij_internal_call(totals, KIJ_VERB_CALL, &method, arguments, 2, NULL);
}

kij_result kij_totals_release_file(kij_control *totals, int64_t handle) {
    static const kij_word method = KIJ_WORD(" releaseFile");
    kij_argument arguments[1];
    arguments[0] = kij_internal_number(handle);
    return kij_internal_call(totals, KIJ_VERB_CALL, &method, arguments, 1, NULL);
}

kij_result kij_totals_begin_trans(kij_control *totals) {
    static const kij_word method = KIJ_WORD(" beginTrans");
    return kij_internal_call(totals, KIJ_VERB_CALL, &method, NULL, 0, NULL);
}

kij_result kij_totals_commit_trans(kij_control *totals) {
    static const kij_word method = KIJ_WORD(" commitTrans");
    return kij_internal_call(totals, KIJ_VERB_CALL, &method, NULL, 0, NULL);
}

kij_result kij_totals_rollback(kij_control *totals) {
    static const kij_word method = KIJ_WORD(" rollback");
    return kij_internal_call(totals, KIJ_VERB_CALL, &method, NULL, 0, NULL);
}
