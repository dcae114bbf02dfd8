/**
 * @file kij_controls.h
 * The methods, properties, codes and constants of the controls. kij.h includes this file.
 * Written by abi/typed_c.py: don't change it by hand.
 *
 * A call returns KIJ_OK, the first of the codes at @retval that holds, or a code of enum kij_code. It may have changed
 * something only after KIJ_NO_ANSWER, KIJ_DISK_FAILED and KIJ_BAD_ANSWER. If its device has a driver, the hardware may
 * have done a part of an order that failed.
 */
#ifndef KIJ_CONTROLS_H
#define KIJ_CONTROLS_H

#include "kij.h"

#ifdef __cplusplus
extern "C" {
#endif

/** The result codes of the standard (ErrorCode). */
enum {
    /** The call succeeded. */
    KIJ_E_SUCCESS = 0,
    /** The control is closed. */
    KIJ_E_CLOSED = 101,
    /** Another control has claimed the device or the file. */
    KIJ_E_CLAIMED = 102,
    /** The device has to be claimed first. */
    KIJ_E_NOTCLAIMED = 103,
    /** No peripheral is attached to the device. */
    KIJ_E_NOSERVICE = 104,
    /** The device has to be enabled first. */
    KIJ_E_DISABLED = 105,
    /** An argument is out of its range, or the control's state doesn't allow the call. */
    KIJ_E_ILLEGAL = 106,
    /** The device can't be used: the disk of the totals isn't formatted. */
    KIJ_E_NOHARDWARE = 107,
    /** The device is off. */
    KIJ_E_OFFLINE = 108,
    /** There is no device or file of that name. */
    KIJ_E_NOEXIST = 109,
    /** There is a file of that name already. */
    KIJ_E_EXISTS = 110,
    /** The device failed, or the totals are off. A failed disk is KIJ_DISK_FAILED. */
    KIJ_E_FAILURE = 111,
    /** Another control has the device or the file, so the claim failed. */
    KIJ_E_TIMEOUT = 112,
    /** Earlier requests still wait, so a synchronous one is refused. */
    KIJ_E_BUSY = 113,
    /** The extended code says what is wrong. */
    KIJ_E_EXTENDED = 114
};

/** The extended codes of the standard (ErrorCodeExtended), which come with KIJ_E_EXTENDED. */
enum {
    /** The totals have no room for the file, or the transaction has none for the change. Of HardTotals. */
    KIJ_ETOT_NOROOM = 201,
    /** The printer's cover is open. Of POSPrinter. */
    KIJ_EPTR_COVER_OPEN = 201,
    /** The receipt doesn't have enough paper. Of POSPrinter. */
    KIJ_EPTR_REC_EMPTY = 203
};

/** The values of State (chapter Common Properties, Methods and Events). */
enum {
    /** The control is closed. */
    KIJ_S_CLOSED = 1,
    /** The control is open, and nothing waits. */
    KIJ_S_IDLE = 2,
    /** Output waits. */
    KIJ_S_BUSY = 3,
    /** The control is in an error state of input or output. */
    KIJ_S_ERROR = 4
};

/** The statuses of a cash drawer, in StatusUpdateEvents (chapter Cash Drawer). */
enum {
    /** The drawer is closed. */
    KIJ_CASH_SUE_DRAWERCLOSED = 0,
    /** The drawer is open. */
    KIJ_CASH_SUE_DRAWEROPEN = 1
};

/** The statuses of a receipt printer, in StatusUpdateEvents (chapter POS Printer). */
enum {
    /** The cover is open. */
    KIJ_PTR_SUE_COVER_OPEN = 11,
    /** The cover is closed. */
    KIJ_PTR_SUE_COVER_OK = 12,
    /** There is no paper. */
    KIJ_PTR_SUE_REC_EMPTY = 24,
    /** The paper is near its end. */
    KIJ_PTR_SUE_REC_NEAREMPTY = 25,
    /** There is enough paper. */
    KIJ_PTR_SUE_REC_PAPEROK = 26
};

/** The statuses of a device's power, in StatusUpdateEvents (chapter Common Properties, Methods and Events). */
enum {
    /** The device is on. */
    KIJ_SUE_POWER_ONLINE = 2001,
    /** The device is off. */
    KIJ_SUE_POWER_OFF_OFFLINE = 2004
};

/** The values of CapPowerReporting (chapter Common Properties, Methods and Events). */
enum {
    /** The device doesn't report its power. */
    KIJ_PR_NONE = 0,
    /** The device reports if it is on or off. */
    KIJ_PR_STANDARD = 1
};

/** The values of PowerNotify (chapter Common Properties, Methods and Events). */
enum {
    /** The control gets no events of the device's power. */
    KIJ_PN_DISABLED = 0,
    /** The control gets events of the device's power. */
    KIJ_PN_ENABLED = 1
};

/** The values of PowerState (chapter Common Properties, Methods and Events). */
enum {
    /** The control is disabled, or PowerNotify is KIJ_PN_DISABLED. */
    KIJ_PS_UNKNOWN = 2000,
    /** The device is on. */
    KIJ_PS_ONLINE = 2001,
    /** The device is off. */
    KIJ_PS_OFF_OFFLINE = 2004
};

/** Where an error is, in ErrorEvents (chapter Common Properties, Methods and Events). */
enum {
    /** Output failed. */
    KIJ_EL_OUTPUT = 1,
    /** Input failed, and no earlier input is held any more. */
    KIJ_EL_INPUT = 2,
    /** Input failed, and earlier input is still held. */
    KIJ_EL_INPUT_DATA = 3
};

/**
 * Types of bar codes (ScanDataType). The standard has others, and a scan may have any of 0 to 999 (chapter Scanner
 * (Bar Code Reader)).
 */
enum {
    /** It isn't known. */
    KIJ_SCAN_SDT_UNKNOWN = 0,
    /** UPC-A; with an AIM identifier it comes as EAN-13. */
    KIJ_SCAN_SDT_UPCA = 101,
    /** UPC-E; with an AIM identifier it comes as EAN-13. */
    KIJ_SCAN_SDT_UPCE = 102,
    /** EAN-8. */
    KIJ_SCAN_SDT_EAN8 = 103,
    /** EAN-13. */
    KIJ_SCAN_SDT_EAN13 = 104,
    /** 2 of 5. */
    KIJ_SCAN_SDT_TF = 105,
    /** Interleaved 2 of 5. */
    KIJ_SCAN_SDT_ITF = 106,
    /** Codabar. */
    KIJ_SCAN_SDT_Codabar = 107,
    /** Code 39. */
    KIJ_SCAN_SDT_Code39 = 108,
    /** Code 93. */
    KIJ_SCAN_SDT_Code93 = 109,
    /** Code 128. */
    KIJ_SCAN_SDT_Code128 = 110,
    /** EAN-13 with a supplement. */
    KIJ_SCAN_SDT_EAN13_S = 119,
    /** GS1-128. */
    KIJ_SCAN_SDT_EAN128 = 120,
    /** OCR-A. */
    KIJ_SCAN_SDT_OCRA = 121,
    /** OCR-B. */
    KIJ_SCAN_SDT_OCRB = 122,
    /** GS1 DataBar. */
    KIJ_SCAN_SDT_GS1DATABAR = 131,
    /** PDF417. */
    KIJ_SCAN_SDT_PDF417 = 201,
    /** MaxiCode. */
    KIJ_SCAN_SDT_MAXICODE = 202,
    /** Data Matrix. */
    KIJ_SCAN_SDT_DATAMATRIX = 203,
    /** QR Code. */
    KIJ_SCAN_SDT_QRCODE = 204,
    /** Aztec Code. */
    KIJ_SCAN_SDT_AZTEC = 206,
    /** Another type. */
    KIJ_SCAN_SDT_OTHER = 501
};

/** How a line display shows characters (chapter Line Display). */
enum {
    /** Plain. */
    KIJ_DISP_DT_NORMAL = 0,
    /** Blinking. */
    KIJ_DISP_DT_BLINK = 1,
    /** Reverse. */
    KIJ_DISP_DT_REVERSE = 2,
    /** Blinking and reverse. */
    KIJ_DISP_DT_BLINK_REVERSE = 3
};

/** Where scrollText moves the text (chapter Line Display). */
enum {
    /** Up. */
    KIJ_DISP_ST_UP = 1,
    /** Down. */
    KIJ_DISP_ST_DOWN = 2,
    /** To the left. */
    KIJ_DISP_ST_LEFT = 3,
    /** To the right. */
    KIJ_DISP_ST_RIGHT = 4
};

/** The stations of a printer (chapter POS Printer). */
enum {
    /** The receipt. */
    KIJ_PTR_S_RECEIPT = 2
};

/** Percentages of cutPaper with a name (chapter POS Printer). */
enum {
    /** A full cut. */
    KIJ_PTR_CP_FULLCUT = 100
};

/** Timeouts with a name (chapter Common Properties, Methods and Events). */
enum {
    /** Without end. */
    KIJ_FOREVER = -1
};

/** The properties. kij_get_... reads them, and kij_set_... writes them. */
typedef enum kij_property {
    /**
     * State (Common Properties, Methods and Events): what the control is doing; it can be read while the control is
     * closed, too.
     * Of every category: a number, read only. KIJ_S_CLOSED, KIJ_S_IDLE, KIJ_S_BUSY, KIJ_S_ERROR.
     */
    KIJ_PROP_STATE = 1,
    /**
     * Claimed (Common Properties, Methods and Events): whether the control has claimed its device.
     * Of every category: a flag, read only.
     * Reading: KIJ_E_CLOSED: the control is closed.
     */
    KIJ_PROP_CLAIMED = 2,
    /**
     * DeviceEnabled (Common Properties, Methods and Events): whether the device works for this control.
     * An exclusive-use device has to be claimed first. AutoDisable and a release set it to false. Enabling Hard Totals
     * recovers their files, if they are off.
     * Of every category: a flag, read and written.
     * Reading: KIJ_E_CLOSED: the control is closed.
     * Writing: KIJ_E_CLOSED: the control is closed.
     * Writing: KIJ_E_CLAIMED: another control has claimed the device, which is an exclusive-use device.
     * Writing: KIJ_E_NOTCLAIMED: the control hasn't claimed the device, which is an exclusive-use device.
     * Writing: KIJ_E_NOHARDWARE: the disk of the totals isn't formatted.
     * Writing: KIJ_E_FAILURE: the totals can't be recovered.
     * Writing: KIJ_DISK_FAILED: the disk failed, and the change may be in the file or not.
     */
    KIJ_PROP_DEVICE_ENABLED = 3,
    /**
     * FreezeEvents (Common Properties, Methods and Events): whether events are held back: none is delivered while this
     * is true.
     * Of every category: a flag, read and written.
     * Reading: KIJ_E_CLOSED: the control is closed.
     * Writing: KIJ_E_CLOSED: the control is closed.
     */
    KIJ_PROP_FREEZE_EVENTS = 4,
    /**
     * CapPowerReporting (Common Properties, Methods and Events): whether the device reports that it is on or off.
     * Of every category: a number, read only. KIJ_PR_NONE, KIJ_PR_STANDARD.
     * Reading: KIJ_E_CLOSED: the control is closed.
     */
    KIJ_PROP_CAP_POWER_REPORTING = 5,
    /**
     * PowerNotify (Common Properties, Methods and Events): whether the control gets StatusUpdateEvents of the device's
     * power.
     * Set it before you enable the device.
     * Of every category: a number, read and written. KIJ_PN_DISABLED, KIJ_PN_ENABLED.
     * Reading: KIJ_E_CLOSED: the control is closed.
     * Writing: KIJ_E_CLOSED: the control is closed.
     * Writing: KIJ_E_ILLEGAL: the value is out of its range, would change while the device is enabled, or is
     * KIJ_PN_ENABLED and the device doesn't report its power.
     */
    KIJ_PROP_POWER_NOTIFY = 6,
    /**
     * PowerState (Common Properties, Methods and Events): whether the device is on, if the control is enabled and
     * PowerNotify is KIJ_PN_ENABLED.
     * Of every category: a number, read only. KIJ_PS_UNKNOWN, KIJ_PS_ONLINE, KIJ_PS_OFF_OFFLINE.
     * Reading: KIJ_E_CLOSED: the control is closed.
     */
    KIJ_PROP_POWER_STATE = 7,
    /**
     * CapStatus (Cash Drawer): whether the drawer reports if it is open: always true.
     * Of CashDrawer: a flag, read only.
     * Reading: KIJ_E_CLOSED: the control is closed.
     */
    KIJ_PROP_CAP_STATUS = 8,
    /**
     * DrawerOpened (Cash Drawer): whether the drawer is open.
     * Of CashDrawer: a flag, read only.
     * Reading: KIJ_E_CLOSED: the control is closed.
     * Reading: KIJ_E_DISABLED: the control is disabled.
     */
    KIJ_PROP_DRAWER_OPENED = 9,
    /**
     * DataEventEnabled (Common Properties, Methods and Events; Scanner (Bar Code Reader)): whether DataEvents and
     * ErrorEvents of input are delivered.
     * The delivery of a DataEvent sets it to false; set it to true again when you are ready for the next one.
     * Of Scanner: a flag, read and written.
     * Reading: KIJ_E_CLOSED: the control is closed.
     * Writing: KIJ_E_CLOSED: the control is closed.
     */
    KIJ_PROP_DATA_EVENT_ENABLED = 10,
    /**
     * AutoDisable (Common Properties, Methods and Events; Scanner (Bar Code Reader)): whether the next scan disables
     * the control.
     * Of Scanner: a flag, read and written.
     * Reading: KIJ_E_CLOSED: the control is closed.
     * Writing: KIJ_E_CLOSED: the control is closed.
     */
    KIJ_PROP_AUTO_DISABLE = 11,
    /**
     * DataCount (Common Properties, Methods and Events; Scanner (Bar Code Reader)): how many DataEvents wait.
     * Of Scanner: a number, read only. In events.
     * Reading: KIJ_E_CLOSED: the control is closed.
     */
    KIJ_PROP_DATA_COUNT = 12,
    /**
     * DecodeData (Scanner (Bar Code Reader)): whether a DataEvent sets ScanDataLabel and ScanDataType.
     * Of Scanner: a flag, read and written.
     * Reading: KIJ_E_CLOSED: the control is closed.
     * Writing: KIJ_E_CLOSED: the control is closed.
     */
    KIJ_PROP_DECODE_DATA = 13,
    /**
     * ScanData (Scanner (Bar Code Reader)): all that was read, of the DataEvent that was delivered last.
     * Of Scanner: bytes, read only.
     * Reading: KIJ_E_CLOSED: the control is closed.
     */
    KIJ_PROP_SCAN_DATA = 14,
    /**
     * ScanDataLabel (Scanner (Bar Code Reader)): the label of the bar code, of the DataEvent that was delivered last.
     * It is empty if DecodeData was false then.
     * Of Scanner: bytes, read only.
     * Reading: KIJ_E_CLOSED: the control is closed.
     */
    KIJ_PROP_SCAN_DATA_LABEL = 15,
    /**
     * ScanDataType (Scanner (Bar Code Reader)): the type of the bar code, of the DataEvent that was delivered last.
     * It is 0 if DecodeData was false then. Many types have names: KIJ_SCAN_SDT_UPCA and the like.
     * Of Scanner: a number, read only.
     * Reading: KIJ_E_CLOSED: the control is closed.
     */
    KIJ_PROP_SCAN_DATA_TYPE = 16,
    /**
     * Rows (Line Display): how many rows the display has.
     * Of LineDisplay: a number, read only. In rows.
     * Reading: KIJ_E_CLOSED: the control is closed.
     */
    KIJ_PROP_ROWS = 17,
    /**
     * Columns (Line Display): how many columns the display has.
     * Of LineDisplay: a number, read only. In columns.
     * Reading: KIJ_E_CLOSED: the control is closed.
     */
    KIJ_PROP_COLUMNS = 18,
    /**
     * CursorRow (Line Display): the row in which the next text begins, counted from 0.
     * Of LineDisplay: a number, read and written. Range: 0 to Rows - 1 rows.
     * Reading: KIJ_E_CLOSED: the control is closed.
     * Writing: KIJ_E_CLOSED: the control is closed.
     * Writing: KIJ_E_ILLEGAL: the value is out of its range.
     */
    KIJ_PROP_CURSOR_ROW = 19,
    /**
     * CursorColumn (Line Display): the column in which the next text begins, counted from 0; Columns is right of the
     * last.
     * Of LineDisplay: a number, read and written. Range: 0 to Columns columns.
     * Reading: KIJ_E_CLOSED: the control is closed.
     * Writing: KIJ_E_CLOSED: the control is closed.
     * Writing: KIJ_E_ILLEGAL: the value is out of its range.
     */
    KIJ_PROP_CURSOR_COLUMN = 20,
    /**
     * CursorUpdate (Line Display): whether displayText and displayTextAt move the cursor to the end of the text.
     * Of LineDisplay: a flag, read and written.
     * Reading: KIJ_E_CLOSED: the control is closed.
     * Writing: KIJ_E_CLOSED: the control is closed.
     */
    KIJ_PROP_CURSOR_UPDATE = 21,
    /**
     * AsyncMode (POS Printer): whether printNormal and cutPaper are queued and done later.
     * Of POSPrinter: a flag, read and written.
     * Reading: KIJ_E_CLOSED: the control is closed.
     * Writing: KIJ_E_CLOSED: the control is closed.
     */
    KIJ_PROP_ASYNC_MODE = 22,
    /**
     * OutputID (Common Properties, Methods and Events; POS Printer): the OutputID of the request that was queued last,
     * or 0 if none was since the control was opened.
     * Of POSPrinter: a number, read only.
     * Reading: KIJ_E_CLOSED: the control is closed.
     */
    KIJ_PROP_OUTPUT_ID = 23,
    /**
     * RecLineChars (POS Printer): how many characters a line of the receipt has.
     * Of POSPrinter: a number, read only. In characters.
     * Reading: KIJ_E_CLOSED: the control is closed.
     * Reading: KIJ_E_CLAIMED: another control has claimed the device.
     * Reading: KIJ_E_NOTCLAIMED: no control has claimed the device.
     * Reading: KIJ_E_DISABLED: the control is disabled.
     */
    KIJ_PROP_REC_LINE_CHARS = 24,
    /**
     * CoverOpen (POS Printer): whether the printer's cover is open.
     * Of POSPrinter: a flag, read only.
     * Reading: KIJ_E_CLOSED: the control is closed.
     * Reading: KIJ_E_CLAIMED: another control has claimed the device.
     * Reading: KIJ_E_NOTCLAIMED: no control has claimed the device.
     * Reading: KIJ_E_DISABLED: the control is disabled.
     */
    KIJ_PROP_COVER_OPEN = 25,
    /**
     * RecEmpty (POS Printer): whether the receipt has no paper.
     * Of POSPrinter: a flag, read only.
     * Reading: KIJ_E_CLOSED: the control is closed.
     * Reading: KIJ_E_CLAIMED: another control has claimed the device.
     * Reading: KIJ_E_NOTCLAIMED: no control has claimed the device.
     * Reading: KIJ_E_DISABLED: the control is disabled.
     */
    KIJ_PROP_REC_EMPTY = 26,
    /**
     * RecNearEnd (POS Printer): whether the receipt's paper is near its end, or gone.
     * Of POSPrinter: a flag, read only.
     * Reading: KIJ_E_CLOSED: the control is closed.
     * Reading: KIJ_E_CLAIMED: another control has claimed the device.
     * Reading: KIJ_E_NOTCLAIMED: no control has claimed the device.
     * Reading: KIJ_E_DISABLED: the control is disabled.
     */
    KIJ_PROP_REC_NEAR_END = 27,
    /**
     * TotalsSize (Hard Totals): how many bytes all files may have together.
     * Of HardTotals: a number, read only. In bytes.
     * Reading: KIJ_E_CLOSED: the control is closed.
     */
    KIJ_PROP_TOTALS_SIZE = 28,
    /**
     * FreeData (Hard Totals): how many bytes are left for new files, which is TotalsSize less the sizes of all files.
     * Of HardTotals: a number, read only. In bytes.
     * Reading: KIJ_E_CLOSED: the control is closed.
     * Reading: KIJ_E_DISABLED: the control is disabled.
     * Reading: KIJ_E_FAILURE: the totals are off.
     */
    KIJ_PROP_FREE_DATA = 29,
    /**
     * NumberOfFiles (Hard Totals): how many files there are.
     * Of HardTotals: a number, read only. In files.
     * Reading: KIJ_E_CLOSED: the control is closed.
     * Reading: KIJ_E_DISABLED: the control is disabled.
     * Reading: KIJ_E_FAILURE: the totals are off.
     */
    KIJ_PROP_NUMBER_OF_FILES = 30,
    /**
     * TransactionInProgress (Hard Totals): whether the control is in a transaction.
     * Of HardTotals: a flag, read only.
     * Reading: KIJ_E_CLOSED: the control is closed.
     */
    KIJ_PROP_TRANSACTION_IN_PROGRESS = 31,
    /**
     * CapTransactions (Hard Totals): whether there are transactions: always true.
     * Of HardTotals: a flag, read only.
     * Reading: KIJ_E_CLOSED: the control is closed.
     */
    KIJ_PROP_CAP_TRANSACTIONS = 32,
    /**
     * CapSingleFile (Hard Totals): whether there may be only one file: always false.
     * Of HardTotals: a flag, read only.
     * Reading: KIJ_E_CLOSED: the control is closed.
     */
    KIJ_PROP_CAP_SINGLE_FILE = 33,
    /**
     * CapErrorDetection (Hard Totals): whether error detection can be chosen for a file: always false.
     * Of HardTotals: a flag, read only.
     * Reading: KIJ_E_CLOSED: the control is closed.
     */
    KIJ_PROP_CAP_ERROR_DETECTION = 34
} kij_property;

/** Reads a property that is a number. KIJ_WRONG_TYPE if it is none; else an error of the property. */
kij_result kij_get_int(kij_control *control, kij_property property, int64_t *number);

/** Reads a property that is a flag. KIJ_WRONG_TYPE if it is none; else an error of the property. */
kij_result kij_get_bool(kij_control *control, kij_property property, bool *is_true);

/** Reads a property that is bytes, which are lent. KIJ_WRONG_TYPE if it is none; else an error of the property. */
kij_result kij_get_bytes(kij_control *control, kij_property property, const uint8_t **data, size_t *size);

/** Sets a property to a number. KIJ_E_ILLEGAL if it is read only or of another type; else an error of the property.
 * This and the calls above are KIJ_E_ILLEGAL too if the control's category hasn't the property. */
kij_result kij_set_int(kij_control *control, kij_property property, int64_t number);

/** Sets a property to a flag. KIJ_E_ILLEGAL if it is read only or of another type; else an error of the property. */
kij_result kij_set_bool(kij_control *control, kij_property property, bool is_true);

/** Returns the name of a property, as "DeviceEnabled". The text is static. */
const char *kij_property_name(kij_property property);

/* ---- Every category. */

/**
 * open (Common Properties, Methods and Events): opens the control on a device, and sets its properties to their
 * defaults.
 *
 * Flags are false, except CursorUpdate, which is true. Numbers are 0, and bytes are empty. You can open a closed
 * control again.
 *
 * @param device The device's name in the profile. Range: 1 to 16 characters.
 * @retval KIJ_E_ILLEGAL The control is open already.
 * @retval KIJ_E_NOEXIST No device of the control's category has the name.
 * @retval KIJ_E_NOSERVICE No peripheral is attached to the device.
 * @retval KIJ_NO_MEMORY There was no memory.
 */
kij_result kij_control_open(kij_control *control, const char *device);

/**
 * close (Common Properties, Methods and Events): closes the control: it releases the device, deletes its events
 * and its output that waits, and disables it.
 *
 * A control of Hard Totals also gives up its claims of files, and its transaction is dropped.
 *
 * @retval KIJ_E_CLOSED The control is closed.
 */
kij_result kij_control_close(kij_control *control);

/**
 * claim (Common Properties, Methods and Events): claims the device, which keeps other controls from using it.
 *
 * A claim that the control has already stays as it is. The call never waits: if another control has the device, it
 * fails at once.
 *
 * @param timeout How long the claim may take; KIJ_FOREVER is without end. Range: from -1 on milliseconds.
 * @retval KIJ_E_CLOSED The control is closed.
 * @retval KIJ_E_ILLEGAL The timeout is below -1.
 * @retval KIJ_E_TIMEOUT Another control has claimed the device, or a file of the totals.
 */
kij_result kij_control_claim(kij_control *control, int64_t timeout);

/**
 * release (Common Properties, Methods and Events): releases the device that the control has claimed.
 *
 * An exclusive-use device is disabled for the control, and the control's events and output that waits are deleted.
 * A sharable device stays enabled.
 *
 * @retval KIJ_E_CLOSED The control is closed.
 * @retval KIJ_E_ILLEGAL The control hasn't claimed the device.
 */
kij_result kij_control_release(kij_control *control);

/* ---- CashDrawer: A cash drawer. Several controls may share a drawer. A claim only keeps the others from opening
   it. */

/**
 * openDrawer (Cash Drawer): opens the drawer; one that is open stays open.
 *
 * @retval KIJ_E_CLOSED The control is closed.
 * @retval KIJ_E_CLAIMED Another control has claimed the device.
 * @retval KIJ_E_DISABLED The control is disabled.
 * @retval KIJ_E_FAILURE The drawer, or the printer that it is on, can't answer.
 * @retval KIJ_E_OFFLINE The drawer is off.
 * @retval KIJ_NO_MEMORY There was no memory.
 */
kij_result kij_drawer_open(kij_control *drawer);

/* ---- Scanner: A scanner of bar codes. An exclusive-use device: claim it before you enable it. What it reads comes
   as a DataEvent. */

/**
 * clearInput (Common Properties, Methods and Events; Scanner (Bar Code Reader)): deletes the control's DataEvents
 * and ErrorEvents of input, and ends its error state of input.
 *
 * @retval KIJ_E_CLOSED The control is closed.
 * @retval KIJ_E_CLAIMED Another control has claimed the device.
 * @retval KIJ_E_NOTCLAIMED No control has claimed the device.
 */
kij_result kij_scanner_clear_input(kij_control *scanner);

/**
 * clearInputProperties (Common Properties, Methods and Events; Scanner (Bar Code Reader)): sets ScanData,
 * ScanDataLabel and ScanDataType to their defaults.
 *
 * @retval KIJ_E_CLOSED The control is closed.
 * @retval KIJ_E_CLAIMED Another control has claimed the device.
 * @retval KIJ_E_NOTCLAIMED No control has claimed the device.
 */
kij_result kij_scanner_clear_input_properties(kij_control *scanner);

/* ---- LineDisplay: A line display for the customer. An exclusive-use device: claim it before you enable it. Each
   control has a cursor of its own. */

/**
 * displayText (Line Display): shows a text from the cursor on.
 *
 * A line feed goes to the start of the next row, a carriage return to the start of its row. A text that runs past
 * the last row scrolls the display. If CursorUpdate is true, the cursor moves to the end of the text.
 *
 * @param text The text: bytes 0x20 to 0x7E, line feeds and carriage returns. Range: 0 to 4096 bytes. The size may
 *         be KIJ_ZERO_ENDED.
 * @param attribute How the characters are shown. KIJ_DISP_DT_NORMAL, KIJ_DISP_DT_BLINK, KIJ_DISP_DT_REVERSE,
 *         KIJ_DISP_DT_BLINK_REVERSE.
 * @retval KIJ_E_CLOSED The control is closed.
 * @retval KIJ_E_CLAIMED Another control has claimed the device.
 * @retval KIJ_E_NOTCLAIMED No control has claimed the device.
 * @retval KIJ_E_DISABLED The control is disabled.
 * @retval KIJ_E_ILLEGAL The text has more than 4,096 bytes, or one other than 0x20 to 0x7E, LF and CR, or the
 *         attribute is out of its range.
 * @retval KIJ_E_FAILURE The display didn't answer.
 * @retval KIJ_E_OFFLINE The display is off.
 * @retval KIJ_NO_MEMORY There was no memory.
 */
kij_result kij_display_text(kij_control *display, const void *text, size_t text_size, int64_t attribute);

/**
 * displayTextAt (Line Display): moves the cursor to a place, and shows a text from there on, as displayText does.
 *
 * The cursor moves to the place even if CursorUpdate is false.
 *
 * @param row The row in which it begins, counted from 0. Range: 0 to Rows - 1 rows.
 * @param column The column in which it begins, counted from 0; Columns is right of the last. Range: 0 to Columns
 *         columns.
 * @param text The text: bytes 0x20 to 0x7E, line feeds and carriage returns. Range: 0 to 4096 bytes. The size may
 *         be KIJ_ZERO_ENDED.
 * @param attribute How the characters are shown. KIJ_DISP_DT_NORMAL, KIJ_DISP_DT_BLINK, KIJ_DISP_DT_REVERSE,
 *         KIJ_DISP_DT_BLINK_REVERSE.
 * @retval KIJ_E_CLOSED The control is closed.
 * @retval KIJ_E_CLAIMED Another control has claimed the device.
 * @retval KIJ_E_NOTCLAIMED No control has claimed the device.
 * @retval KIJ_E_DISABLED The control is disabled.
 * @retval KIJ_E_ILLEGAL The row, column or attribute is out of its range, or displayText refuses a byte of the
 *         text.
 * @retval KIJ_E_FAILURE The display didn't answer.
 * @retval KIJ_E_OFFLINE The display is off.
 * @retval KIJ_NO_MEMORY There was no memory.
 */
kij_result kij_display_text_at(kij_control *display, int64_t row, int64_t column, const void *text, size_t text_size,
                               int64_t attribute);

/**
 * clearText (Line Display): blanks the display, and sets the cursor to row 0, column 0.
 *
 * @retval KIJ_E_CLOSED The control is closed.
 * @retval KIJ_E_CLAIMED Another control has claimed the device.
 * @retval KIJ_E_NOTCLAIMED No control has claimed the device.
 * @retval KIJ_E_DISABLED The control is disabled.
 * @retval KIJ_E_FAILURE The display didn't answer.
 * @retval KIJ_E_OFFLINE The display is off.
 * @retval KIJ_NO_MEMORY There was no memory.
 */
kij_result kij_display_clear_text(kij_control *display);

/**
 * scrollText (Line Display): scrolls what the display shows, and leaves blanks behind it; the cursor stays.
 *
 * @param direction Where the text moves. KIJ_DISP_ST_UP, KIJ_DISP_ST_DOWN, KIJ_DISP_ST_LEFT, KIJ_DISP_ST_RIGHT.
 * @param units How far it moves. Range: 0 to Rows up or down, 0 to Columns left or right.
 * @retval KIJ_E_CLOSED The control is closed.
 * @retval KIJ_E_CLAIMED Another control has claimed the device.
 * @retval KIJ_E_NOTCLAIMED No control has claimed the device.
 * @retval KIJ_E_DISABLED The control is disabled.
 * @retval KIJ_E_ILLEGAL The direction or the units are out of their range.
 * @retval KIJ_E_FAILURE The display didn't answer.
 * @retval KIJ_E_OFFLINE The display is off.
 * @retval KIJ_NO_MEMORY There was no memory.
 */
kij_result kij_display_scroll_text(kij_control *display, int64_t direction, int64_t units);

/* ---- POSPrinter: A receipt printer. An exclusive-use device: claim it before you enable it. */

/**
 * printNormal (POS Printer): prints data, with its escape sequences; if AsyncMode is true, it is queued and
 * printed later.
 *
 * The data counts as printed whole, or not at all; an attached printer may have printed its first lines. An
 * asynchronous request gets the next OutputID; an OutputCompleteEvent follows when it is printed.
 *
 * @param station The station; only the receipt is there. KIJ_PTR_S_RECEIPT.
 * @param data What is printed: bytes 0x20 to 0x7E, line feeds, carriage returns and escape sequences. Range: 0 to
 *         4096 bytes. The size may be KIJ_ZERO_ENDED.
 * @retval KIJ_E_CLOSED The control is closed.
 * @retval KIJ_E_CLAIMED Another control has claimed the device.
 * @retval KIJ_E_NOTCLAIMED No control has claimed the device.
 * @retval KIJ_E_DISABLED The control is disabled.
 * @retval KIJ_E_ILLEGAL The station isn't the receipt; or the data has more than 4,096 bytes, a byte that isn't
 *         ASCII text, LF, CR or ESC, or a number out of range.
 * @retval KIJ_E_BUSY AsyncMode is false, and earlier requests still wait.
 * @retval KIJ_E_FAILURE The printer didn't answer, or no OutputID is left.
 * @retval KIJ_E_OFFLINE The printer is off.
 * @retval KIJ_E_EXTENDED KIJ_EPTR_COVER_OPEN: the cover is open.
 * @retval KIJ_E_EXTENDED KIJ_EPTR_REC_EMPTY: there isn't enough paper.
 * @retval KIJ_NO_MEMORY There was no memory.
 */
kij_result kij_printer_print(kij_control *printer, int64_t station, const void *data, size_t data_size);

/**
 * printImmediate (POS Printer): prints data at once, before all requests that wait.
 *
 * The data counts as printed whole, or not at all; an attached printer may have printed its first lines.
 *
 * @param station The station; only the receipt is there. KIJ_PTR_S_RECEIPT.
 * @param data What is printed: bytes 0x20 to 0x7E, line feeds, carriage returns and escape sequences. Range: 0 to
 *         4096 bytes. The size may be KIJ_ZERO_ENDED.
 * @retval KIJ_E_CLOSED The control is closed.
 * @retval KIJ_E_CLAIMED Another control has claimed the device.
 * @retval KIJ_E_NOTCLAIMED No control has claimed the device.
 * @retval KIJ_E_DISABLED The control is disabled.
 * @retval KIJ_E_ILLEGAL The station isn't the receipt; or the data has more than 4,096 bytes, a byte that isn't
 *         ASCII text, LF, CR or ESC, or a number out of range.
 * @retval KIJ_E_FAILURE The printer didn't answer.
 * @retval KIJ_E_OFFLINE The printer is off.
 * @retval KIJ_E_EXTENDED KIJ_EPTR_COVER_OPEN: the cover is open.
 * @retval KIJ_E_EXTENDED KIJ_EPTR_REC_EMPTY: there isn't enough paper.
 * @retval KIJ_NO_MEMORY There was no memory.
 */
kij_result kij_printer_print_immediate(kij_control *printer, int64_t station, const void *data, size_t data_size);

/**
 * cutPaper (POS Printer): cuts the receipt's paper; if AsyncMode is true, the cut is queued and done later.
 *
 * A cut of 0 percent cuts nothing, but still needs a closed cover and paper.
 *
 * @param percentage How much of the paper is cut; KIJ_PTR_CP_FULLCUT is a full cut. Range: 0 to 100 percent.
 * @retval KIJ_E_CLOSED The control is closed.
 * @retval KIJ_E_CLAIMED Another control has claimed the device.
 * @retval KIJ_E_NOTCLAIMED No control has claimed the device.
 * @retval KIJ_E_DISABLED The control is disabled.
 * @retval KIJ_E_ILLEGAL The percentage is out of its range.
 * @retval KIJ_E_BUSY AsyncMode is false, and earlier requests still wait.
 * @retval KIJ_E_FAILURE The printer didn't answer, or no OutputID is left.
 * @retval KIJ_E_OFFLINE The printer is off.
 * @retval KIJ_E_EXTENDED KIJ_EPTR_COVER_OPEN: the cover is open.
 * @retval KIJ_E_EXTENDED KIJ_EPTR_REC_EMPTY: there is no paper.
 * @retval KIJ_NO_MEMORY There was no memory.
 */
kij_result kij_printer_cut_paper(kij_control *printer, int64_t percentage);

/**
 * clearOutput (Common Properties, Methods and Events; POS Printer): deletes the requests that wait and the
 * ErrorEvents of output, and ends the error state of output.
 *
 * OutputCompleteEvents stay.
 *
 * @retval KIJ_E_CLOSED The control is closed.
 * @retval KIJ_E_CLAIMED Another control has claimed the device.
 * @retval KIJ_E_NOTCLAIMED No control has claimed the device.
 */
kij_result kij_printer_clear_output(kij_control *printer);

/* ---- HardTotals: Hard Totals: small files that survive a loss of power. Several controls may share the totals.
   Enabling the first one recovers the files from the disk. A change is on the disk before its call returns. */

/**
 * create (Hard Totals): creates a file whose bytes are all 0, and returns its handle.
 *
 * Error detection changes nothing.
 *
 * @param name The new file's name: bytes 0x20 to 0x7F. Range: 1 to 10 bytes. The size may be KIJ_ZERO_ENDED.
 * @param size How many bytes the file has; that never changes. Range: 0 to FreeData bytes.
 * @param error_detection Whether errors in the file are to be detected.
 * @param handle The new file's handle. May be null.
 * @retval KIJ_E_CLOSED The control is closed.
 * @retval KIJ_E_CLAIMED Another control has claimed the device.
 * @retval KIJ_E_DISABLED The control is disabled.
 * @retval KIJ_E_FAILURE The totals are off.
 * @retval KIJ_E_ILLEGAL The control is in a transaction, the name is bad, or the size is below 0.
 * @retval KIJ_E_EXISTS A file has the name.
 * @retval KIJ_E_EXTENDED KIJ_ETOT_NOROOM: the size is above FreeData, or there are as many files as there may be.
 * @retval KIJ_E_FAILURE No handle is left, or the sequence of the totals has run out.
 * @retval KIJ_DISK_FAILED The disk failed, and the change may be in the file or not.
 * @retval KIJ_NO_MEMORY There was no memory.
 */
kij_result kij_totals_create(kij_control *totals, const void *name, size_t name_size, int64_t size,
                             bool error_detection, int64_t *handle);

/**
 * delete (Hard Totals): deletes a file; its handle is never used again.
 *
 * @param name The file's name. Range: 1 to 10 bytes. The size may be KIJ_ZERO_ENDED.
 * @retval KIJ_E_CLOSED The control is closed.
 * @retval KIJ_E_CLAIMED Another control has claimed the device.
 * @retval KIJ_E_DISABLED The control is disabled.
 * @retval KIJ_E_FAILURE The totals are off.
 * @retval KIJ_E_ILLEGAL The control is in a transaction.
 * @retval KIJ_E_NOEXIST No file has the name.
 * @retval KIJ_E_CLAIMED Another control has claimed the file.
 * @retval KIJ_E_FAILURE The sequence of the totals has run out.
 * @retval KIJ_DISK_FAILED The disk failed, and the change may be in the file or not.
 * @retval KIJ_NO_MEMORY There was no memory.
 */
kij_result kij_totals_delete(kij_control *totals, const void *name, size_t name_size);

/**
 * find (Hard Totals): finds a file by its name, and returns its handle and its size.
 *
 * @param name The file's name. Range: 1 to 10 bytes. The size may be KIJ_ZERO_ENDED.
 * @param handle The file's handle. May be null.
 * @param size How many bytes the file has. May be null.
 * @retval KIJ_E_CLOSED The control is closed.
 * @retval KIJ_E_CLAIMED Another control has claimed the device.
 * @retval KIJ_E_DISABLED The control is disabled.
 * @retval KIJ_E_FAILURE The totals are off.
 * @retval KIJ_E_NOEXIST No file has the name.
 */
kij_result kij_totals_find(kij_control *totals, const void *name, size_t name_size, int64_t *handle, int64_t *size);

/**
 * findByIndex (Hard Totals): returns the name of the file at an index, in the order of creation.
 *
 * @param index The file's index, counted from 0. Range: 0 to NumberOfFiles - 1 files.
 * @param name The file's name. Lent. May be null.
 * @retval KIJ_E_CLOSED The control is closed.
 * @retval KIJ_E_CLAIMED Another control has claimed the device.
 * @retval KIJ_E_DISABLED The control is disabled.
 * @retval KIJ_E_FAILURE The totals are off.
 * @retval KIJ_E_ILLEGAL No file is at the index.
 * @retval KIJ_NO_MEMORY There was no memory.
 */
kij_result kij_totals_find_by_index(kij_control *totals, int64_t index, const uint8_t **name, size_t *name_size);

/**
 * read (Hard Totals): reads bytes of a file as they are on the disk; what a transaction has buffered isn't among
 * them.
 *
 * @param handle The file's handle.
 * @param offset Where the bytes begin, counted from 0. Range: the bytes have to be within the file.
 * @param count How many bytes are read. Range: the bytes have to be within the file.
 * @param data The bytes. Lent. May be null.
 * @retval KIJ_E_CLOSED The control is closed.
 * @retval KIJ_E_CLAIMED Another control has claimed the device.
 * @retval KIJ_E_DISABLED The control is disabled.
 * @retval KIJ_E_FAILURE The totals are off.
 * @retval KIJ_E_ILLEGAL No file has the handle, or the bytes aren't all within the file.
 * @retval KIJ_E_CLAIMED Another control has claimed the file.
 * @retval KIJ_NO_MEMORY There was no memory.
 */
kij_result kij_totals_read(kij_control *totals, int64_t handle, int64_t offset, int64_t count, const uint8_t **data,
                           size_t *data_size);

/**
 * write (Hard Totals): writes bytes to a file; in a transaction they are buffered until it is committed.
 *
 * @param handle The file's handle.
 * @param offset Where the bytes begin, counted from 0. Range: the bytes have to be within the file.
 * @param data The bytes that are written. Range: the bytes have to be within the file. The size may be
 *         KIJ_ZERO_ENDED.
 * @retval KIJ_E_CLOSED The control is closed.
 * @retval KIJ_E_CLAIMED Another control has claimed the device.
 * @retval KIJ_E_DISABLED The control is disabled.
 * @retval KIJ_E_FAILURE The totals are off.
 * @retval KIJ_E_ILLEGAL No file has the handle, or the bytes aren't all within the file.
 * @retval KIJ_E_CLAIMED Another control has claimed the file.
 * @retval KIJ_E_EXTENDED KIJ_ETOT_NOROOM: the transaction has no room for the write.
 * @retval KIJ_E_FAILURE There is no transaction, and the sequence of the totals has run out.
 * @retval KIJ_DISK_FAILED The disk failed, and the change may be in the file or not.
 * @retval KIJ_NO_MEMORY There was no memory.
 */
kij_result kij_totals_write(kij_control *totals, int64_t handle, int64_t offset, const void *data, size_t data_size);

/**
 * setAll (Hard Totals): sets all bytes of a file to one value; in a transaction this is buffered until it is
 * committed.
 *
 * @param handle The file's handle.
 * @param value The value of each byte. Range: 0 to 255.
 * @retval KIJ_E_CLOSED The control is closed.
 * @retval KIJ_E_CLAIMED Another control has claimed the device.
 * @retval KIJ_E_DISABLED The control is disabled.
 * @retval KIJ_E_FAILURE The totals are off.
 * @retval KIJ_E_ILLEGAL No file has the handle, or the value isn't that of a byte.
 * @retval KIJ_E_CLAIMED Another control has claimed the file.
 * @retval KIJ_E_EXTENDED KIJ_ETOT_NOROOM: the transaction has no room for the change.
 * @retval KIJ_E_FAILURE There is no transaction, and the sequence of the totals has run out.
 * @retval KIJ_DISK_FAILED The disk failed, and the change may be in the file or not.
 * @retval KIJ_NO_MEMORY There was no memory.
 */
kij_result kij_totals_set_all(kij_control *totals, int64_t handle, int64_t value);

/**
 * rename (Hard Totals): gives a file another name.
 *
 * @param handle The file's handle.
 * @param name The file's new name: bytes 0x20 to 0x7F. Range: 1 to 10 bytes. The size may be KIJ_ZERO_ENDED.
 * @retval KIJ_E_CLOSED The control is closed.
 * @retval KIJ_E_CLAIMED Another control has claimed the device.
 * @retval KIJ_E_DISABLED The control is disabled.
 * @retval KIJ_E_FAILURE The totals are off.
 * @retval KIJ_E_ILLEGAL The control is in a transaction, no file has the handle, or the name is bad.
 * @retval KIJ_E_EXISTS A file has the name, be it this one.
 * @retval KIJ_E_CLAIMED Another control has claimed the file.
 * @retval KIJ_E_FAILURE The sequence of the totals has run out.
 * @retval KIJ_DISK_FAILED The disk failed, and the change may be in the file or not.
 * @retval KIJ_NO_MEMORY There was no memory.
 */
kij_result kij_totals_rename(kij_control *totals, int64_t handle, const void *name, size_t name_size);

/**
 * claimFile (Hard Totals): claims a file, which keeps other controls from reading and changing it.
 *
 * The call never waits: if another control has the file, it fails at once.
 *
 * @param handle The file's handle.
 * @param timeout How long the claim may take; KIJ_FOREVER is without end. Range: from -1 on milliseconds.
 * @retval KIJ_E_CLOSED The control is closed.
 * @retval KIJ_E_DISABLED The control is disabled.
 * @retval KIJ_E_FAILURE The totals are off.
 * @retval KIJ_E_ILLEGAL No file has the handle, or the timeout is below -1.
 * @retval KIJ_E_TIMEOUT Another control has claimed the file or the device.
 */
kij_result kij_totals_claim_file(kij_control *totals, int64_t handle, int64_t timeout);

/**
 * releaseFile (Hard Totals): releases a file that the control has claimed.
 *
 * @param handle The file's handle.
 * @retval KIJ_E_CLOSED The control is closed.
 * @retval KIJ_E_DISABLED The control is disabled.
 * @retval KIJ_E_FAILURE The totals are off.
 * @retval KIJ_E_ILLEGAL No file has the handle, or the control hasn't claimed it.
 */
kij_result kij_totals_release_file(kij_control *totals, int64_t handle);

/**
 * beginTrans (Hard Totals): begins a transaction: writes are buffered until it is committed or rolled back.
 *
 * @retval KIJ_E_CLOSED The control is closed.
 * @retval KIJ_E_DISABLED The control is disabled.
 * @retval KIJ_E_FAILURE The totals are off.
 * @retval KIJ_E_ILLEGAL The control is in a transaction already.
 */
kij_result kij_totals_begin_trans(kij_control *totals);

/**
 * commitTrans (Hard Totals): ends the transaction, and makes its changes all together; a loss of power leaves all
 * of them or none.
 *
 * @retval KIJ_E_CLOSED The control is closed.
 * @retval KIJ_E_CLAIMED Another control has claimed the device.
 * @retval KIJ_E_DISABLED The control is disabled.
 * @retval KIJ_E_FAILURE The totals are off.
 * @retval KIJ_E_ILLEGAL The control is in no transaction.
 * @retval KIJ_E_NOEXIST A file of the transaction was deleted.
 * @retval KIJ_E_CLAIMED Another control has claimed a file of the transaction.
 * @retval KIJ_E_FAILURE The sequence of the totals has run out; the transaction stays.
 * @retval KIJ_DISK_FAILED The disk failed, and the change may be in the file or not.
 * @retval KIJ_NO_MEMORY There was no memory.
 */
kij_result kij_totals_commit_trans(kij_control *totals);

/**
 * rollback (Hard Totals): ends the transaction, and drops its changes.
 *
 * @retval KIJ_E_CLOSED The control is closed.
 * @retval KIJ_E_DISABLED The control is disabled.
 * @retval KIJ_E_FAILURE The totals are off.
 * @retval KIJ_E_ILLEGAL The control is in no transaction.
 */
kij_result kij_totals_rollback(kij_control *totals);

#ifdef __cplusplus
}
#endif

#endif
