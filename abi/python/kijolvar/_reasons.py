"""What each code means, by the names of the methods and properties.

Written by abi/python/generate.py: don't change it by hand.
"""
from __future__ import annotations

REASONS: dict[str, dict[str, str]] = {
    "open": {
        "E_ILLEGAL": "The control is open already.",
        "E_NOEXIST": "No device of the control's category has the name.",
        "E_NOSERVICE": "No peripheral is attached to the device.",
    },
    "close": {
        "E_CLOSED": "The control is closed.",
    },
    "claim": {
        "E_CLOSED": "The control is closed.",
        "E_ILLEGAL": "The timeout is below -1.",
        "E_TIMEOUT": "Another control has claimed the device, or a file of the totals.",
    },
    "release": {
        "E_CLOSED": "The control is closed.",
        "E_ILLEGAL": "The control hasn't claimed the device.",
    },
    "state": {
    },
    "claimed": {
        "E_CLOSED": "The control is closed.",
    },
    "device_enabled": {
        "E_CLOSED": "The control is closed.",
        "E_CLAIMED": "Another control has claimed the device, which is an exclusive-use device.",
        "E_NOTCLAIMED": "The control hasn't claimed the device, which is an exclusive-use device.",
        "E_NOHARDWARE": "The disk of the totals isn't formatted.",
        "E_FAILURE": "The totals can't be recovered.",
    },
    "freeze_events": {
        "E_CLOSED": "The control is closed.",
    },
    "cap_power_reporting": {
        "E_CLOSED": "The control is closed.",
    },
    "power_notify": {
        "E_CLOSED": "The control is closed.",
        "E_ILLEGAL":
            "The value is out of its range, would change while the device is enabled, or is PN_ENABLED and the device "
            "doesn't report its power.",
    },
    "power_state": {
        "E_CLOSED": "The control is closed.",
    },
    "open_drawer": {
        "E_CLOSED": "The control is closed.",
        "E_CLAIMED": "Another control has claimed the device.",
        "E_DISABLED": "The control is disabled.",
        "E_FAILURE": "The drawer, or the printer that it is on, can't answer.",
        "E_OFFLINE": "The drawer is off.",
    },
    "cap_status": {
        "E_CLOSED": "The control is closed.",
    },
    "drawer_opened": {
        "E_CLOSED": "The control is closed.",
        "E_DISABLED": "The control is disabled.",
    },
    "clear_input": {
        "E_CLOSED": "The control is closed.",
        "E_CLAIMED": "Another control has claimed the device.",
        "E_NOTCLAIMED": "No control has claimed the device.",
    },
    "clear_input_properties": {
        "E_CLOSED": "The control is closed.",
        "E_CLAIMED": "Another control has claimed the device.",
        "E_NOTCLAIMED": "No control has claimed the device.",
    },
    "data_event_enabled": {
        "E_CLOSED": "The control is closed.",
    },
    "auto_disable": {
        "E_CLOSED": "The control is closed.",
    },
    "data_count": {
        "E_CLOSED": "The control is closed.",
    },
    "decode_data": {
        "E_CLOSED": "The control is closed.",
    },
    "scan_data": {
        "E_CLOSED": "The control is closed.",
    },
    "scan_data_label": {
        "E_CLOSED": "The control is closed.",
    },
    "scan_data_type": {
        "E_CLOSED": "The control is closed.",
    },
    "display_text": {
        "E_CLOSED": "The control is closed.",
        "E_CLAIMED": "Another control has claimed the device.",
        "E_NOTCLAIMED": "No control has claimed the device.",
        "E_DISABLED": "The control is disabled.",
        "E_ILLEGAL":
            "The text has more than 4,096 bytes, or one other than 0x20 to 0x7E, LF and CR, or the attribute is out "
            "of its range.",
        "E_FAILURE": "The display didn't answer.",
        "E_OFFLINE": "The display is off.",
    },
    "display_text_at": {
        "E_CLOSED": "The control is closed.",
        "E_CLAIMED": "Another control has claimed the device.",
        "E_NOTCLAIMED": "No control has claimed the device.",
        "E_DISABLED": "The control is disabled.",
        "E_ILLEGAL": "The row, column or attribute is out of its range, or displayText refuses a byte of the text.",
        "E_FAILURE": "The display didn't answer.",
        "E_OFFLINE": "The display is off.",
    },
    "clear_text": {
        "E_CLOSED": "The control is closed.",
        "E_CLAIMED": "Another control has claimed the device.",
        "E_NOTCLAIMED": "No control has claimed the device.",
        "E_DISABLED": "The control is disabled.",
        "E_FAILURE": "The display didn't answer.",
        "E_OFFLINE": "The display is off.",
    },
    "scroll_text": {
        "E_CLOSED": "The control is closed.",
        "E_CLAIMED": "Another control has claimed the device.",
        "E_NOTCLAIMED": "No control has claimed the device.",
        "E_DISABLED": "The control is disabled.",
        "E_ILLEGAL": "The direction or the units are out of their range.",
        "E_FAILURE": "The display didn't answer.",
        "E_OFFLINE": "The display is off.",
    },
    "rows": {
        "E_CLOSED": "The control is closed.",
    },
    "columns": {
        "E_CLOSED": "The control is closed.",
    },
    "cursor_row": {
        "E_CLOSED": "The control is closed.",
        "E_ILLEGAL": "The value is out of its range.",
    },
    "cursor_column": {
        "E_CLOSED": "The control is closed.",
        "E_ILLEGAL": "The value is out of its range.",
    },
    "cursor_update": {
        "E_CLOSED": "The control is closed.",
    },
    "print_normal": {
        "E_CLOSED": "The control is closed.",
        "E_CLAIMED": "Another control has claimed the device.",
        "E_NOTCLAIMED": "No control has claimed the device.",
        "E_DISABLED": "The control is disabled.",
        "E_ILLEGAL":
            "The station isn't the receipt; or the data has more than 4,096 bytes, a byte that isn't ASCII text, LF, "
            "CR or ESC, or a number out of range.",
        "E_BUSY": "AsyncMode is false, and earlier requests still wait.",
        "E_FAILURE": "The printer didn't answer, or no OutputID is left.",
        "E_OFFLINE": "The printer is off.",
        "EPTR_COVER_OPEN": "The cover is open.",
        "EPTR_REC_EMPTY": "There isn't enough paper.",
    },
    "print_immediate": {
        "E_CLOSED": "The control is closed.",
        "E_CLAIMED": "Another control has claimed the device.",
        "E_NOTCLAIMED": "No control has claimed the device.",
        "E_DISABLED": "The control is disabled.",
        "E_ILLEGAL":
            "The station isn't the receipt; or the data has more than 4,096 bytes, a byte that isn't ASCII text, LF, "
            "CR or ESC, or a number out of range.",
        "E_FAILURE": "The printer didn't answer.",
        "E_OFFLINE": "The printer is off.",
        "EPTR_COVER_OPEN": "The cover is open.",
        "EPTR_REC_EMPTY": "There isn't enough paper.",
    },
    "cut_paper": {
        "E_CLOSED": "The control is closed.",
        "E_CLAIMED": "Another control has claimed the device.",
        "E_NOTCLAIMED": "No control has claimed the device.",
        "E_DISABLED": "The control is disabled.",
        "E_ILLEGAL": "The percentage is out of its range.",
        "E_BUSY": "AsyncMode is false, and earlier requests still wait.",
        "E_FAILURE": "The printer didn't answer, or no OutputID is left.",
        "E_OFFLINE": "The printer is off.",
        "EPTR_COVER_OPEN": "The cover is open.",
        "EPTR_REC_EMPTY": "There is no paper.",
    },
    "clear_output": {
        "E_CLOSED": "The control is closed.",
        "E_CLAIMED": "Another control has claimed the device.",
        "E_NOTCLAIMED": "No control has claimed the device.",
    },
    "async_mode": {
        "E_CLOSED": "The control is closed.",
    },
    "output_id": {
        "E_CLOSED": "The control is closed.",
    },
    "rec_line_chars": {
        "E_CLOSED": "The control is closed.",
        "E_CLAIMED": "Another control has claimed the device.",
        "E_NOTCLAIMED": "No control has claimed the device.",
        "E_DISABLED": "The control is disabled.",
    },
    "cover_open": {
        "E_CLOSED": "The control is closed.",
        "E_CLAIMED": "Another control has claimed the device.",
        "E_NOTCLAIMED": "No control has claimed the device.",
        "E_DISABLED": "The control is disabled.",
    },
    "rec_empty": {
        "E_CLOSED": "The control is closed.",
        "E_CLAIMED": "Another control has claimed the device.",
        "E_NOTCLAIMED": "No control has claimed the device.",
        "E_DISABLED": "The control is disabled.",
    },
    "rec_near_end": {
        "E_CLOSED": "The control is closed.",
        "E_CLAIMED": "Another control has claimed the device.",
        "E_NOTCLAIMED": "No control has claimed the device.",
        "E_DISABLED": "The control is disabled.",
    },
    "create": {
        "E_CLOSED": "The control is closed.",
        "E_CLAIMED": "Another control has claimed the device.",
        "E_DISABLED": "The control is disabled.",
        "E_FAILURE": "The totals are off. Or: No handle is left, or the sequence of the totals has run out.",
        "E_ILLEGAL": "The control is in a transaction, the name is bad, or the size is below 0.",
        "E_EXISTS": "A file has the name.",
        "ETOT_NOROOM": "The size is above FreeData, or there are as many files as there may be.",
    },
    "delete": {
        "E_CLOSED": "The control is closed.",
        "E_CLAIMED": "Another control has claimed the device. Or: Another control has claimed the file.",
        "E_DISABLED": "The control is disabled.",
        "E_FAILURE": "The totals are off. Or: The sequence of the totals has run out.",
        "E_ILLEGAL": "The control is in a transaction.",
        "E_NOEXIST": "No file has the name.",
    },
    "find": {
        "E_CLOSED": "The control is closed.",
        "E_CLAIMED": "Another control has claimed the device.",
        "E_DISABLED": "The control is disabled.",
        "E_FAILURE": "The totals are off.",
        "E_NOEXIST": "No file has the name.",
    },
    "find_by_index": {
        "E_CLOSED": "The control is closed.",
        "E_CLAIMED": "Another control has claimed the device.",
        "E_DISABLED": "The control is disabled.",
        "E_FAILURE": "The totals are off.",
        "E_ILLEGAL": "No file is at the index.",
    },
    "read": {
        "E_CLOSED": "The control is closed.",
        "E_CLAIMED": "Another control has claimed the device. Or: Another control has claimed the file.",
        "E_DISABLED": "The control is disabled.",
        "E_FAILURE": "The totals are off.",
        "E_ILLEGAL": "No file has the handle, or the bytes aren't all within the file.",
    },
    "write": {
        "E_CLOSED": "The control is closed.",
        "E_CLAIMED": "Another control has claimed the device. Or: Another control has claimed the file.",
        "E_DISABLED": "The control is disabled.",
        "E_FAILURE": "The totals are off. Or: There is no transaction, and the sequence of the totals has run out.",
        "E_ILLEGAL": "No file has the handle, or the bytes aren't all within the file.",
        "ETOT_NOROOM": "The transaction has no room for the write.",
    },
    "set_all": {
        "E_CLOSED": "The control is closed.",
        "E_CLAIMED": "Another control has claimed the device. Or: Another control has claimed the file.",
        "E_DISABLED": "The control is disabled.",
        "E_FAILURE": "The totals are off. Or: There is no transaction, and the sequence of the totals has run out.",
        "E_ILLEGAL": "No file has the handle, or the value isn't that of a byte.",
        "ETOT_NOROOM": "The transaction has no room for the change.",
    },
    "rename": {
        "E_CLOSED": "The control is closed.",
        "E_CLAIMED": "Another control has claimed the device. Or: Another control has claimed the file.",
        "E_DISABLED": "The control is disabled.",
        "E_FAILURE": "The totals are off. Or: The sequence of the totals has run out.",
        "E_ILLEGAL": "The control is in a transaction, no file has the handle, or the name is bad.",
        "E_EXISTS": "A file has the name, be it this one.",
    },
    "claim_file": {
        "E_CLOSED": "The control is closed.",
        "E_DISABLED": "The control is disabled.",
        "E_FAILURE": "The totals are off.",
        "E_ILLEGAL": "No file has the handle, or the timeout is below -1.",
        "E_TIMEOUT": "Another control has claimed the file or the device.",
    },
    "release_file": {
        "E_CLOSED": "The control is closed.",
        "E_DISABLED": "The control is disabled.",
        "E_FAILURE": "The totals are off.",
        "E_ILLEGAL": "No file has the handle, or the control hasn't claimed it.",
    },
    "begin_trans": {
        "E_CLOSED": "The control is closed.",
        "E_DISABLED": "The control is disabled.",
        "E_FAILURE": "The totals are off.",
        "E_ILLEGAL": "The control is in a transaction already.",
    },
    "commit_trans": {
        "E_CLOSED": "The control is closed.",
        "E_CLAIMED":
            "Another control has claimed the device. Or: Another control has claimed a file of the transaction.",
        "E_DISABLED": "The control is disabled.",
        "E_FAILURE": "The totals are off. Or: The sequence of the totals has run out; the transaction stays.",
        "E_ILLEGAL": "The control is in no transaction.",
        "E_NOEXIST": "A file of the transaction was deleted.",
    },
    "rollback": {
        "E_CLOSED": "The control is closed.",
        "E_DISABLED": "The control is disabled.",
        "E_FAILURE": "The totals are off.",
        "E_ILLEGAL": "The control is in no transaction.",
    },
    "totals_size": {
        "E_CLOSED": "The control is closed.",
    },
    "free_data": {
        "E_CLOSED": "The control is closed.",
        "E_DISABLED": "The control is disabled.",
        "E_FAILURE": "The totals are off.",
    },
    "number_of_files": {
        "E_CLOSED": "The control is closed.",
        "E_DISABLED": "The control is disabled.",
        "E_FAILURE": "The totals are off.",
    },
    "transaction_in_progress": {
        "E_CLOSED": "The control is closed.",
    },
    "cap_transactions": {
        "E_CLOSED": "The control is closed.",
    },
    "cap_single_file": {
        "E_CLOSED": "The control is closed.",
    },
    "cap_error_detection": {
        "E_CLOSED": "The control is closed.",
    },
}
