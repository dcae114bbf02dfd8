"""The errors of a call over the library, for the scripts that write the typed layers.

In pos_console a disk that failed is E_FAILURE, as abi/description.json says. Over the library it has a code of its own.
"""
# When the description says that a call fails because of the disk.
_DISK = "The disk failed."
# What the description says of E_FAILURE.
_FAILURE = "The device or the disk failed."
# When the code of a failed disk comes.
DISK_FAILED = "The disk failed, and the change may be in the file or not."


def without_disk(errors):
    """The errors of a call, without the failed disk. They are others than those of the description if it can fail."""
    return [error for error in errors if error["when"] != _DISK]


def reasons_of(errors):
    """What each code of a call means, by its name: the first of several reasons is first."""
    whens = {}
    for error in without_disk(errors):
        if error["when"] not in whens.setdefault(error["code"], []):
            whens[error["code"]].append(error["when"])
    return {code: " Or: ".join(when) for code, when in whens.items()}


def reasons(description):
    """Why each call is refused: the word of the category that has it, or none; the verb of its line; the name of the
    method or property; the code's name; and the reason. What the code means of any call is left out."""
    meant = {code["name"]: code["summary"] for code in description["result_codes"] + description["extended_codes"]}
    for part in [description["common"] | {"word": None}, *description["categories"]]:
        calls = [(about["line"], about, about["errors"]) for about in part["methods"]]
        calls += [("get", about, about["errors"]) for about in part["properties"]]
        calls += [("set", about, about["set_errors"]) for about in part["properties"] if about["writable"]]
        for verb, about, errors in calls:
            for code, reason in reasons_of(errors).items():
                if reason != meant[code]:
                    yield part["word"], verb, about["name"], code, reason


def summary_of(text, disk_fault):
    """What an error means, where a failed disk is `disk_fault`."""
    return text.replace(_FAILURE, f"The device failed, or the totals are off. A failed disk is {disk_fault}.")
