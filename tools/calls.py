#!/usr/bin/env python3
"""Writes docs/reference/calls.md: every call, property, event and code, from abi/description.json.

abi/describe.py makes that description from the definitions and from abi/documentation.toml.

Usage: tools/calls.py, or with --check to compare only. Its last line is 'N passed, M failed', a part of the page each.
"""
import json
import os
import sys
import textwrap

sys.dont_write_bytecode = True
import sources

PAGE = "docs/reference/calls.md"
DESCRIPTION = "abi/description.json"
HEAD = """# Every call, property, event and code

Every method, property, event and code of the standard that is there, with arguments and refusals. `tools/calls.py`
writes this page from [abi/description.json](../../abi/description.json). [model.md](model.md) says what the calls do
together.

- **Claim**: the call needs the control's own claim, or that no other control has one.
- **Enabled**: the call needs an enabled device.
- **Refusals** are in the order in which they are checked. E_CLOSED, E_ILLEGAL for a control of another category,
  E_CLAIMED, E_NOTCLAIMED and E_DISABLED come before them, as claim and enabled say. A failed disk shows last.
- **Memory**: the call may be answered that there was none, and then changes nothing.
- **Set**: the property is writable, in this range. A value of another type is E_ILLEGAL.
- **Meaning**: what reading the property answers, if it isn't refused.
"""
NO_REPLY = "Keeps the output, which the next work tries again; at EL_INPUT_DATA it continues, and at EL_INPUT it clears"
CLAIMS = {"any": "", "own": "own", "no_other": "no other's"}
COMMON = {"E_CLOSED", "E_CLAIMED", "E_NOTCLAIMED", "E_DISABLED"}


def cell(text):
    return " ".join(text.split()).rstrip(".").replace("|", "\\|")


def low(text):
    """A text as it continues a sentence."""
    return text if text[1:2].isupper() or text.split(" ")[0] in NAMES else text[:1].lower() + text[1:]


def number(value):
    return f"{value:,}" if isinstance(value, int) else value


def range_of(thing):
    if thing.get("range"):
        return thing["range"]
    least, most = thing.get("least"), thing.get("most")
    if least is None:
        return ""
    if most is None:
        return f"{number(least)} or more"
    return number(least) if least == most else f"{number(least)} to {number(most)}"


def argument(thing):
    said = [thing["type"].replace("truth", "truth value").replace("device", "name")]
    if range_of(thing):
        said.append(range_of(thing))
    return f"{thing['name']}: {', '.join(said)}"


def followed(errors, is_common):
    """The refusals behind the common ones, which come first and once."""
    seen, found = set(), []
    for error in errors:
        if is_common and error["code"] in COMMON and error["code"] not in seen:
            seen.add(error["code"])
            continue
        found.append(f"{error['code']} ({low(cell(error['when']))})")
    return "; ".join(found)


def of_call(call):
    does = " ".join(filter(None, [call["summary"], call["detail"]]))
    names = ", ".join(value["name"] for value in call["returns"]["values"])
    is_common = call["line"] == "call"
    return [f"`{call['word']}`", cell("; ".join(map(argument, call["arguments"]))), cell(does), names,
            CLAIMS[call["claim"]], "yes" if call["enabled"] else "", followed(call["errors"], is_common),
            "yes" if call["takes_memory"] else ""]


def of_property(it):
    kind = it["type"].replace("truth", "truth value")
    values = "" if it["values"] is None else f", {it['values']}"
    is_set = f"set: {range_of(it)}".rstrip(": ") if it["writable"] else ""
    more = [f"{error['code']} ({low(cell(error['when']))})" for error in it["errors"] if error["code"] not in COMMON]
    sets = [f"{error['code']} ({low(cell(error['when']))})"
            for error in it["set_errors"] if error["code"] != "E_CLOSED"]
    return [it["name"], kind + values, is_set, cell(" ".join(filter(None, [it["summary"], it["detail"]]))),
            CLAIMS[it["claim"]], "yes" if it["enabled"] else "", "; ".join(more + sets)]


def table(head, rows):
    lines = ["| " + " | ".join(head) + " |", "|" + "---|" * len(head)]
    return "\n".join(lines + ["| " + " | ".join(row) + " |" for row in rows]) + "\n"


CALL = ["Call", "Arguments", "Does", "Returns", "Claim", "Enabled", "Refusals", "Memory"]
PROPERTY = ["Property", "Value", "Set", "Meaning", "Claim", "Enabled", "Refusals"]


def parts(known):
    """The text of each part of the page, by its heading."""
    found = {}
    for name, group in [("Every category", known["common"]), *((it["name"], it) for it in known["categories"])]:
        about = f"{group.get('summary', '')} {group.get('detail', '')}".strip()
        said = [textwrap.fill(about, 120, break_on_hyphens=False) + "\n"] if about else []
        said += [table(CALL, map(of_call, group["methods"])), table(PROPERTY, map(of_property, group["properties"]))]
        found[name] = "\n".join(said)
    found["Events"] = table(["Event", "Carries", "Of", "Says"], [
        [it["name"], ", ".join(field["name"] for field in it["fields"]), ", ".join(it["categories"]),
         cell(f"{it['summary']} {it['detail']}")] for it in known["events"]])
    found["Replies to an ErrorEvent"] = table(["Reply", "Word", "Does"], [
        ["none", "", NO_REPLY], *([it["name"], f"`{it['word']}`", cell(it["summary"])] for it in known["replies"])])
    found["Result codes"] = table(["Code", "Name", "Meaning"], [
        [str(it["number"]), it["name"], cell(it["summary"])] for it in known["result_codes"]]
        + [[f"114 {it['number']}", f"E_EXTENDED, {it['name']}", cell(it["summary"])] for it in known["extended_codes"]])
    found["Other numbers"] = table(["Of", "Number", "Name", "Meaning"], [
        [group["name"], str(it["number"]), it["name"], cell(it["summary"])]
        for group in known["constants"] for it in group["members"]])
    return found


def names_in(known):
    groups = [known["common"], *known["categories"]]
    return {it["name"] for group in groups for it in [*group["methods"], *group["properties"]]} | {
        it["name"] for it in [*known["events"], *known["categories"]]}


def page_of(known):
    NAMES.update(names_in(known))
    return {heading: f"## {heading}\n\n{text}" for heading, text in parts(known).items()}


NAMES = set()


def faults(page):
    """How many parts there are, and what of the page isn't what the description has."""
    found = page_of(json.loads(sources.read(DESCRIPTION)))
    wrong = [f"{PAGE}: {heading} isn't what {DESCRIPTION} has: run tools/calls.py"
             for heading, text in found.items() if text not in page]
    if not wrong and page != "\n".join([HEAD, *found.values()]):
        wrong.append(f"{PAGE}: it has what the description hasn't: run tools/calls.py")
    return len(found), wrong


def main():
    if "--check" not in sys.argv:
        with open(os.path.join(sources.TOP, PAGE), "w", encoding="utf-8") as file:
            file.write("\n".join([HEAD, *page_of(json.loads(sources.read(DESCRIPTION))).values()]))
        print(f"{PAGE} was written")
    looked, wrong = faults(sources.read(PAGE))
    print("".join(fault + "\n" for fault in wrong) + f"{looked - len(wrong)} passed, {len(wrong)} failed")
    return 1 if wrong else 0


if __name__ == "__main__":
    sys.exit(main())
