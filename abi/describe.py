#!/usr/bin/env python3
"""Writes abi/description.json: the methods, properties, events, codes and constants, with what they mean.

The words, types, ranges and numbers are read from the definitions under crates/. The meaning is read from
abi/documentation.toml, and so are the numbers of the types of bar codes, which no definition names. The script fails if
something has no entry there, or if an entry there names nothing.

Usage: abi/describe.py, or abi/describe.py --check, which compares the file with what would be written.
"""
import json
import pathlib
import re
import sys
import tomllib

import declare

TOP = declare.TOP
COUNTER = TOP / "crates/pos_counter/specs"
SERVICE = TOP / "crates/pos_service/specs"
DISPLAY = TOP / "crates/pos_display/specs"
PRINTER = TOP / "crates/pos_printer/specs"
SCRIPT = TOP / "crates/pos_script/specs"
TOTALS = TOP / "crates/pos_totals/specs"
DESCRIPTION = TOP / "abi/description.json"
DOCUMENTATION = TOP / "abi/documentation.toml"

SHAPES = {"number_shape": "number", "device_shape": "device"}
VALUES = {"Truth": "truth", "Number": "number", "Bytes": "bytes", "Pair": "pair"}
CLAIMS = {"Any": "any", "NoOther": "no_other", "Own": "own"}
BOOLEANS = {"true": True, "false": False}


class Fault(Exception):
    """The documentation doesn't fit the definitions, or a definition has another form than this script reads."""


def equations(path, name):
    """The text of a definition, its comments left out, and its lines joined by single spaces."""
    return re.sub(r"\s+", " ", declare.definition(path, name))


def one(form, text):
    """The only match of a form in a text."""
    found = re.findall(form, text)
    if len(found) != 1:
        raise Fault(f"{len(found)} matches of {form} in: {text[:200]}")
    return found[0]


def snake(name):
    """A name of the standard in small letters with underscores: OutputID is output_id."""
    return re.sub(r"(?<=[a-z])(?=[A-Z])|(?<=[A-Z])(?=[A-Z][a-z])", "_", name).lower()


# ---- methods

def rows(path, owner):
    """The rows of a table `row_of`: for each variant the names of its fields, and the text of its row."""
    text = equations(path, "row_of")
    form = rf"row_of \(?{owner}\.(\w+)((?: \w+)*)\)? = (.*?)(?= row_of |$)"
    return {name: (fields.split(), row) for name, fields, row in re.findall(form, text)}


def call_row(variant, row):
    """What a row of the calls says: the category, the claim, whether the device must be enabled, and memory. Whether a
    call that each category has takes memory says the machine."""
    if row == "common_row":
        takes = one(rf"takes_memory machine control \(?call\.{variant}(?: \w+)?\)? = (true|false)",
                    equations(COUNTER / "Steps.antt", "takes_memory"))
        return {"category": None, "claim": "any", "enabled": False, "takes_memory": BOOLEANS[takes]}
    form = r"^own_row category\.(\w+) claim_need\.(\w+) (true|false) (true|false)$"
    category, claim, enabled, memory = one(form, row)
    return {"category": category, "claim": CLAIMS[claim], "enabled": BOOLEANS[enabled],
            "takes_memory": BOOLEANS[memory]}


def own_methods():
    """The methods of `call` lines: the word, the types of the arguments, and the variant of the call."""
    text = equations(SERVICE / "Calls.antt", "methods")
    found = re.findall(r'\(codes "(\w+)", Of\w+((?: (?:Number|Truth|Bytes))*) call\.(\w+)\)', text)
    if len(found) != text.count('codes "'):
        raise Fault("a row of the methods has another form")
    return [(word, "call", [VALUES[kind] for kind in kinds.split()], variant) for word, kinds, variant in found]


def common_methods():
    """The methods that have lines of their own: open, claim, release and close."""
    verbs = re.findall(r'codes "(\w+)", verb\.Call call_verb\.(\w+)', equations(SCRIPT / "Commands.antt", "verbs"))
    words = {variant: word for word, variant in verbs}
    form = r"called call_verb\.(\w+) words = from_\w+((?: \w+_shape)*) \(?(?:λ \w+\. )?call\.(\w+)"
    for variant, shapes, call in re.findall(form, equations(SCRIPT / "Commands.antt", "called")):
        if call not in ("Set", "Get"):
            yield words[variant], words[variant], [SHAPES[shape] for shape in shapes.split()], call


def returned():
    """What the calls that return something return, by their variants."""
    questions = equations(TOTALS / "TotalsQuestions.antt", "told_of")
    told = dict(re.findall(r"told_of files \((\w+)[^)]*\) = told .*?value\.(\w+)", questions))
    changes = equations(TOTALS / "Numbering.antt", "value_after")
    told |= dict(re.findall(r"value_after next \(file\.(\w+)[^)]*\) = value\.(Number)", changes))
    return {call: VALUES[value] for call, value in told.items()}


def most(path, name, form):
    return int(one(form, equations(path, name)))


def ranges(numbers):
    """The ranges that the tables of refusals ask of arguments, by the method's word and the argument: the least and the
    most, as a number or as a number and a property; of bytes their least and most count."""
    display = equations(DISPLAY / "DisplayCalls.antt", "display_rows")
    one(r"is_index \(rows_of at\) row", display)
    one(r"is_up_to \(columns_of at\) column", display)
    forever = -1 - most(SERVICE / "Claims.antt", "is_timeout", r"nat_eq n (\d+)")
    text = (0, most(SERVICE / "Displays.antt", "is_display_text", r"length bytes\) (\d+)"))
    data = (0, most(SERVICE / "Receipts.antt", "is_printable_text", r"length bytes\) (\d+)"))
    name = tuple(int(one(form, equations(TOTALS / "TotalsFiles.antt", "is_name")))
                 for form in (r"nat_le (\d+) \(length name\)", r"\(length name\) (\d+)"))
    percentage = (0, most(PRINTER / "PrinterCalls.antt", "printer_rows", r"is_up_to (\d+) percentage"))
    device = tuple(int(one(form, equations(SERVICE / "Names.antt", "is_device_name")))
                   for form in (r"nat_le (\d+) \(length text\)", r"\(length text\) (\d+)"))
    attributes = [number for word, number in numbers.items() if word.startswith("DISP_DT_")]
    directions = [number for word, number in numbers.items() if word.startswith("DISP_ST_")]
    station = (numbers["PTR_S_RECEIPT"],) * 2
    byte = equations(TOTALS / "Edits.antt", "fits")
    found = {
        ("open", "name"): device, ("claim", "timeout"): (forever, None), ("claimFile", "timeout"): (forever, None),
        ("displayTextAt", "row"): (0, "Rows - 1"), ("displayTextAt", "column"): (0, "Columns"),
        ("scrollText", "direction"): (min(directions), max(directions)), ("scrollText", "units"): (0, None),
        ("cutPaper", "percentage"): percentage, ("create", "size"): (0, "FreeData"),
        ("findByIndex", "index"): (0, "NumberOfFiles - 1"),
        ("setAll", "n"): (0, int(one(r"is_up_to (\d+) n", byte))),
        ("read", "offset"): (0, None), ("read", "count"): (0, None), ("write", "offset"): (0, None),
        ("write", "bytes"): (0, None),
    }
    found |= {(word, "text"): text for word in ("displayText", "displayTextAt")}
    found |= {(word, "attribute"): (min(attributes), max(attributes)) for word in ("displayText", "displayTextAt")}
    found |= {(word, "text"): data for word in ("printNormal", "printImmediate")}
    found |= {(word, "station"): station for word in ("printNormal", "printImmediate")}
    found |= {(word, "name"): name for word in ("create", "delete", "find", "rename")}
    return found


# ---- properties

def properties():
    """The properties: the name, the variant, what its row says, and its type."""
    named = re.findall(r'codes "(\w+)", property\.(\w+)', equations(SERVICE / "Properties.antt", "property_names"))
    values = equations(SERVICE / "Properties.antt", "property_of")
    types = dict(re.findall(r"property\.(\w+) = (value\.\w+|told_of_files)", values))
    table = rows(SERVICE / "Properties.antt", "property")
    if {variant for _, variant in named} != set(types) or set(types) != set(table):
        raise Fault("the tables of the properties differ")
    for name, variant in named:
        kind = "number" if types[variant] == "told_of_files" else VALUES[types[variant].split(".")[1]]
        yield name, variant, property_row(table[variant][1]), kind


def property_row(row):
    """What a row of the properties says, by the definitions that it uses."""
    found = {"category": None, "claim": "any", "enabled": False, "writable": False, "open": True, "of_files": False}
    settable = equations(SERVICE / "Properties.antt", "settable")
    one(r"is_settable = true", settable)
    if "is_open = false" in row:
        found["open"] = False
    if row.startswith("of_files"):
        files = equations(SERVICE / "Properties.antt", "of_files")
        row = one(r"record \((of_device.*?)\) \{ is_of_files = true", files)
        found["of_files"] = True
    if row.startswith("of_bytes"):
        row = one(r"record \((plain.*?)\) \{ is_of_bytes", equations(SERVICE / "Properties.antt", "of_bytes"))
    if row.startswith("settable"):
        found["writable"] = True
    if row.startswith("of_device"):
        found["enabled"] = True
        found["claim"] = CLAIMS[one(r"claim_need\.(\w+)", row)]
    category = re.search(r"category\.(\w+)", row)
    found["category"] = category and category[1]
    return found


def property_ranges():
    """The ranges of the properties that are set to numbers."""
    text = equations(SERVICE / "Properties.antt", "takes")
    found = {}
    for variant, form in re.findall(r"property\.(\w+) \(value\.Number n\) = (.*?) n(?= takes|$)", text):
        number = re.fullmatch(r"is_up_to (\d+)", form)
        size = {"is_index (rows_of at)": "Rows - 1", "is_up_to (columns_of at)": "Columns"}
        found[variant] = (0, int(number[1]) if number else size[form])
    return found


# ---- codes, events, categories

def constant_numbers():
    """All numbers by their names."""
    found = {}
    for _, named in declare.groups():
        found |= named
    found["PTR_CP_FULLCUT"] = most(SERVICE / "Receipts.antt", "numbered_pieces",
                                   r'letters \(codes "P"\) then cut_pieces \(number_or (\d+) digits\)')
    found["UPOS_FOREVER"] = -1 - most(SERVICE / "Claims.antt", "is_timeout", r"nat_eq n (\d+)")
    return found


def events():
    """The events: their names, and the fields that stand behind each in its text."""
    text = equations(SCRIPT / "Text.antt", "event_text")
    for fields, part in re.findall(r"event_text \(?event\.\w+((?: \w+)*)\)? = (.*?)(?= event_text|$)", text):
        yield one(r'codes "event (\w+)', part), fields.split()


def replies():
    """The replies to an ErrorEvent: the standard's name, and its word."""
    source = (TOP / "crates/pos_service/src/event.rt").read_text()
    names = {variant: name for name, variant in re.findall(r"/// (ER_\w+):[^\n]*\n\s+(\w+),", source)}
    words = re.findall(r'codes "(\w+)"\) then Some reply\.(\w+)', equations(SCRIPT / "Words.antt", "error_reply_named"))
    return {names[variant]: word for word, variant in words}


def categories():
    """The categories: their variants and words, whether they are exclusive, and whether they report power."""
    named = equations(SERVICE / "Categories.antt", "name_of")
    exclusive = equations(SERVICE / "Categories.antt", "is_exclusive")
    power = equations(SERVICE / "Categories.antt", "reports_power")
    for variant, word in re.findall(r'name_of category\.(\w+) = codes "(\w+)"', named):
        yield {"name": word, "variant": variant, "word": word,
               "exclusive": BOOLEANS[one(rf"category\.{variant} = (\w+)", exclusive)],
               "reports_power": BOOLEANS[one(rf"category\.{variant} = (\w+)", power)]}


# ---- the documentation

class Entries:
    """The documentation, by kind and name. It knows which entries were asked for."""

    def __init__(self, found):
        self.found, self.asked = found, set()

    def get(self, kind, name, **needed):
        """An entry, which has to have these keys, and may have the others."""
        entry = self.found.get(kind, {}).get(name)
        if entry is None:
            raise Fault(f"{kind}.{name} has no entry in documentation.toml")
        self.asked.add((kind, name))
        for key, kind_of in needed.items():
            if not isinstance(entry.get(key), kind_of) or not entry[key]:
                raise Fault(f"{kind}.{name} has no {key} in documentation.toml")
        if not entry["summary"].endswith(".") or "\n" in entry["summary"]:
            raise Fault(f"{kind}.{name}: the summary has to be one sentence")
        return entry

    def left(self):
        named = [(kind, name) for kind, entries in self.found.items() for name in entries]
        return [f"{kind}.{name}" for kind, name in named if (kind, name) not in self.asked]


def subset(entry, allowed, where):
    unknown = set(entry) - set(allowed)
    if unknown:
        raise Fault(f"{where}: unknown keys in documentation.toml: {', '.join(sorted(unknown))}")


def needs_errors(row, what="device"):
    """The errors that a row's needs stand for, in the order in which they are looked for."""
    found = [("E_CLOSED", "The control is closed.")] if row.get("open", True) else []
    if row["claim"] != "any":
        found.append(("E_CLAIMED", f"Another control has claimed the {what}."))
    if row["claim"] == "own":
        found.append(("E_NOTCLAIMED", f"No control has claimed the {what}."))
    if row["enabled"]:
        found.append(("E_DISABLED", "The control is disabled."))
    return found


def errors_of(listed, own, codes, where):
    """The errors of the needs, and those that the documentation adds."""
    for name, when in own:
        if name not in codes:
            raise Fault(f"{where}: {name} is no code")
        if not when.endswith("."):
            raise Fault(f"{where}: {name} has no sentence")
    return [{"code": name, "when": when} for name, when in [*listed, *own]]


def describe_argument(word, name, kind, entries, range_of):
    documented = entries.get(name)
    if documented is None:
        raise Fault(f"methods.{word}: the argument {name} has no entry")
    subset(documented, ("name", "summary", "unit", "constants", "range"), f"methods.{word}.{name}")
    least, most_of = range_of.get((word, name), (None, None))
    return {"name": documented.get("name", name), "type": kind, "least": least, "most": most_of,
            "unit": documented.get("unit"), "constants": documented.get("constants"), "range": documented.get("range"),
            "summary": documented["summary"]}


def describe_method(word, line, types, variant, table, documentation, range_of, given, codes):
    fields, row = table[variant][0], call_row(variant, table[variant][1])
    entry = documentation.get("methods", word, summary=str, chapter=str)
    subset(entry, ("summary", "detail", "chapter", "errors", "arguments", "returns"), f"methods.{word}")
    listed = entry.get("arguments", {})
    arguments = [describe_argument(word, name, kind, listed, range_of)
                 for name, kind in zip(fields, types, strict=True)]
    if set(listed) != set(fields):
        raise Fault(f"methods.{word}: arguments {set(listed) ^ set(fields)}")
    kind = given.get(variant, "none")
    returns = [{"name": name, "type": "bytes" if kind == "bytes" else "number", "summary": summary}
               for name, summary in entry.get("returns", {}).items()]
    if len(returns) != {"none": 0, "pair": 2}.get(kind, 1):
        raise Fault(f"methods.{word} returns {kind}")
    open_first = [] if word == "open" else needs_errors(row)
    return {"name": word, "upper": word[0].upper() + word[1:], "snake": snake(word), "word": word, "line": line,
            "arguments": arguments, "returns": {"type": kind, "values": returns}, "claim": row["claim"],
            "enabled": row["enabled"], "takes_memory": row["takes_memory"], "summary": entry["summary"],
            "detail": entry.get("detail", ""), "errors": errors_of(open_first, entry.get("errors", []), codes, word),
            "chapter": entry["chapter"]}, row["category"]


def describe_property(name, variant, row, kind, documentation, range_of, codes):
    entry = documentation.get("properties", name, summary=str, chapter=str)
    subset(entry, ("summary", "detail", "chapter", "values", "unit", "errors", "set_errors"), f"properties.{name}")
    least, most_of = range_of.get(variant, (None, None))
    getting = needs_errors(row)
    if row["of_files"]:
        getting.append(("E_FAILURE", "The totals are off."))
    setting = [("E_CLOSED", "The control is closed.")] if row["writable"] else []
    return {"name": name, "snake": snake(name), "type": kind, "writable": row["writable"], "least": least,
            "most": most_of, "unit": entry.get("unit"), "values": entry.get("values"), "claim": row["claim"],
            "enabled": row["enabled"], "summary": entry["summary"], "detail": entry.get("detail", ""),
            "errors": errors_of(getting, entry.get("errors", []), codes, name),
            "set_errors": errors_of(setting, entry.get("set_errors", []), codes, name),
            "chapter": entry["chapter"]}, row["category"]


def describe_constants(documentation, numbers):
    """The groups of constants. Each number but the codes and loci of the errors has to be in one. The documentation has
    the numbers of a group that no definition names."""
    found, used = [], set()
    for name, entry in documentation.found["constants"].items():
        documentation.get("constants", name, summary=str, chapter=str, members=dict)
        subset(entry, ("summary", "chapter", "members", "numbers"), f"constants.{name}")
        own = entry.get("numbers", numbers)
        if own is not numbers and set(own) != set(entry["members"]):
            raise Fault(f"constants.{name}: members and numbers differ: {set(own) ^ set(entry['members'])}")
        if own is not numbers and set(own) & set(numbers):
            raise Fault(f"constants.{name}: the definitions have numbers: {set(own) & set(numbers)}")
        for word in entry["members"]:
            if word not in own:
                raise Fault(f"constants.{name}: {word} has no number in the definitions")
        used |= set(entry["members"])
        found.append({"name": name, "snake": snake(name), "summary": entry["summary"], "chapter": entry["chapter"],
                      "members": [{"name": word, "number": own[word], "summary": summary}
                                  for word, summary in entry["members"].items()]})
    return found, used


def describe_codes(kind, named, documentation):
    for name, number in named.items():
        entry = documentation.get(kind, name, summary=str, chapter=str, upper=str)
        subset(entry, ("summary", "chapter", "category", "upper"), f"{kind}.{name}")
        yield {"name": name, "upper": entry["upper"], "number": number, "summary": entry["summary"],
               "chapter": entry["chapter"], "category": entry.get("category")}


def describe_events(documentation):
    for name, named in events():
        entry = documentation.get("events", name, summary=str, chapter=str, categories=list)
        subset(entry, ("summary", "detail", "chapter", "categories", "fields"), f"events.{name}")
        about = entry.get("fields", {})
        if set(about) != set(named):
            raise Fault(f"events.{name}: fields {set(about) ^ set(named)}")
        fields = [{"name": field, "type": "number"} | about[field] for field in named]
        yield {"name": name, "snake": snake(name), "word": name, "fields": fields, "categories": entry["categories"],
               "summary": entry["summary"], "detail": entry.get("detail", ""), "chapter": entry["chapter"]}


def describe():
    documentation = Entries(tomllib.loads(DOCUMENTATION.read_text()))
    numbers, given = constant_numbers(), returned()
    codes, extended = declare.numbers("crates/pos_service/src/code.rt", "Code"), declare.extended()
    constants, used = describe_constants(documentation, numbers)
    left = set(numbers) - used - set(codes) - set(extended)
    if left:
        raise Fault(f"constants without an entry: {', '.join(sorted(left))}")
    groups = {category["variant"]: [] for category in categories()}
    methods = {None: [], **{name: [] for name in groups}}
    table, range_of = rows(SERVICE / "Calls.antt", "call"), ranges(numbers)
    in_order = sorted([*common_methods(), *own_methods()], key=lambda method: list(table).index(method[3]))
    for word, line, types, variant in in_order:
        method, category = describe_method(word, line, types, variant, table, documentation, range_of, given,
                                           codes | extended)
        methods[category].append(method)
    if sum(map(len, methods.values())) != len(table) - 2:
        raise Fault("a call has no method")
    listed = {None: [], **{name: [] for name in groups}}
    range_of = property_ranges()
    for name, variant, row, kind in properties():
        described, category = describe_property(name, variant, row, kind, documentation, range_of, codes | extended)
        listed[category].append(described)
    source = (declare.LIBRARY / "lib.rt").read_text()
    found = {
        "library": {
            "version": declare.version(source), "disk_length": declare.disk_length(),
            "codes": [{"name": name, "number": number, "summary": " ".join(doc)}
                      for name, number, doc in declare.codes()]},
        "result_codes": list(describe_codes("result_codes", codes, documentation)),
        "extended_codes": list(describe_codes("extended_codes", extended, documentation)),
        "constants": constants,
        "replies": [],
        "events": list(describe_events(documentation)),
        "common": {"methods": methods[None], "properties": listed[None]},
        "categories": [],
    }
    for name, word in replies().items():
        entry = documentation.get("replies", name, summary=str, chapter=str)
        subset(entry, ("summary", "chapter"), f"replies.{name}")
        found["replies"].append({"name": name, "word": word} | entry)
    for category in categories():
        entry = documentation.get("categories", category["name"], summary=str, chapter=str, snake=str)
        subset(entry, ("summary", "detail", "chapter", "snake", "device", "statuses"), f"categories.{category['name']}")
        variant = category.pop("variant")
        told = [event["name"] for event in found["events"] if category["name"] in event["categories"]]
        found["categories"].append(category | {
            "snake": entry["snake"], "device": entry["device"], "summary": entry["summary"],
            "detail": entry.get("detail", ""), "chapter": entry["chapter"], "statuses": entry.get("statuses", []),
            "events": told, "methods": methods[variant], "properties": listed[variant]})
    names_of_constants(found)
    if documentation.left():
        raise Fault(f"entries of documentation.toml that name nothing: {', '.join(documentation.left())}")
    return found


def names_of_constants(found):
    """Each group of constants that is named has to be there."""
    groups = {group["name"] for group in found["constants"]}
    named = set()
    for part in [found["common"], *found["categories"]]:
        named |= set(part.get("statuses", []))
        named |= {about["values"] for about in part["properties"]}
        named |= {argument["constants"] for method in part["methods"] for argument in method["arguments"]}
    for event in found["events"]:
        named |= {field.get("constants") for field in event["fields"]}
    if named - groups - {None, "ResultCode", "ExtendedCode"}:
        raise Fault(f"groups of constants that aren't there: {named - groups - {None}}")


def main():
    if sys.argv[1:] not in ([], ["--check"]):
        sys.exit(__doc__)
    try:
        text = json.dumps(describe(), indent=1, ensure_ascii=False) + "\n"
    except Fault as fault:
        sys.exit(f"describe.py: {fault}")
    if not sys.argv[1:]:
        DESCRIPTION.write_text(text)
    elif not DESCRIPTION.exists() or DESCRIPTION.read_text() != text:
        sys.exit("describe.py: abi/description.json isn't what the definitions say: run abi/describe.py")


main()
