#!/usr/bin/env python3
"""Writes the typed part of the package kijolvar out of abi/description.json: constants, errors, events and controls.

Usage: abi/python/generate.py, or abi/python/generate.py --check, which compares the files with what would be written.
"""
import builtins
import json
import pathlib
import sys
import textwrap

HERE = pathlib.Path(__file__).resolve().parent
sys.dont_write_bytecode = True
sys.path.insert(0, str(HERE.parent))
import over_library

PACKAGE = HERE / "kijolvar"
WIDTH = 120
HEAD = ('"""{}\n\nWritten by abi/python/generate.py: don\'t change it by hand.\n"""\n'
        "from __future__ import annotations\n")

TYPES = {"number": "SupportsIndex", "bytes": "Text", "truth": "bool", "device": "str"}
FORMS = {"bytes": "{{hexed({})}}", "truth": "{{truth({})}}"}
GIVEN = {"number": "int", "bytes": "bytes", "truth": "bool"}
# Arguments that may be left out, and what they are then.
DEFAULTS = {
    ("claim", "timeout"): "0", ("claimFile", "timeout"): "0", ("create", "error_detection"): "False",
    ("displayText", "attribute"): "DISP_DT_NORMAL", ("displayTextAt", "attribute"): "DISP_DT_NORMAL",
    ("cutPaper", "percentage"): "PTR_CP_FULLCUT",
}
# The classes of kijolvar/_faults.py.
FAULTS = ["DamagedError", "DiskError", "DriverError", "Error", "ExchangeError", "FormattedError", "InCallError",
          "InOrderError", "InputError", "LibraryError", "LibraryFault", "LineError", "MovedError", "NameInUseError",
          "NoDeviceError", "NoMemoryError", "NoOrderError", "ProfileError", "SettingsError", "ThreadError",
          "TillClosedError", "TooManyControlsError", "TooSmallError", "UnformattedError", "UposError"]
# Classes of errors that are a kind of an error of Python's too.
BASES = {"E_NOEXIST": ", KeyError"}
# The function that makes a number of an argument that isn't one, by the argument's name. Others are integers.
NUMBERS = {"handle": "handle_of"}


def wrapped(text, indent, more=""):
    """Lines of a docstring."""
    return textwrap.fill(text, WIDTH, initial_indent=indent, subsequent_indent=indent + more, break_on_hyphens=False)


def imported(module, names):
    """An import of names, in lines of the width."""
    one = f"from {module} import {', '.join(names)}"
    indent = " " * (len(f"from {module} import ") + 1)
    if len(one) <= WIDTH:
        return one
    return textwrap.fill(f"from {module} import ({', '.join(names)})", WIDTH, subsequent_indent=indent)


def docstring(parts, indent="        "):
    """A docstring: a summary, and then paragraphs, each a list of lines."""
    summary, *paragraphs = parts
    if not paragraphs:
        one = f'{indent}"""{summary}"""'
        if len(one) <= WIDTH:
            return one
    lines = [wrapped(f'"""{summary}', indent)]
    for paragraph in paragraphs:
        lines += ["", *paragraph]
    return "\n".join([*lines, f'{indent}"""'])


def bounds(about):
    """The range of an argument or a property, in words."""
    least, most, unit = about["least"], about["most"], about.get("unit")
    if about.get("range"):
        return f"{about['range'][0].upper()}{about['range'][1:]}."
    if about["type"] in ("bytes", "device"):
        if most is None:
            return ""
        return f"{least} to {most} {unit}."
    if about.get("constants") or about.get("values"):
        return ""
    if least is None:
        return ""
    if most is None:
        return f"At least {least}{', in ' + unit if unit else ''}."
    return f"{least} to {most}{', in ' + unit if unit else ''}."


class Names:
    """What the description has by name."""

    def __init__(self, found):
        self.found = found
        self.groups = {group["name"]: group for group in found["constants"]}
        codes = found["result_codes"] + found["extended_codes"]
        self.errors = {code["name"]: code["upper"] + "Error" for code in codes}

    def one_of(self, group):
        """A sentence that lists the members of a group of constants."""
        members = [member["name"] for member in self.groups[group]["members"]]
        return f"One of {', '.join(members)}." if len(members) > 1 else f"Always {members[0]}."


def enum_of(group):
    chapter = wrapped(f"UnifiedPOS 1.16, chapter {group['chapter']}.", "    ")
    lines = [f"class {group['name']}(enum.IntEnum):", docstring([group["summary"], [chapter]], "    "), ""]
    for member in group["members"]:
        lines += [f"    {member['name']} = {member['number']}", f'    """{member["summary"]}"""']
    return "\n".join(lines)


def constants(found):
    library = found["library"]
    own = [("KIJOLVAR_VERSION", library["version"]), ("KIJOLVAR_DISK_LENGTH", library["disk_length"])]
    own += [(code["name"], code["number"]) for code in library["codes"]]
    codes = [(code["name"], code["number"]) for code in found["result_codes"] + found["extended_codes"]]
    parts = [HEAD.format("The numbers of the standard and of the library.") + "\nimport enum\nfrom typing import Final"]
    parts += ["\n".join(f"{name}: Final = {number}" for name, number in numbers) for numbers in (own, codes)]
    parts += [enum_of(group) for group in found["constants"]]
    chapter = wrapped(f"UnifiedPOS 1.16, chapter {found['replies'][0]['chapter']}.", "    ")
    replies = ["class ErrorReply(enum.Enum):", docstring(["The replies to an ErrorEvent.", [chapter]], "    "), ""]
    for reply in found["replies"]:
        replies += [f"    {reply['name']} = \"{reply['word']}\"", f'    """{reply["summary"]}"""']
    parts.append("\n".join(replies))
    names = [(group["name"], member["name"]) for group in found["constants"] for member in group["members"]]
    names += [("ErrorReply", reply["name"]) for reply in found["replies"]]
    parts.append("\n".join(f"{name}: Final = {group}.{name}" for group, name in names))
    exported = [name for _, name in names] + [group["name"] for group in found["constants"]] + ["ErrorReply"]
    exported += ["KIJOLVAR_VERSION", "KIJOLVAR_DISK_LENGTH", *(code["name"] for code in found["library"]["codes"])]
    exported += [code["name"] for code in found["result_codes"] + found["extended_codes"]]
    return "\n\n\n".join(parts) + "\n\n" + all_names(exported)


def errors(found):
    parts = [HEAD.format("The exceptions: one for each code of the standard, and what else goes wrong.")
             + "\n" + imported("._faults", FAULTS)]
    for code in found["result_codes"][1:]:
        parts.append(error_class(code, f"UposError{BASES.get(code['name'], '')}", str(code["number"])))
    for code in found["extended_codes"]:
        parts.append(error_class(code, "ExtendedError", str(code["number"])))
    by_code = ["BY_CODE: dict[int, type[UposError]] = {"]
    by_code += [f"    {code['number']}: {code['upper']}Error," for code in found["result_codes"][1:]] + ["}"]
    by_code += ["BY_EXTENDED: dict[tuple[str, int], type[UposError]] = {"]
    by_code += [f"    (\"{code['category']}\", {code['number']}): {code['upper']}Error,"
                for code in found["extended_codes"]] + ["}"]
    parts.append("\n".join(by_code))
    own = [code["upper"] + "Error" for code in found["result_codes"][1:] + found["extended_codes"]]
    return "\n\n\n".join(parts) + "\n\n" + all_names([*FAULTS, *own])


def all_names(names):
    listed = textwrap.fill(", ".join(f'"{name}"' for name in sorted(names)) + ",", WIDTH, initial_indent="    ",
                           subsequent_indent="    ")
    return f"__all__ = [\n{listed}\n]\n"


def error_class(code, base, number):
    summary = over_library.summary_of(code["summary"], "a DiskError")
    doc = docstring([f"{code['name']} ({number}): {lower_first(summary)}",
                     [wrapped(f"UnifiedPOS 1.16, chapter {code['chapter']}.", "    ")]], "    ")
    return (f"class {code['upper']}Error({base}):\n{doc}\n\n    name = \"{code['name']}\"\n"
            f"    summary = \"{code['summary']}\"")


def lower_first(text):
    return text[0].lower() + text[1:]


def events(found):
    names = [event["name"] for event in found["events"]]
    parts = [HEAD.format("The events that are delivered to a control.")
             + "\nfrom dataclasses import dataclass\nfrom typing import TYPE_CHECKING, Union\n\n"
             "from ._constants import ErrorLocus, ErrorReply\n"
             "from ._replies import reply_to\n\n"
             "if TYPE_CHECKING:\n    from ._control import Control"]
    for event in found["events"]:
        parts.append(event_class(event))
    parts.append(f"Event = Union[{', '.join(names)}]")
    reading = ["def read(control: Control, text: str) -> Event:",
               '    """The event that a line tells, behind `event`."""', "    name, *words = text.split()",
               "    numbers = [int(word) for word in words]"]
    for event in found["events"]:
        fields = ", ".join(f"ErrorLocus(numbers[{at}])" if field.get("constants") == "ErrorLocus" else f"numbers[{at}]"
                           for at, field in enumerate(event["fields"]))
        reading += [f"    if name == \"{event['word']}\":",
                    f"        return {event['name']}(control{', ' + fields if fields else ''})"]
    reading.append('    raise ValueError(f"not an event: {text}")')
    parts.append("\n".join(reading))
    return "\n\n\n".join(parts) + "\n"


def event_class(event):
    fields = [f"{field['name']}: {field['summary']}" for field in event["fields"]]
    attributes = ["    Attributes:", wrapped("control: The control to which the event is delivered.", " " * 8, " " * 4)]
    attributes += [wrapped(field, " " * 8, " " * 4) for field in fields]
    detail = [[wrapped(event["detail"], "    ")]] if event["detail"] else []
    doc = docstring([event["summary"], *detail, attributes,
                     [wrapped(f"UnifiedPOS 1.16, chapter {event['chapter']}.", "    ")]], "    ")
    lines = ["@dataclass(frozen=True)", f"class {event['name']}:", doc, "", "    control: Control"]
    lines += [f"    {field['name']}: {'ErrorLocus' if field.get('constants') == 'ErrorLocus' else 'int'}"
              for field in event["fields"]]
    if event["name"] == "ErrorEvent":
        lines += ["", "    def reply(self, reply: ErrorReply) -> None:",
                  '        """Replies to the error.', "",
                  "        Without a reply, output is tried again, and input is continued (at EL_INPUT_DATA) or",
                  "        cleared (at EL_INPUT). Reply before you call anything else on the control.", '        """',
                  "        reply_to(self.control, self.locus, reply)"]
    return "\n".join(lines)


# ---- controls

def raised(errors, names, heading="Raises"):
    found = [(full(names.errors[error["code"]]), error["when"]) for error in over_library.without_disk(errors)]
    if over_library.without_disk(errors) != errors:
        found.append(("DiskError", over_library.DISK_FAILED))
    lines = [wrapped(f"{name}: {when}", " " * 12, " " * 4) for name, when in found]
    return [f"        {heading}:", *lines]


def full(name):
    """The name of a class. An error of Python's that has the same name isn't meant."""
    return f"kijolvar.{name}" if hasattr(builtins, name) else name


def argument_doc(argument, names):
    parts = [argument["summary"], bounds(argument)]
    if argument["constants"] and argument["constants"] not in ("PaperCut", "Timeout"):
        parts.append(names.one_of(argument["constants"]))
    if argument["constants"] == "PaperCut":
        parts.append(f"{argument['least']} to {argument['most']}, in {argument['unit']}.")
    return wrapped(f"{argument['name']}: {' '.join(part for part in parts if part)}", " " * 12, " " * 4)


def method_doc(method, names):
    parts = [method["summary"]]
    if method["detail"]:
        parts.append([wrapped(method["detail"], " " * 8)])
    if method["arguments"]:
        parts.append(["        Args:", *(argument_doc(argument, names) for argument in method["arguments"])])
    if method["returns"]["values"]:
        told = [f"{value['name']}: {value['summary']}" for value in method["returns"]["values"]]
        told = told if len(told) > 1 else [method["returns"]["values"][0]["summary"]]
        parts.append(["        Returns:", *(wrapped(line, " " * 12) for line in told)])
    if method["word"] == "claim":
        claim = "The claim, which releases the device at the end of a `with` block; you needn't use it."
        parts.append(["        Returns:", " " * 12 + claim])
    parts.append(raised(method["errors"], names))
    parts.append([wrapped(f"UnifiedPOS 1.16, chapter {method['chapter']}.", " " * 8)])
    return docstring(parts)


def signature(method):
    listed = ["self"]
    for argument in method["arguments"]:
        default = DEFAULTS.get((method["word"], argument["name"]))
        kind = "Handle" if argument["name"] in NUMBERS else TYPES[argument["type"]]
        listed.append(f"{argument['name']}: {kind}" + (f" = {default}" if default else ""))
    return ", ".join(listed)


def number_of(name):
    """The expression for an argument that is a number."""
    return name if name in NUMBERS else f"integer({name})"


def made_numbers(method):
    """The lines that make a number of an argument that may be something else. Most often it is a number."""
    names = [argument["name"] for argument in method["arguments"] if argument["name"] in NUMBERS]
    return [line for name in names for line in (f"        if type({name}) is not int:",
                                                f"            {name} = {NUMBERS[name]}({name})")]


def line_of(method):
    """The expression for a method's line: bytes that are known, or a text that its arguments are put into."""
    if not method["arguments"]:
        return f"self._call + b\"{method['word']}\""
    if all(argument["type"] == "number" for argument in method["arguments"]):
        forms = " ".join("%d" for _ in method["arguments"])
        words = ", ".join(number_of(argument["name"]) for argument in method["arguments"])
        return f"b\"%b{method['word']} {forms}\" % (self._call, {words})"
    words = " ".join(f"{{{number_of(argument['name'])}}}" if argument["type"] == "number"
                     else FORMS[argument["type"]].format(argument["name"]) for argument in method["arguments"])
    return f"f\"{{self._words}}{method['word']} {words}\".encode()"


def carried(line, name, kind, given):
    """The statements that carry out a line, and read its answer as a value of a kind."""
    fault = f"raise self._refusal(answer, \"{name}\")"
    asked = [f"answer = self._carry_out({line})"]
    if len(asked[0]) > WIDTH - 8:
        at = line.rindex(" {hexed") + 1
        asked = [f'line = ({line[:at]}"', f'        f"{line[at:].replace(".encode()", ").encode()")}',
                 "answer = self._carry_out(line)"]
    return "\n".join(" " * 8 + statement for statement in asked + {
        "none": ["if answer != OK:", f"    {fault}"],
        "truth": ["if answer == OK_TRUE:", "    return True", "if answer == OK_FALSE:", "    return False", fault],
        "number": ["if answer[0] != OK_BEGIN:", f"    {fault}", "return int(answer[3:])"],
        "pair": ["if answer[0] != OK_BEGIN:", f"    {fault}", "first, second = answer[3:].split()",
                 "return int(first), int(second)"],
        "bytes": ["if answer[0] != OK_BEGIN:", f"    {fault}",
                  "return unhexlify(answer[3:-1]) if answer != OK_NO_BYTES else b\"\""],
        "enum": [f"found = _{given}.get(answer)", "if found is None:", f"    {fault}", "return found"],
    }[kind])


def method_body(method):
    if method["line"] != "call":
        words = ", ".join(argument["name"] for argument in method["arguments"])
        return f"        {'return ' if method['word'] == 'claim' else ''}self._{method['word']}({words})"
    done = carried(line_of(method), method["snake"], method["returns"]["type"], None)
    return "\n".join([*made_numbers(method), done])


def method_code(method, names):
    given = (GIVEN | {"none": "None", "pair": "tuple[int, int]"})[method["returns"]["type"]]
    given = "Claim" if method["word"] == "claim" else given
    head = f"    def {method['snake']}({signature(method)}) -> {given}:"
    if len(head) > WIDTH:
        head = textwrap.fill(head, WIDTH, initial_indent="", subsequent_indent=" " * head.index("self"))
    return f"{head}\n{method_doc(method, names)}\n{method_body(method)}"


def property_doc(about, names):
    parts = [about["summary"]]
    if about["detail"]:
        parts.append([wrapped(about["detail"], " " * 8)])
    told = ["You can set it." if about["writable"] else "", bounds(about)]
    if about["values"]:
        told.append(names.one_of(about["values"]))
    elif about["unit"] and about["least"] is None:
        told.append(f"It counts {about['unit']}.")
    if any(told):
        parts.append([wrapped(" ".join(part for part in told if part), " " * 8)])
    if about["errors"]:
        parts.append(raised(about["errors"], names))
    if about["set_errors"]:
        parts.append(raised(about["set_errors"], names, "Raises, when you set it"))
    parts.append([wrapped(f"UnifiedPOS 1.16, chapter {about['chapter']}.", " " * 8)])
    return docstring(parts)


def property_code(about, names):
    name, snake = about["name"], about["snake"]
    kind = about["values"] or GIVEN[about["type"]]
    read = carried(f"self._get + b\"{name}\"", snake, "enum" if about["values"] else about["type"], about["values"])
    lines = ["    @property", f"    def {snake}(self) -> {kind}:", property_doc(about, names), read]
    if about["writable"]:
        line = (f"self._set + f\"{name} {{truth(value)}}\".encode()" if about["type"] == "truth"
                else f"self._set + b\"{name} %d\" % integer(value)")
        lines += ["", f"    @{snake}.setter", f"    def {snake}(self, value: {kind}) -> None:",
                  carried(line, snake, "none", None)]
    return "\n".join(lines)


def class_of(name, base, summary, detail, chapter, constants_of, part, names):
    paragraphs = [[wrapped(text, "    ")] for text in (detail, f"UnifiedPOS 1.16, chapter {chapter}.") if text]
    members = [property_code(about, names) for about in part["properties"]]
    members += [method_code(method, names) for method in part["methods"]]
    slots = "    __slots__ = ()" + (f"\n\n{constants_of}" if constants_of else "")
    return "\n\n".join([f"class {name}({base}):\n{docstring([summary, *paragraphs], '    ')}", slots, *members])


def reason_line(code, when):
    line = f'        "{code}": "{when}",'
    if len(line) <= WIDTH:
        return line
    text = textwrap.wrap(when, WIDTH - 16, break_on_hyphens=False)
    return "\n".join([f'        "{code}":', *(f'            "{part} "' for part in text[:-1]), f'            "{text[-1]}",'])


def reasons(found):
    """What each code means, by the names of the methods and properties."""
    parts = [found["common"], *found["categories"]]
    told = [(about["snake"], about["errors"] + about.get("set_errors", []))
            for part in parts for about in part["methods"] + part["properties"]]
    if len({name for name, _ in told}) != len(told):
        sys.exit("generate.py: two methods or properties have one name")
    lines = ["REASONS: dict[str, dict[str, str]] = {"]
    for name, errors in told:
        lines.append(f'    "{name}": {{')
        lines += [reason_line(code, when) for code, when in over_library.reasons_of(errors).items()]
        lines.append("    },")
    head = HEAD.format("What each code means, by the names of the methods and properties.").rstrip("\n")
    return head + "\n\n" + "\n".join([*lines, "}"]) + "\n"


def controls(found):
    names = Names(found)
    used = sorted({about["values"] for part in [found["common"], *found["categories"]] for about in part["properties"]
                   if about["values"]})
    defaults = sorted({default for default in DEFAULTS.values() if default.isupper()})
    parts = [HEAD.format("The controls of each category, with the standard's methods and properties.")
             + "\nfrom binascii import unhexlify\nfrom operator import index as integer\n"
             + "from typing import SupportsIndex\n\n"
             + imported("._constants", [*defaults, *used]) + "\n"
             + imported("._control", ["OK", "OK_BEGIN", "OK_FALSE", "OK_NO_BYTES", "OK_TRUE", "Claim", "Control",
                                      "Handle", "Text", "handle_of", "hexed", "truth"]),
             "# What an answer stands for, by its text.\n" + "\n".join(
                 f'_{group} = {{b"ok %d\\n" % member: member for member in {group}}}' for group in used)]
    common = "What every category has: open, claim, enable, release and close."
    parts.append(class_of("StandardControl", "Control", common, "", found["common"]["methods"][0]["chapter"], "",
                          found["common"], names))
    for category in found["categories"]:
        constants_of = (f"    category = \"{category['word']}\"\n    is_exclusive = {category['exclusive']}")
        parts.append(class_of(category["name"], "StandardControl", category["summary"], category["detail"],
                              category["chapter"], constants_of, category, names))
    return "\n\n\n".join(parts) + "\n"


def main():
    if sys.argv[1:] not in ([], ["--check"]):
        sys.exit(__doc__)
    found = json.loads((HERE.parent / "description.json").read_text())
    stale = []
    for name, write in {"_constants": constants, "errors": errors, "_events": events, "_controls": controls,
                        "_reasons": reasons}.items():
        path, text = PACKAGE / f"{name}.py", write(found)
        if not sys.argv[1:]:
            path.write_text(text)
        elif not path.exists() or path.read_text() != text:
            stale.append(path.name)
    if stale:
        sys.exit(f"generate.py: {', '.join(stale)} not as the description says: run abi/python/generate.py")


main()
