#!/usr/bin/env python3
"""Writes what is typed for C, out of abi/description.json: the methods, properties, codes and constants of the controls
(c/kij_controls.h, c/kij_controls.c), and the table of methods by which the tests run scripts (tests/typed/run_calls.h).

Usage: abi/typed_c.py, or abi/typed_c.py --check, which compares the files with what would be written.
"""
import json
import pathlib
import re
import sys
import textwrap

sys.dont_write_bytecode = True
import over_library

ABI = pathlib.Path(__file__).resolve().parent
DESCRIPTION = json.loads((ABI / "description.json").read_text())
WIDTH = 120

# The functions of the methods. A method that isn't here has its own name behind the category's.
NAMES = {
    "openDrawer": "open", "displayText": "text", "displayTextAt": "text_at", "clearText": "clear_text",
    "scrollText": "scroll_text", "printNormal": "print", "printImmediate": "print_immediate",
}
SHAPES = {"none": "NONE", "number": "NUMBER", "pair": "PAIR", "bytes": "BYTES", "truth": "TRUTH"}
CATEGORIES = {"CashDrawer": "KIJ_CASH_DRAWER", "Scanner": "KIJ_SCANNER", "LineDisplay": "KIJ_LINE_DISPLAY",
              "POSPrinter": "KIJ_POS_PRINTER", "HardTotals": "KIJ_HARD_TOTALS", None: "KIJ_NO_CATEGORY"}
WRITTEN = "Written by abi/typed_c.py: don't change it by hand."


def parts():
    """The common part and those of the categories, each with the word for its controls."""
    yield DESCRIPTION["common"] | {"snake": "control", "summary": "What every category has.", "name": None}
    yield from DESCRIPTION["categories"]


def function(part, method):
    return f"kij_{part['snake']}_{NAMES.get(method['name'], method['snake'])}"


def constant(name):
    """A constant of the standard with the prefix."""
    return "KIJ_" + name.removeprefix("UPOS_")


STANDARD_NAMES = re.compile(r"\b(?:" + "|".join(member["name"] for group in DESCRIPTION["constants"]
                                               for member in group["members"]) + r")\b")


def property_constant(about):
    return "KIJ_PROP_" + about["snake"].upper()


def comment(lines):
    """A documentation comment of filled paragraphs. One that begins with '@' hangs. It may be indented. The standard's
    constants have their names in C."""
    out = []
    for line in lines:
        line = STANDARD_NAMES.sub(lambda found: constant(found[0]), line)
        hang = "        " if line.startswith("@") else ""
        out += textwrap.wrap(line, WIDTH - 8, subsequent_indent=hang) or [""]
    if len(out) == 1 and len(out[0]) + 11 <= WIDTH:
        return f"/** {out[0]} */"
    return "/**\n" + "\n".join(f" * {line}".rstrip() for line in out) + "\n */"


def indented(text):
    return "\n".join("    " + line for line in text.split("\n"))


def range_text(about):
    """The range of a number or of bytes with its unit, or the group of constants, as a sentence of its own."""
    least, most, unit, group = about["least"], about["most"], about["unit"], about.get("constants", about.get("values"))
    names = [constant(member["name"]) for found in DESCRIPTION["constants"] if found["name"] == group
             for member in found["members"]]
    if names and (most is None or most - least < len(names)):
        return f" {', '.join(names)}."
    if about.get("range"):
        return f" Range: {about['range']}."
    if least is not None and most is not None:
        said = f"{least} to {most}" if least != most else f"{least}"
    else:
        said = "" if least is None else f"from {least} on"
    said = f"{said} {unit}".strip() if unit and said else said or ""
    return f" Range: {said}." if said else f" In {unit}." if unit else ""


def errors_text(errors):
    """The errors in order, each with when it comes: a code that is extended comes with KIJ_E_EXTENDED."""
    apart = over_library.without_disk(errors)
    for error in apart:
        name = constant(error["code"])
        is_plain = name.startswith("KIJ_E_")
        yield (name, error["when"]) if is_plain else ("KIJ_E_EXTENDED", f"{name}: {lowered(error['when'])}")
    if apart != errors:
        yield "KIJ_DISK_FAILED", over_library.DISK_FAILED


def lowered(text):
    return text[0].lower() + text[1:] if text[1:2].islower() or text[1:2] == " " else text


def parameters(method, part):
    yield f"kij_control *{part['snake']}"
    for argument in method["arguments"]:
        name = argument["name"]
        if argument["type"] == "bytes":
            yield f"const void *{name}"
            yield f"size_t {name}_size"
        else:
            yield {"number": "int64_t ", "truth": "bool ", "device": "const char *"}[argument["type"]] + name
    for value in method["returns"]["values"]:
        if value["type"] == "bytes":
            yield f"const uint8_t **{value['name']}"
            yield f"size_t *{value['name']}_size"
        else:
            yield f"int64_t *{value['name']}"


def filled(begin, parts, end):
    """A call or a declaration with its parameters, which aren't broken."""
    lines, line = [], begin
    for place, part in enumerate(parts):
        part += end if place == len(parts) - 1 else ","
        if line != begin and len(line) + 1 + len(part) > WIDTH - 1:
            lines.append(line)
            line = " " * len(begin) + part
        else:
            line += part if line in (begin, " " * len(begin)) else " " + part
    return "\n".join([*lines, line])


def declaration(part, method):
    return filled(f"kij_result {function(part, method)}(", list(parameters(method, part)), ")")


def method_comment(method):
    lines = [f"{method['name']} ({method['chapter']}): {lowered(method['summary'])}"]
    if method["detail"]:
        lines += ["", method["detail"]]
    lines.append("")
    for argument in method["arguments"]:
        of_bytes = " The size may be KIJ_ZERO_ENDED." if argument["type"] == "bytes" else ""
        lines.append(f"@param {argument['name']} {argument['summary']}{range_text(argument)}{of_bytes}")
    for value in method["returns"]["values"]:
        lent = " Lent." if value["type"] == "bytes" else ""
        lines.append(f"@param {value['name']} {value['summary']}{lent} May be null.")
    lines += [f"@retval {name} {when}" for name, when in errors_text(method["errors"])]
    if method["takes_memory"]:
        lines.append("@retval KIJ_NO_MEMORY There was no memory.")
    return comment(lines)


def property_comment(about, owner):
    kind = {"number": "a number", "truth": "a flag", "bytes": "bytes"}[about["type"]]
    access = "read and written" if about["writable"] else "read only"
    lines = [f"{about['name']} ({about['chapter']}): {lowered(about['summary'])}"]
    if about["detail"]:
        lines.append(about["detail"])
    lines.append(f"Of {owner}: {kind}, {access}.{range_text(about)}")
    for what, errors in [("Reading", about["errors"]), ("Writing", about["set_errors"])]:
        lines += [f"{what}: {name}: {lowered(when)}" for name, when in errors_text(errors)]
    return comment(lines)


def enum(what, members):
    """An enum of constants, each with its comment."""
    body = "\n".join(f"{indented(said)}\n    {name} = {number}," for said, name, number in members).removesuffix(",")
    return f"{what} {{\n{body}\n}}"


def constants():
    """The groups of constants: what each is, and its members."""
    yield "The result codes of the standard (ErrorCode).", [
        (comment([over_library.summary_of(code["summary"], "KIJ_DISK_FAILED")]), constant(code["name"]), code["number"])
        for code in DESCRIPTION["result_codes"]]
    yield "The extended codes of the standard (ErrorCodeExtended), which come with KIJ_E_EXTENDED.", [
        (comment([f"{code['summary']} Of {code['category']}."]), constant(code["name"]), code["number"])
        for code in DESCRIPTION["extended_codes"]]
    for group in DESCRIPTION["constants"]:
        yield f"{group['summary'].removesuffix('.')} (chapter {group['chapter']}).", [
            (comment([member["summary"]]), constant(member["name"]), member["number"]) for member in group["members"]]


def properties():
    """The properties in order, each with who has it."""
    for part in parts():
        owner = "every category" if part["name"] is None else part["name"]
        for about in part["properties"]:
            yield about, owner


def section(part):
    """The comment over the methods of a category."""
    said = f"{part['name']}: {part['summary']} {part['detail']}" if part["name"] else "Every category."
    return "/* ---- " + "\n   ".join(textwrap.wrap(said, WIDTH - 12)) + " */"


def header():
    out = [f"""/**
 * @file kij_controls.h
 * The methods, properties, codes and constants of the controls. kij.h includes this file.
 * {WRITTEN}
 *
 * A call returns KIJ_OK, the first of the codes at @retval that holds, or a code of enum kij_code. It may have changed
 * something only after KIJ_NO_ANSWER, KIJ_DISK_FAILED and KIJ_BAD_ANSWER. If its device has a driver, the hardware may
 * have done a part of an order that failed.
 */
#ifndef KIJ_CONTROLS_H
#define KIJ_CONTROLS_H

#include "kij.h"

#ifdef __cplusplus
extern "C" {{
#endif
"""]
    for what, members in constants():
        out.append(f"{comment([what])}\n{enum('enum', members)};\n")
    members = [(property_comment(about, owner), property_constant(about), number)
               for number, (about, owner) in enumerate(properties(), 1)]
    out.append(f"""/** The properties. kij_get_... reads them, and kij_set_... writes them. */
{enum('typedef enum kij_property', members)} kij_property;
""")
    out.append("""/** Reads a property that is a number. KIJ_WRONG_TYPE if it is none; else an error of the property. */
kij_result kij_get_int(kij_control *control, kij_property property, int64_t *number);

/** Reads a property that is a flag. KIJ_WRONG_TYPE if it is none; else an error of the property. */
kij_result kij_get_bool(kij_control *control, kij_property property, bool *is_true);

/** Reads a property that is bytes, which are lent. KIJ_WRONG_TYPE if it is none; else an error of the property. */
kij_result kij_get_bytes(kij_control *control, kij_property property, const uint8_t **data, size_t *size);

/** Sets a property to a number. KIJ_E_ILLEGAL if it is read only or of another type; else an error of the property.
 * This and the calls above are KIJ_E_ILLEGAL too if the control's category hasn't the property. */
kij_result kij_set_int(kij_control *control, kij_property property, int64_t number);

/** Sets a property to a flag. KIJ_E_ILLEGAL if it is read only or of another type; else an error of the property. */
kij_result kij_set_bool(kij_control *control, kij_property property, bool is_true);

/** Returns the name of a property, as "DeviceEnabled". The text is static. */
const char *kij_property_name(kij_property property);
""")
    for part in parts():
        out.append(f"{section(part)}\n")
        for method in part["methods"]:
            out.append(f"{method_comment(method)}\n{declaration(part, method)};\n")
    out.append("""#ifdef __cplusplus
}
#endif

#endif
""")
    return "\n".join(out)


def argument_value(argument):
    name = argument["name"]
    return {"number": f"kij_internal_number({name})", "truth": f"kij_internal_truth({name})",
            "bytes": f"kij_internal_bytes({name}, {name}_size)"}[argument["type"]]


def kept(values):
    """The lines that write what was returned."""
    for value, field in zip(values, ("number", "second")):
        name = value["name"]
        if value["type"] == "bytes":
            yield f"        if ({name} != NULL) *{name} = value.data;"
            yield f"        if ({name}_size != NULL) *{name}_size = value.size;"
        else:
            yield f"        if ({name} != NULL) *{name} = value.{field};"


def body(part, method):
    verb = verb_of(method["line"])
    word = "&method" if method["line"] == "call" else "NULL"
    if method["line"] == "call":
        yield f'    static const kij_word method = KIJ_WORD(" {method["word"]}");'
    arguments, values = method["arguments"], method["returns"]["values"]
    if arguments and arguments[0]["type"] == "device":
        name = arguments[0]["name"]
        refused = "kij_internal_result(KIJ_BAD_ARGUMENT, 0, KIJ_NO_CATEGORY)"
        yield "    kij_word word;"
        yield f"    if (!kij_internal_is_name({name}, &word)) return {refused};"
        word, arguments = "&word", arguments[1:]
    given, count = "NULL", len(arguments)
    if arguments:
        given = "arguments"
        yield f"    kij_argument arguments[{count}];"
        for place, argument in enumerate(arguments):
            yield f"    arguments[{place}] = {argument_value(argument)};"
    call = f"kij_internal_call({part['snake']}, {verb}, {word}, {given}, {count}"
    if not values:
        yield f"    return {call}, NULL);"
        return
    yield "    kij_value value;"
    yield f"    value.shape = KIJ_SHAPE_{SHAPES[method['returns']['type']]};"
    yield f"    kij_result result = {call}, &value);"
    yield "    if (result.code == KIJ_OK) {"
    yield from kept(values)
    yield "    }"
    yield "    return result;"


def rows(name, listed):
    """A table of codes."""
    body = ""
    for code in listed:
        body += f"    {{{CATEGORIES[code['category']]}, {code['number']}, \"{code['name']}\",\n"
        body += f"     \"{code['summary']}\"}},\n"
    return f"const kij_number_row kij_internal_{name}[] = {{\n{body}}};\n"


def verb_of(line):
    return f"KIJ_VERB_{line.upper()}"


def reasons():
    """The table of the reasons: the category, the verb, the word behind the name or none, the code, and the text."""
    body = ""
    for category, verb, name, code, reason in over_library.reasons(DESCRIPTION):
        word = f'" {name}"' if verb in ("call", "get", "set") else "NULL"
        codes = f"{constant(code)}, 0" if code.startswith("E_") else f"KIJ_E_EXTENDED, {constant(code)}"
        body += f"    {{{CATEGORIES[category]}, {verb_of(verb)}, {word}, {codes},\n"
        text = textwrap.wrap(reason, WIDTH - 10, break_on_hyphens=False, drop_whitespace=False)
        body += "\n".join(f'     "{part}"' for part in text) + "},\n"
    return f"const kij_reason_row kij_internal_reasons[] = {{\n{body}}};\n"


def length_of(count, table):
    """How many rows a table has."""
    table = f"kij_internal_{table}"
    return f"const size_t kij_internal_{count} = sizeof {table} / sizeof {table}[0];\n"


def source():
    out = [f"/* The methods, properties and codes of the controls. {WRITTEN} */", '#include "kij_internal.h"\n']
    table = "".join(f'    {{KIJ_WORD(" {about["name"]}"), KIJ_SHAPE_{SHAPES[about["type"]]}}},\n'
                    for about, _ in properties())
    out.append(f"const kij_property_row kij_internal_properties[] = {{\n{table}}};\n")
    out.append(length_of("property_count", "properties"))
    out += [rows("codes", DESCRIPTION["result_codes"]), length_of("code_count", "codes")]
    out += [rows("extended", DESCRIPTION["extended_codes"]), length_of("extended_count", "extended")]
    out += [reasons(), length_of("reason_count", "reasons")]
    for part in parts():
        for method in part["methods"]:
            out.append(f"{declaration(part, method)} {{\n" + "\n".join(body(part, method)) + "\n}\n")
    return "\n".join(out)


# ---- the table by which scripts are run

LETTERS = {"number": "n", "bytes": "b", "truth": "t", "device": "d"}


def run_call(part, method):
    """A function that makes the call with the words of a script, which are read already, and keeps what it returns."""
    name = function(part, method).removeprefix("kij_")
    given = ["control"]
    for place, argument in enumerate(method["arguments"]):
        word = f"words[{place}]"
        given += {"number": [f"{word}.number"], "truth": [f"{word}.number != 0"], "device": [f"{word}.text"],
                  "bytes": [f"{word}.data", f"{word}.size"]}[argument["type"]]
    for value, field in zip(method["returns"]["values"], ("number", "second")):
        given += ["&answer->data", "&answer->size"] if value["type"] == "bytes" else [f"&answer->{field}"]
    call = filled(f"    return {function(part, method)}(", given, ");")
    used = "" if method["arguments"] else "    (void)words;\n"
    kept_in = "" if method["returns"]["values"] else "    (void)answer;\n"
    return (f"static kij_result run_{name}(kij_control *control, const run_word *words, run_answer *answer) {{\n"
            f"{used}{kept_in}{call}\n}}\n")


def run_table():
    out = [f"/* The methods by their words in scripts, for run.c. {WRITTEN} */\n"]
    table = ""
    for part in parts():
        for method in part["methods"]:
            out.append(run_call(part, method))
            letters = "".join(LETTERS[argument["type"]] for argument in method["arguments"])
            name = function(part, method).removeprefix("kij_")
            returned = method["returns"]["type"][0] if method["returns"]["type"] != "none" else "-"
            table += f"    {{\"{method['line']}\", \"{method['word']}\", \"{letters}\", '{returned}', run_{name}}},\n"
    out.append("/* A line's verb, a method's word, the types of its words, what it returns, and how it is called. */")
    out.append(f"static const run_method run_methods[] = {{\n{table}}};\n")
    table = "".join(f"    {{\"{about['name']}\", '{about['type'][0]}', {property_constant(about)}}},\n"
                    for about, _ in properties())
    out.append("/* The properties by their names, and their types. */")
    out.append(f"static const run_property run_properties[] = {{\n{table}}};\n")
    return "\n".join(out)


def main():
    if sys.argv[1:] not in ([], ["--check"]):
        sys.exit(__doc__)
    stale = []
    for path, text in [("abi/c/kij_controls.h", header()), ("abi/c/kij_controls.c", source()),
                       ("tests/typed/run_calls.h", run_table())]:
        name, path = path, ABI.parent / path
        if not sys.argv[1:]:
            path.write_text(text)
        elif not path.exists() or path.read_text() != text:
            stale.append(name)
    if stale:
        sys.exit(f"typed_c.py: run abi/typed_c.py, since these aren't what the description says: {', '.join(stale)}")


main()
