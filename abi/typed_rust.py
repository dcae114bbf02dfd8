#!/usr/bin/env python3
"""Writes what is typed for Rust, out of abi/description.json: the controls with their methods and properties, the
properties, the codes and constants of the standard, and why calls are refused (rust/kijolvar/src/controls.rs,
property.rs, standard.rs, reasons.rs); and the tables by which the tests run scripts (tests/typed/rust/src/calls.rs).

Usage: abi/typed_rust.py, or abi/typed_rust.py --check, which compares the files with what would be written.
"""
import json
import pathlib
import sys
import textwrap

sys.dont_write_bytecode = True
import over_library

TOP = pathlib.Path(__file__).resolve().parent.parent
DESCRIPTION = json.loads((TOP / "abi/description.json").read_text())
WIDTH = 120
WRITTEN = "Written by abi/typed_rust.py: don't change it by hand."

# The enums of constants, and what each name begins with in the standard.
ENUMS = {
    "State": "S_", "DrawerStatus": "CASH_SUE_DRAWER", "PrinterStatus": "PTR_SUE_", "PowerStatus": "SUE_POWER_",
    "PowerReporting": "PR_", "PowerNotify": "PN_", "PowerState": "PS_", "ErrorLocus": "EL_",
    "DisplayAttribute": "DISP_DT_", "ScrollDirection": "DISP_ST_", "PrinterStation": "PTR_S_",
    "ScanDataType": "SCAN_SDT_",
}
# Those whose constants are some of the numbers that a call takes.
NUMBERS_OF = {"ScanDataType"}
# The names that the standard writes in one word, and those that a prefix hides.
WORDS = {
    "NOTCLAIMED": "NotClaimed", "NOSERVICE": "NoService", "NOHARDWARE": "NoHardware", "NOEXIST": "NoExist",
    "NEAREMPTY": "NearEmpty", "PAPEROK": "PaperOk", "CONTINUEINPUT": "ContinueInput", "NOROOM": "NoRoom",
    "UPCA": "UpcA", "UPCE": "UpcE", "OCRA": "OcrA", "OCRB": "OcrB", "GS1DATABAR": "Gs1DataBar", "MAXICODE": "MaxiCode",
    "DATAMATRIX": "DataMatrix", "QRCODE": "QrCode",
}
EXTENDED = {"ETOT": "Totals", "EPTR": "Printer"}
# Names with which a summary begins: they keep their capital.
NAMES = ("Aztec Code", "Codabar", "Code 128", "Code 39", "Code 93", "Data Matrix", "MaxiCode")
CATEGORIES = {"POSPrinter": "PosPrinter"}
# The devices of the built-in profile.
DEVICES = {"CashDrawer": "d1", "Scanner": "s1", "LineDisplay": "p1", "POSPrinter": "r1", "HardTotals": "t1"}
KINDS = {"number": "Number", "truth": "Truth", "bytes": "Bytes"}


def category(name):
    return CATEGORIES.get(name, name)


def variant(name, prefix):
    """A constant's name in Rust: S_IDLE is Idle."""
    return "".join(WORDS.get(word, word.capitalize()) for word in name.removeprefix(prefix).split("_"))


def extended_variant(name):
    first, rest = name.split("_", 1)
    return EXTENDED[first] + variant(rest, "")


def snake(name):
    return "".join("_" + letter.lower() if letter.isupper() else letter for letter in name).lstrip("_")


def doc(lines, indent=0):
    """A documentation comment of paragraphs; a line that begins with '- ' hangs."""
    out = []
    for line in lines:
        hang = "  " if line.startswith("- ") else ""
        out += textwrap.wrap(line, WIDTH - 4 - indent, subsequent_indent=hang) or [""]
    return "".join(f"{' ' * indent}/// {line}".rstrip() + "\n" for line in out)


def variant_link(code):
    """A code of the standard as a link to its variant."""
    if code.startswith("E_"):
        return f"[`{code}`](ResultCode::{variant(code, 'E_')})"
    return f"E_EXTENDED, [`{code}`](ExtendedCode::{extended_variant(code)})"


def errors(listed, memory=False):
    """The paragraph of the errors, in the order in which they are looked for."""
    apart = over_library.without_disk(listed)
    lines = [f"- {variant_link(error['code'])}: {lowered(error['when'])}" for error in apart]
    if apart != listed:
        lines.append(f"- [`Cause::DiskFailed`]: {lowered(over_library.DISK_FAILED)}")
    if memory:
        lines.append("- [`Cause::NoMemory`]: there was no memory.")
    return ["", "# Errors", "", *lines] if lines else []


def arm(left, right, indent=12):
    """An arm of a match, in one line if it has room."""
    front = " " * indent
    line = f"{front}{left} => {right},\n"
    return line if len(line) <= WIDTH + 1 else f"{front}{left} => {{\n{front}    {right}\n{front}}}\n"


def arms(pairs):
    """The arms of a match within a function."""
    return "".join(arm(left, right) for left, right in pairs)


def fitting(line, parts, end):
    """What begins with a line, has parts behind it, and ends so: in one line if it has room, else a line for each
    part."""
    whole = line + "".join(parts) + end
    return whole if len(whole) <= WIDTH else line + "".join(f"\n            {part}" for part in parts) + end


def lowered(text):
    """A text behind a colon. A name with more capitals, such as AsyncMode, stays as it is."""
    first = text.split(" ")[0]
    return text if text.startswith(NAMES) or first[1:] != first[1:].lower() else text[0].lower() + text[1:]


def range_text(about):
    """The range of a number or of bytes with its unit, as a sentence of its own."""
    if about.get("range"):
        return f" Range: {about['range']}."
    if about["least"] is not None and about["most"] is not None:
        said = f"{about['least']} to {about['most']}" if about["least"] != about["most"] else f"{about['least']}"
    else:
        said = ""
    if about["unit"]:
        return f" Range: {said} {about['unit']}." if said else f" In {about['unit']}."
    return f" Range: {said}." if said else ""


# ---- codes and constants

def enum(name, what, members, more="", extra=""):
    """An enum of numbers. The members are its variants, their names in the standard, numbers, and what they mean."""
    body = "".join(doc([f"{standard}: {lowered(said)}"], 4) + f"    {rust} = {number},\n"
                   for rust, standard, number, said in members)
    numbers = arms((number, f"Some({name}::{rust})") for rust, _, number, _ in members)
    names = arms((f"{name}::{rust}", f'"{standard}"') for rust, standard, _, _ in members)
    of_number = "" if more else f"""    /// Returns the constant of a number, if there is one.
    pub fn from_number(number: u64) -> Option<{name}> {{
        match number {{
{numbers}            _ => None,
        }}
    }}

"""
    return f"""{doc([what])}#[derive(Debug, Clone, Copy, PartialEq, Eq, Hash)]
#[non_exhaustive]
pub enum {name} {{
{body}}}

impl {name} {{
    /// Returns the number in the standard.
    pub fn number(self) -> u32 {{
{extra or '        self as u32'}
    }}

{of_number}{more}    /// Returns the name in the standard.
    pub fn name(self) -> &'static str {{
        match self {{
{names}        }}
    }}
}}
"""


def number_of(name):
    """How a constant becomes a number where a call takes any."""
    return f"""impl From<{name}> for u64 {{
    fn from(constant: {name}) -> u64 {{
        constant.number().into()
    }}
}}
"""


def texts(name, members):
    """How a code is displayed: its name and what it means."""
    texts_of = arms((f"{name}::{rust}", f'"{said}"') for rust, _, _, said in members)
    return f"""impl fmt::Display for {name} {{
    fn fmt(&self, out: &mut fmt::Formatter<'_>) -> fmt::Result {{
        let text = match self {{
{texts_of}        }};
        write!(out, "{{}}: {{text}}", self.name())
    }}
}}
"""


def result_codes():
    members = [(variant(code["name"], "E_"), code["name"], code["number"], code["summary"])
               for code in DESCRIPTION["result_codes"] if code["number"] != 0]
    said = [(*member, over_library.summary_of(summary, "[`Cause::DiskFailed`](crate::Cause::DiskFailed)"))
            for *member, summary in members]
    return enum("ResultCode", "A result code of the standard (ErrorCode) by which a control refuses a call.", said) \
        + "\n" + texts("ResultCode", members)


def extended_codes():
    listed = DESCRIPTION["extended_codes"]
    members = [(extended_variant(code["name"]), code["name"], code["number"], code["summary"]) for code in listed]
    # Two codes have the same number, so the variants have none.
    body = "".join(doc([f"{name}: {lowered(said)}"], 4) + f"    {rust},\n" for rust, name, _, said in members)
    of = arms((f"(Category::{category(code['category'])}, {code['number']})", f"Some(ExtendedCode::{rust})")
              for code, (rust, *_) in zip(listed, members))
    numbers = arms((f"ExtendedCode::{rust}", number) for rust, _, number, _ in members)
    names = arms((f"ExtendedCode::{rust}", f'"{name}"') for rust, name, _, _ in members)
    return f"""/// An extended code of the standard (ErrorCodeExtended), which comes with E_EXTENDED.
#[derive(Debug, Clone, Copy, PartialEq, Eq, Hash)]
#[non_exhaustive]
pub enum ExtendedCode {{
{body}}}

impl ExtendedCode {{
    /// Returns the number in the standard.
    pub fn number(self) -> u32 {{
        match self {{
{numbers}        }}
    }}

    /// Returns the code of a category by its number, if there is one.
    pub fn from_number(category: Category, number: u64) -> Option<ExtendedCode> {{
        match (category, number) {{
{of}            _ => None,
        }}
    }}

    /// Returns the name in the standard.
    pub fn name(self) -> &'static str {{
        match self {{
{names}        }}
    }}
}}

{texts("ExtendedCode", members)}"""


def words(name, what, members, method, marked=""):
    """An enum of words in lines. It is marked so if later versions may have more of them."""
    body = "".join(doc([said], 4) + f"    {rust},\n" for rust, _, said in members)
    words_of = arms((f"{name}::{rust}", f'"{word}"') for rust, word, _ in members)
    return f"""{doc([what])}#[derive(Debug, Clone, Copy, PartialEq, Eq, Hash)]
{marked}pub enum {name} {{
{body}}}

impl {name} {{
    {method}
        match self {{
{words_of}        }}
    }}
}}
"""


def library_constant(code):
    return f"    pub(crate) const {code['name'].removeprefix('KIJOLVAR_')}: u32 = {code['number']};\n"


def constant(member, group):
    """A constant of a group that is no enum."""
    said = lowered(member["summary"])
    return doc([f"{said[0].upper()}{said[1:]} (chapter {group['chapter']})"]) \
        + f"pub const {member['name']}: u64 = {member['number']};\n"


def standard():
    library = "".join(doc([code["summary"]], 4) + library_constant(code) for code in DESCRIPTION["library"]["codes"])
    out = [f"""//! The codes and constants of the standard. {WRITTEN}
use std::fmt;

/// The numbers of the library's exports.
#[allow(dead_code)]
pub(crate) mod library {{
    /// The version of the exports.
    pub(crate) const VERSION: u32 = {DESCRIPTION['library']['version']};
    /// The least bytes of a file for totals.
    pub(crate) const DISK_LENGTH: u64 = {DESCRIPTION['library']['disk_length']};
{library}}}
""", result_codes(), extended_codes()]
    word = "\n    pub fn word(self) -> &'static str {"
    members = [(category(found["name"]), found["word"], f"{found['summary']} {found['detail']}")
               for found in DESCRIPTION["categories"]]
    out.append(words("Category", "A category of devices.", members,
                     f"/// Returns the category's name in the standard and in profiles.{word}", "#[non_exhaustive]\n"))
    exclusive = " | ".join(f"Category::{category(found['name'])}"
                           for found in DESCRIPTION["categories"] if found["exclusive"])
    out.append(f"""impl Category {{
    /// Whether its devices are exclusive-use ones, which have to be claimed before they are enabled.
    pub fn is_exclusive(self) -> bool {{
        matches!(self, {exclusive})
    }}
}}
""")
    members = [(variant(reply["name"], "ER_"), reply["word"], f"{reply['name']}: {lowered(reply['summary'])}")
               for reply in DESCRIPTION["replies"]]
    out.append(words("ErrorReply", "A reply to an ErrorEvent (ErrorResponse).", members,
                     f"/// Returns the reply's word in lines of the text interface.{word}"))
    for group in DESCRIPTION["constants"]:
        if group["name"] in ENUMS:
            prefix = ENUMS[group["name"]]
            members = [(variant(member["name"], prefix), member["name"], member["number"], member["summary"])
                       for member in group["members"]]
            what = f"{group['summary'].removesuffix('.')} (chapter {group['chapter']})."
            out.append(enum(group["name"], what, members))
            if group["name"] in NUMBERS_OF:
                out.append(number_of(group["name"]))
        else:
            out += [constant(member, group) for member in group["members"] if member["number"] >= 0]
    return "\n".join(out)


# ---- properties

def parts():
    yield DESCRIPTION["common"] | {"name": None}
    yield from DESCRIPTION["categories"]


def properties():
    out = [f"""//! The properties of all categories. {WRITTEN}

/// A property of a control.
#[derive(Debug, Clone, Copy, PartialEq, Eq, Hash)]
#[non_exhaustive]
pub enum Property {{"""]
    listed = [(about, part["name"]) for part in parts() for about in part["properties"]]
    rust = {about["name"]: about["name"].replace("ID", "Id") for about, _ in listed}
    for about, owner in listed:
        said = f"{about['name']} of {owner or 'every category'}: {lowered(about['summary'])}"
        out.append(doc([said], 4) + f"    {rust[about['name']]},")
    names = arms((f"Property::{rust[about['name']]}", f'"{about["name"]}"') for about, _ in listed)
    kinds = arms((f"Property::{rust[about['name']]}", f"PropertyType::{KINDS[about['type']]}") for about, _ in listed)
    all_of = "".join(f"        Property::{rust[about['name']]},\n" for about, _ in listed)
    out.append(f"""}}

/// The type of a property.
#[derive(Debug, Clone, Copy, PartialEq, Eq, Hash)]
#[non_exhaustive]
pub enum PropertyType {{
    /// A number that isn't negative.
    Number,
    /// `true` or `false`.
    Truth,
    /// Bytes.
    Bytes,
}}

/// A property's value.
#[derive(Debug, Clone, PartialEq, Eq, Hash)]
#[non_exhaustive]
pub enum Value {{
    /// A number.
    Number(u64),
    /// `true` or `false`.
    Truth(bool),
    /// Bytes.
    Bytes(Vec<u8>),
}}

impl Property {{
    /// All properties.
    pub const ALL: [Property; {len(listed)}] = [
{all_of}    ];

    /// Returns the name in the standard.
    pub fn name(self) -> &'static str {{
        match self {{
{names}        }}
    }}

    /// Returns the type.
    pub fn type_of(self) -> PropertyType {{
        match self {{
{kinds}        }}
    }}

    /// Returns the property of a name, if there is one.
    pub fn from_name(name: &str) -> Option<Property> {{
        Property::ALL.into_iter().find(|property| property.name() == name)
    }}
}}
""")
    return "\n".join(out)


# ---- controls

def is_timeout(argument):
    return argument["name"] == "timeout"


def argument_type(argument):
    if argument["type"] == "number" and is_timeout(argument):
        return "Option<Duration>"
    if argument["type"] == "number":
        return argument["constants"] if argument["constants"] in ENUMS else "u64"
    return {"bytes": "impl AsRef<[u8]>", "truth": "bool", "device": "&str"}[argument["type"]]


def argument_word(argument):
    name = argument["name"]
    if argument["type"] == "number" and is_timeout(argument):
        return f".number(milliseconds({name}))"
    if argument["type"] == "number":
        return f".number({name}.number())" if argument["constants"] in ENUMS else f".number({name})"
    words_of = {"bytes": f".bytes({name}.as_ref())", "truth": f".truth({name})", "device": f".name({name})"}
    return words_of[argument["type"]]


# What a method returns, and how the answer is read; and likewise of a property.
RETURNED = {"none": ("()", "nothing"), "number": ("u64", "number"), "pair": ("(u64, u64)", "pair"),
            "bytes": ("Vec<u8>", "bytes")}
GOTTEN = {"number": ("u64", "number()"), "truth": ("bool", "truth()"), "bytes": ("Vec<u8>", "bytes()")}
SET = {"number": ("u64", "Value::Number(value)"), "truth": ("bool", "Value::Truth(value)")}


def method(about):
    lines = [f"{about['name']} ({about['chapter']}): {lowered(about['summary'])}"]
    if about["detail"]:
        lines += ["", about["detail"]]
    said = []
    for argument in about["arguments"]:
        forever = " `None` and [`Duration::MAX`] are without end." if is_timeout(argument) else ""
        ranged = "" if is_timeout(argument) or argument["constants"] in ENUMS else range_text(argument)
        summary = argument["summary"].split("; UPOS_FOREVER")[0].removesuffix(".") + "."
        said.append(f"- `{argument['name']}`: {lowered(summary)}{forever}{ranged}")
    for value in about["returns"]["values"]:
        said.append(f"- returns `{value['name']}`: {lowered(value['summary'])}")
    lines += ["", *said] if said else []
    lines += errors(about["errors"], about["takes_memory"])
    given = ["&self", *(f"{argument['name']}: {argument_type(argument)}" for argument in about["arguments"])]
    kind, reader = RETURNED[about["returns"]["type"]]
    head = f"    pub fn {about['snake']}(" + ", ".join(given) + f") -> Result<{kind}, Error> {{"
    if len(head) > WIDTH:
        head = f"    pub fn {about['snake']}(\n" + "".join(f"        {one},\n" for one in given)
        head += f"    ) -> Result<{kind}, Error> {{"
    words = [f".word(\"{about['word']}\")"] * (about["line"] == "call")
    words += [argument_word(argument) for argument in about["arguments"]]
    line = fitting(f"        let line = self.line(\"{about['line']}\")", words, ";")
    asked = f"self.ask(\"{about['name']}\", &line)?.{reader}()"
    if about["name"] == "open":
        asked = "self.open_on(device, &line)"
    elif about["name"] == "close":
        asked = "self.close_by(&line)"
    return f"""{doc(lines, 4)}{head}
{line}
        {asked}
    }}
"""


def getter(about):
    lines = [f"{about['name']} ({about['chapter']}): {lowered(about['summary'])}"]
    if about["detail"]:
        lines += ["", about["detail"]]
    lines += errors(about["errors"])
    rust = about["name"].replace("ID", "Id")
    if about["values"] in ENUMS:
        kind, reader = about["values"], f"constant({about['values']}::from_number)"
    else:
        kind, reader = GOTTEN[about["type"]]
    return f"""{doc(lines, 4)}    pub fn {about['snake']}(&self) -> Result<{kind}, Error> {{
        self.property(Property::{rust})?.{reader}
    }}
"""


def setter(about):
    lines = [f"Sets {about['name']} ({about['chapter']}): {lowered(about['summary'])}"]
    if about["values"] not in ENUMS and about["type"] == "number":
        lines[0] += range_text(about)
    lines += errors(about["set_errors"])
    rust = about["name"].replace("ID", "Id")
    if about["values"] in ENUMS:
        kind, value = about["values"], "Value::Number(value.number().into())"
    else:
        kind, value = SET[about["type"]]
    return f"""{doc(lines, 4)}    pub fn set_{about['snake']}(&self, value: {kind}) -> Result<(), Error> {{
        self.set(Property::{rust}, {value})
    }}
"""


def members(part):
    found = [method(about) for about in part["methods"]]
    for about in part["properties"]:
        found.append(getter(about))
        if about["writable"]:
            found.append(setter(about))
    return "\n".join(found)


def control(part):
    name, word = category(part["name"]), part["name"]
    maker = snake(name)
    use = f"till.{maker}(\"{DEVICES[word]}\")?.enabled()?"
    detail = part["detail"]
    chapter = f"Chapter {part['chapter']} of the standard."
    told = doc([part["summary"], "", *([detail, ""] if detail else []), chapter, "", "```",
                "# use kijolvar::{Till, Totals, BUILT_PROFILE};",
                "# let till = Till::open(BUILT_PROFILE, Totals::Memory)?;", f"let {part['snake']} = {use};",
                f"assert!({part['snake']}.device_enabled()?);", "# Ok::<(), kijolvar::Error>(())", "```"])
    enables = "Claims the device and enables the control." if part["exclusive"] else \
        "Enables the control. The device isn't claimed."
    claim = "        self.claim(Some(Duration::ZERO))?;\n" if part["exclusive"] else ""
    calls = "[`Control::claim`] and [`Control::set_device_enabled`]" if part["exclusive"] else \
        "[`Control::set_device_enabled`]"
    return f"""{told}pub struct {name}<'till> {{
    control: Control<'till>,
}}

impl<'till> {name}<'till> {{
    /// Makes a control, which is closed.
    ///
    /// # Errors
    ///
    /// [`Cause::Full`], [`Cause::NoMemory`].
    pub fn new(till: &'till Till) -> Result<{name}<'till>, Error> {{
        Ok({name} {{ control: Control::new(till, Category::{name}, None)? }})
    }}

    /// Makes a control, which is closed, with a name in lines of the text interface: 1 to 16 letters, digits or
    /// hyphens. Once it is dropped, you can make one of this category and name again.
    ///
    /// # Errors
    ///
    /// [`Cause::NameInUse`], [`Cause::Full`], [`Cause::NoMemory`], [`Cause::BadArgument`].
    pub fn named(till: &'till Till, name: &str) -> Result<{name}<'till>, Error> {{
        Ok({name} {{ control: Control::new(till, Category::{name}, Some(name))? }})
    }}

    /// Finds a control by its key, which stays open when this is dropped.
    ///
    /// # Errors
    ///
    /// [`Cause::OtherTill`], [`Cause::Discarded`].
    pub fn of(till: &'till Till, key: &Key<{name}<'static>>) -> Result<{name}<'till>, Error> {{
        Ok({name} {{ control: Control::of(till, Category::{name}, key)? }})
    }}

    /// Keeps the control open, and returns its key. [`Key::discard`] closes it.
    pub fn into_key(self) -> Key<{name}<'static>> {{
        self.control.into_key()
    }}

    /// {enables}
    ///
    /// # Errors
    ///
    /// As {calls}; then the control is closed, unless it has a key.
    pub fn enabled(self) -> Result<{name}<'till>, Error> {{
{claim}        self.set_device_enabled(true)?;
        Ok(self)
    }}

{members(part)}}}

impl<'till> Deref for {name}<'till> {{
    type Target = Control<'till>;

    fn deref(&self) -> &Control<'till> {{
        &self.control
    }}
}}

impl fmt::Debug for {name}<'_> {{
    fn fmt(&self, out: &mut fmt::Formatter<'_>) -> fmt::Result {{
        self.control.fmt(out)
    }}
}}
"""


def maker(part):
    name = category(part["name"])
    return f"""    /// Makes a control of {part['name']} and opens it on a device. [`{name}::enabled`] enables it.
    ///
    /// # Errors
    ///
    /// As [`Control::open`]; [`Cause::Full`], [`Cause::NoMemory`].
    pub fn {snake(name)}(&self, device: &str) -> Result<{name}<'_>, Error> {{
        let control = {name}::new(self)?;
        control.open(device)?;
        Ok(control)
    }}
"""


def enums_of(is_meant):
    """The enums of the arguments, and those of the properties that are meant."""
    values = {about["values"] for part in parts() for about in part["properties"] if is_meant(about)}
    arguments = [argument for part in parts() for about in part["methods"] for argument in about["arguments"]]
    return sorted((values | {argument["constants"] for argument in arguments}) & set(ENUMS))


def controls():
    makers = "\n".join(maker(part) for part in DESCRIPTION["categories"])
    names = enums_of(lambda about: True)
    return f"""//! The controls of the categories, with their methods and properties.
//! {WRITTEN}
use crate::control::{{Control, Key}};
#[cfg(doc)]
use crate::error::Cause;
use crate::error::Error;
use crate::line::GREATEST;
use crate::property::{{Property, Value}};
use crate::standard::{{
    Category, {', '.join(names)},
}};
#[cfg(doc)]
use crate::standard::{{ExtendedCode, ResultCode}};
use crate::till::Till;
use std::fmt;
use std::ops::Deref;
use std::time::Duration;

/// The milliseconds of a timeout, of which -1 is without end. One that is too long for a line is without end, too.
fn milliseconds(timeout: Option<Duration>) -> i64 {{
    let time = timeout.and_then(|time| i64::try_from(time.as_millis()).ok());
    time.filter(|time| *time <= GREATEST).unwrap_or(-1)
}}

impl Till {{
{makers}}}

impl Control<'_> {{
{members(DESCRIPTION["common"])}}}

""" + "\n".join(control(part) for part in DESCRIPTION["categories"])


# ---- reasons

def reason_row(of, verb, name, code, reason):
    front = f'    ({f"Some(Category::{category(of)})" if of else "None"}, "{verb}", "{name}", "{code}",'
    text = textwrap.wrap(reason, WIDTH - 12, break_on_hyphens=False)
    return f'{front}\n     "' + " \\\n      ".join(text) + '"),\n'


def reasons():
    rows = list(over_library.reasons(DESCRIPTION))
    body = "".join(reason_row(*row) for row in rows)
    return f"""//! What a code means of one call. {WRITTEN}
use crate::standard::Category;

/// The category that has a call, if not all have it; the verb of the call's line; the name of the method or property;
/// the code's name; and why the call is refused.
type Row = (Option<Category>, &'static str, &'static str, &'static str, &'static str);

const ROWS: [Row; {len(rows)}] = [
{body}];

/// Why a control of a category refused a call with a code, if that means more than it does of any other call.
pub(crate) fn reason_of(category: Category, verb: &str, call: &str, code: &str) -> Option<&'static str> {{
    let is_meant = |row: &&Row| row.0.is_none_or(|of| of == category) && (row.1, row.2, row.3) == (verb, call, code);
    ROWS.iter().find(is_meant).map(|row| row.4)
}}
"""


# ---- the tables by which scripts are run

def run_word(argument, place):
    """How the word of a script becomes the argument, or nothing if it doesn't."""
    word = f"words[{place}]"
    if argument["type"] == "number" and is_timeout(argument):
        return f"timeout({word})?"
    if argument["type"] == "number":
        read = f"number({word})?"
        return f"{argument['constants']}::from_number({read})?" if argument["constants"] in ENUMS else read
    return {"bytes": f"bytes({word})?", "truth": f"truth({word})?", "device": f"device({word})?"}[argument["type"]]


SHOWN = {"none": "nothing", "number": "shown", "pair": "pair", "bytes": "bytes_shown"}


def run_method(about, owner):
    """An arm that makes the call."""
    given = ", ".join(run_word(argument, place) for place, argument in enumerate(about["arguments"]))
    call = f"{SHOWN[about['returns']['type']]}({owner}.{about['snake']}({given}))"
    left = f"(\"{about['word']}\", {len(about['arguments'])})"
    if len(f"            {call}") > WIDTH:
        call = f"{SHOWN[about['returns']['type']]}({owner}.{about['snake']}(\n"
        call += "".join(f"                {run_word(argument, place)},\n"
                        for place, argument in enumerate(about["arguments"])) + "            ))"
        return f"        {left} => {{\n            {call}\n        }}\n"
    return arm(left, call, 8)


def run_getter(about):
    shown = "bytes_shown" if about["type"] == "bytes" else "shown"
    call = f"control.{about['snake']}()" + (".map(|found| found.number())" if about["values"] in ENUMS else "")
    return f"        \"{about['name']}\" => {shown}({call}),\n"


def run_setter(about):
    word = "truth(word)?" if about["type"] == "truth" else \
        f"{about['values']}::from_number(number(word)?)?" if about["values"] in ENUMS else "number(word)?"
    return f"        \"{about['name']}\" => nothing(control.set_{about['snake']}({word})),\n"


def run_functions(part, owner, type_of):
    """The functions that run a category's methods and properties, or those of every category."""
    methods = "".join(run_method(about, "control") for about in part["methods"])
    getters = "".join(run_getter(about) for about in part["properties"])
    setters = "".join(run_setter(about) for about in part["properties"] if about["writable"])
    out = f"""/// Calls a method of {owner}: what is printed, or nothing if there is no typed call.
pub fn {type_of}_method(control: &{TYPES[type_of]}, word: &str, words: &[&str]) -> Option<Shown> {{
    Some(match (word, words.len()) {{
{methods}        _ => return None,
    }})
}}

/// Reads a property of {owner}.
pub fn {type_of}_get(control: &{TYPES[type_of]}, name: &str) -> Option<Shown> {{
    Some(match name {{
{getters}        _ => return None,
    }})
}}
"""
    if setters:
        out += f"""
/// Sets a property of {owner}.
pub fn {type_of}_set(control: &{TYPES[type_of]}, name: &str, word: &str) -> Option<Shown> {{
    Some(match name {{
{setters}        _ => return None,
    }})
}}
"""
    return out


TYPES = {"common": "Control", "drawer": "CashDrawer", "scanner": "Scanner", "display": "LineDisplay",
         "printer": "PosPrinter", "totals": "HardTotals"}


def run_tables():
    names = enums_of(lambda about: about["writable"])
    out = [f"""//! The methods and properties by their words in scripts. {WRITTEN}
use crate::words::{{bytes, bytes_shown, device, nothing, number, pair, shown, timeout, truth, Shown}};
use kijolvar::standard::{{{', '.join(names)}}};
use kijolvar::{{CashDrawer, Control, HardTotals, LineDisplay, PosPrinter, Scanner}};
"""]
    out.append(run_functions(DESCRIPTION["common"], "every category", "common"))
    out += [run_functions(part, part["name"], part["snake"]) for part in DESCRIPTION["categories"]]
    return "\n".join(out)


def main():
    if sys.argv[1:] not in ([], ["--check"]):
        sys.exit(__doc__)
    stale = []
    crate = "abi/rust/kijolvar/src"
    for name, text in [(f"{crate}/standard.rs", standard()), (f"{crate}/property.rs", properties()),
                       (f"{crate}/controls.rs", controls()), (f"{crate}/reasons.rs", reasons()),
                       ("tests/typed/rust/src/calls.rs", run_tables())]:
        path = TOP / name
        if not sys.argv[1:]:
            path.parent.mkdir(parents=True, exist_ok=True)
            path.write_text(text)
        elif not path.exists() or path.read_text() != text:
            stale.append(name)
    if stale:
        sys.exit(f"typed_rust.py: run abi/typed_rust.py, since these have other things: {', '.join(stale)}")


main()
