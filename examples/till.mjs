// Rings up a sale with the program pos_console as a co-process: calls over its standard input and output. It needs
// Node 18 or later and nothing else. Usage: node till.mjs PROGRAM FOLDER. The folder gets the profile and the totals.
import { execFileSync, spawn } from "node:child_process";
import { existsSync, writeFileSync } from "node:fs";
import { join } from "node:path";
import { createInterface } from "node:readline";

const PROFILE = `
device = [
    { name = "drawer", category = "CashDrawer" },
    { name = "scanner", category = "Scanner" },
    { name = "display", category = "LineDisplay", rows = 2, columns = 20 },
    { name = "printer", category = "POSPrinter", chars = 20, lines = 2, near = 0 },
    { name = "totals", category = "HardTotals" },
]
`;
const EAN13 = 104, RECEIPT = 2, REC_EMPTY = 203, EXTENDED = 114, NOEXIST = 109;

/** A call was refused, with a result code of the standard and, if that is E_EXTENDED, an extended code. */
class UposError extends Error {
  constructor(line, code, extended = 0) {
    super(`${line}: ${code}${extended ? ` ${extended}` : ""}`);
    this.code = code;
    this.extended = extended;
  }
}

/** An argument as a line has it: a text or bytes in hex, and a number or a truth value as it is. */
const word = (argument) => typeof argument === "string" || argument instanceof Uint8Array
  ? Buffer.from(argument, "latin1").toString("hex") || "-" : String(argument);

/** The program, with a pipe to it and one from it. Await each call before the next. */
class Till {
  #program; #answers; #controls = 0;

  constructor(program, profile, totals) {
    const words = ["run", "--profile", profile, "--disk", totals];
    this.#program = spawn(program, words, { stdio: ["pipe", "pipe", "inherit"] });
    this.#answers = createInterface({ input: this.#program.stdout })[Symbol.asyncIterator]();
    this.#program.stdin.on("error", () => {});
  }

  /** Carries out a line, and returns its answer. */
  async ask(line) {
    this.#program.stdin.write(`${line}\n`);
    const { value, done } = await this.#answers.next();
    if (done) throw new Error("the program has ended");
    return value;
  }

  /** Carries out a line, and returns what is behind `ok`, or throws what is behind `err`. */
  async done(line) {
    const [verdict, ...words] = (await this.ask(line)).split(" ");
    if (verdict === "ok") return words.join(" ");
    if (verdict === "err") throw new UposError(line, ...words.map(Number));
    throw new Error(`${line}: ${[verdict, ...words].join(" ")}`);
  }

  /** Opens a control on a device, claims the device if it is for exclusive use, and enables it. */
  async start(category, device, isExclusive) {
    const control = new Control(this, `c${++this.#controls}`);
    await this.done(`new ${control.name} ${category}`);
    await this.done(`open ${control.name} ${device}`);
    if (isExclusive) await this.done(`claim ${control.name} 0`);
    await control.set("DeviceEnabled", true);
    return control;
  }

  /** Ends the program. */
  close() {
    return new Promise((resolve, reject) => {
      this.#program.on("close", (status) => status === 0 ? resolve() : reject(new Error(`status ${status}`)));
      this.#program.stdin.end();
    });
  }
}

/** A control. Its methods and properties have the standard's names. */
class Control {
  constructor(till, name) {
    this.till = till;
    this.name = name;
  }

  call(method, ...words) {
    return this.till.done(["call", this.name, method, ...words.map(word)].join(" "));
  }

  set(property, value) {
    return this.till.done(`set ${this.name} ${property} ${value}`);
  }

  get(property) {
    return this.till.done(`get ${this.name} ${property}`);
  }

  /** Delivers the next event: its name and its numbers; or null. */
  async nextEvent() {
    const [verdict, name, ...numbers] = (await this.till.ask(`deliver ${this.name}`)).split(" ");
    return verdict === "event" ? { name, numbers: numbers.map(Number) } : null;
  }
}

const row = (text, cents) => text.padEnd(13) + (cents / 100).toFixed(2).padStart(7);

/** The handle of a file of the totals, which is made of 8 zero bytes if it is missing. */
async function handle(totals, file) {
  try {
    return (await totals.call("find", file)).split(" ")[0];
  } catch (fault) {
    if (fault.code !== NOEXIST) throw fault;
    return totals.call("create", file, 8, false);
  }
}

/** Adds to a file of the totals, and returns what it holds then. */
async function add(totals, file, amount) {
  const sum = Buffer.from(await totals.call("read", Number(file), 0, 8), "hex");
  sum.writeBigUInt64BE(sum.readBigUInt64BE() + BigInt(amount));
  await totals.call("write", Number(file), 0, sum);
  return sum.readBigUInt64BE();
}

async function sell(till) {
  const scanner = await till.start("Scanner", "scanner", true);
  const display = await till.start("LineDisplay", "display", true);
  const printer = await till.start("POSPrinter", "printer", true);
  const drawer = await till.start("CashDrawer", "drawer", false);
  const totals = await till.start("HardTotals", "totals", false);

  await scanner.set("DecodeData", true);
  await scanner.set("DataEventEnabled", true);
  await till.done(`input scanner scan ${EAN13} ${word("4006381")} ${word("4006381")}`);
  const event = await scanner.nextEvent();
  console.log(`scanner: ${event.name} ${Buffer.from(await scanner.get("ScanDataLabel"), "hex")}`);
  await display.call("displayText", row("Bread", 450), 0);
  console.log(`display: ${(await till.done("show display")).split(" ")[0].length / 2} cells`);

  for (const line of [row("Bread", 450), row("Total", 450), "Thank you"]) {
    try {
      await printer.call("printNormal", RECEIPT, `${line}\n`);
    } catch (fault) {
      if (fault.code !== EXTENDED || fault.extended !== REC_EMPTY) throw fault;
      console.log(`printer: ${fault.code} ${fault.extended}: paper is loaded`);
      await till.done("input printer paper 100");
      await printer.call("printNormal", RECEIPT, `${line}\n`);
    }
  }
  await drawer.call("openDrawer");
  for (let opened; (opened = await drawer.nextEvent()) !== null;)
    console.log(`drawer: ${opened.name} ${opened.numbers[0]}`);

  // The sale is added to both files, or to none.
  const [sales, count] = [await handle(totals, "SALES"), await handle(totals, "COUNT")];
  await totals.call("beginTrans");
  const [sum, times] = [await add(totals, sales, 450), await add(totals, count, 1)];
  await totals.call("commitTrans");
  console.log(`totals: SALES ${sum}, COUNT ${times}`);
}

const [program, folder] = process.argv.slice(2);
const profile = join(folder, "profile.toml"), file = join(folder, "totals");
writeFileSync(profile, PROFILE);
if (!existsSync(file)) execFileSync(program, ["format", "--disk", file]);
const till = new Till(program, profile, file);
try {
  await sell(till);
} finally {
  await till.close();
}
