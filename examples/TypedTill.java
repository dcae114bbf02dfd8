import java.io.BufferedReader;
import java.io.BufferedWriter;
import java.io.IOException;
import java.io.UncheckedIOException;
import java.nio.charset.StandardCharsets;
import java.nio.file.Files;
import java.nio.file.Path;
import java.util.HexFormat;
import java.util.List;
import java.util.Locale;
import java.util.Optional;

/**
 * Rings up a sale with the program pos_console as a co-process: typed calls over its standard input and output. It
 * needs Java 17 and nothing else. Usage: java TypedTill.java PROGRAM FOLDER. The folder gets the profile and the
 * totals.
 */
public final class TypedTill {
    static final String PROFILE = """
            device = [
                { name = "drawer", category = "CashDrawer" },
                { name = "scanner", category = "Scanner" },
                { name = "display", category = "LineDisplay", rows = 2, columns = 20 },
                { name = "printer", category = "POSPrinter", chars = 20, lines = 2, near = 0 },
                { name = "totals", category = "HardTotals" },
            ]
            """;
    static final int EAN13 = 104, RECEIPT = 2, REC_EMPTY = 203, EXTENDED = 114, NOEXIST = 109;

    /** A call was refused, with a result code of the standard and, if that is E_EXTENDED, an extended code. */
    static final class UposException extends RuntimeException {
        final int code, extended;

        UposException(String line, int code, int extended) {
            super(line + ": " + code + (extended == 0 ? "" : " " + extended));
            this.code = code;
            this.extended = extended;
        }
    }

    /** An event: its name and its numbers. */
    record Event(String name, List<Long> numbers) {
        static Optional<Event> read(String answer) {
            if (answer.equals("none")) return Optional.empty();
            List<String> words = List.of(answer.split(" "));
            if (!words.get(0).equals("event")) throw new IllegalStateException("no event: " + answer);
            return Optional.of(new Event(words.get(1), words.stream().skip(2).map(Long::valueOf).toList()));
        }
    }

    /** The program, with a pipe to it and one from it. One thread at a time may use it. */
    static final class Till implements AutoCloseable {
        private final Process program;
        private final BufferedWriter lines;
        private final BufferedReader answers;
        private int controls = 0;

        Till(String program, Path profile, Path totals) throws IOException {
            this.program = new ProcessBuilder(program, "run", "--profile", profile.toString(), "--disk",
                    totals.toString()).redirectError(ProcessBuilder.Redirect.INHERIT).start();
            lines = this.program.outputWriter(StandardCharsets.US_ASCII);
            answers = this.program.inputReader(StandardCharsets.US_ASCII);
        }

        /** Carries out a line, and returns its answer. */
        String ask(String line) {
            try {
                lines.write(line + "\n");
                lines.flush();
                String answer = answers.readLine();
                if (answer == null) throw new IOException("the program ended with status " + program.waitFor());
                return answer;
            } catch (IOException fault) {
                throw new UncheckedIOException(fault);
            } catch (InterruptedException fault) {
                throw new IllegalStateException(fault);
            }
        }

        /** Carries out a line, and returns what is behind `ok`, or throws what is behind `err`. */
        String done(String line) {
            String answer = ask(line);
            if (answer.equals("ok")) return "";
            if (answer.startsWith("ok ")) return answer.substring(3);
            String[] words = answer.split(" ");
            if (!words[0].equals("err")) throw new IllegalStateException(line + ": " + answer);
            int extended = words.length > 2 ? Integer.parseInt(words[2]) : 0;
            throw new UposException(line, Integer.parseInt(words[1]), extended);
        }

        /** Opens a control on a device, claims the device if it is for exclusive use, and enables it. */
        Control start(String category, String device, boolean isExclusive) {
            String name = "c" + ++controls;
            done("new " + name + " " + category);
            Control control = new Control(this, name);
            done("open " + name + " " + device);
            if (isExclusive) done("claim " + name + " 0");
            control.set("DeviceEnabled", true);
            return control;
        }

        /** Ends the program, which syncs nothing more: each change of the totals is in the file when it is answered. */
        @Override
        public void close() throws IOException, InterruptedException {
            lines.close();
            if (program.waitFor() != 0) throw new IOException("the program ended with status " + program.exitValue());
        }
    }

    /** An argument as a line has it: a number, true or false as it is, and bytes in hex. Text must be ASCII. */
    static String word(Object argument) {
        if (argument instanceof String text) {
            if (!text.chars().allMatch(it -> it < 128)) throw new IllegalArgumentException("not ASCII: " + text);
            return word(text.getBytes(StandardCharsets.US_ASCII));
        }
        if (argument instanceof byte[] bytes) return bytes.length == 0 ? "-" : HexFormat.of().formatHex(bytes);
        return argument.toString();
    }

    static byte[] bytes(String word) {
        return word.equals("-") ? new byte[0] : HexFormat.of().parseHex(word);
    }

    /** A control. Its methods and properties have the standard's names. */
    record Control(Till till, String name) {
        String call(String method, Object... arguments) {
            StringBuilder line = new StringBuilder("call " + name + " " + method);
            for (Object argument : arguments) line.append(' ').append(word(argument));
            return till.done(line.toString());
        }

        void set(String property, Object value) {
            till.done("set " + name + " " + property + " " + value);
        }

        byte[] getBytes(String property) {
            return bytes(till.done("get " + name + " " + property));
        }

        /** Delivers the next event, or none. */
        Optional<Event> nextEvent() {
            return Event.read(till.ask("deliver " + name));
        }
    }

    static String row(String text, long cents) {
        return String.format(Locale.ROOT, "%-13s%4d.%02d", text, cents / 100, cents % 100);
    }

    /** The handle of a file of the totals, which is made of 8 zero bytes if it is missing. */
    static long handle(Control totals, String file) {
        try {
            return Long.parseLong(totals.call("find", file).split(" ")[0]);
        } catch (UposException fault) {
            if (fault.code != NOEXIST) throw fault;
            return Long.parseLong(totals.call("create", file, 8, false));
        }
    }

    /** Adds to a file of the totals, and returns what it holds then. */
    static long add(Control totals, long handle, long amount) {
        long sum = Long.parseLong(totals.call("read", handle, 0, 8), 16) + amount;
        totals.call("write", handle, 0, HexFormat.of().parseHex(String.format("%016x", sum)));
        return sum;
    }

    /** Adds the sale to the day's totals: to both files, or to none. */
    static void book(Control totals, long cents) {
        long sales = handle(totals, "SALES"), count = handle(totals, "COUNT");
        totals.call("beginTrans");
        long sum = add(totals, sales, cents), times = add(totals, count, 1);
        totals.call("commitTrans");
        System.out.println("totals: SALES " + sum + ", COUNT " + times);
    }

    static void sell(Till till) {
        Control scanner = till.start("Scanner", "scanner", true), display = till.start("LineDisplay", "display", true);
        Control printer = till.start("POSPrinter", "printer", true), drawer = till.start("CashDrawer", "drawer", false);
        Control totals = till.start("HardTotals", "totals", false);

        scanner.set("DecodeData", true);
        scanner.set("DataEventEnabled", true);
        till.done("input scanner scan " + EAN13 + " " + word("4006381") + " " + word("4006381"));
        scanner.nextEvent().ifPresent(event -> System.out.println("scanner: " + event.name() + " "
                + new String(scanner.getBytes("ScanDataLabel"), StandardCharsets.ISO_8859_1)));
        display.call("displayText", row("Bread", 450), 0);
        System.out.println("display: " + till.done("show display").split(" ")[0].length() / 2 + " cells");

        for (String line : List.of(row("Bread", 450), row("Total", 450), "Thank you")) {
            try {
                printer.call("printNormal", RECEIPT, line + "\n");
            } catch (UposException fault) {
                if (fault.code != EXTENDED || fault.extended != REC_EMPTY) throw fault;
                System.out.println("printer: " + fault.code + " " + fault.extended + ": paper is loaded");
                till.done("input printer paper 100");
                printer.call("printNormal", RECEIPT, line + "\n");
            }
        }
        drawer.call("openDrawer");
        for (Optional<Event> event = drawer.nextEvent(); event.isPresent(); event = drawer.nextEvent())
            System.out.println("drawer: " + event.get().name() + " " + event.get().numbers().get(0));
        book(totals, 450);
    }

    public static void main(String[] words) throws Exception {
        Path profile = Path.of(words[1], "profile.toml"), file = Path.of(words[1], "totals");
        Files.writeString(profile, PROFILE);
        if (!Files.exists(file)
                && new ProcessBuilder(words[0], "format", "--disk", file.toString()).inheritIO().start().waitFor() != 0)
            throw new IOException("the file of totals can't be formatted");
        try (Till till = new Till(words[0], profile, file)) {
            sell(till);
        }
    }
}
