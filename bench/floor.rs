// The bare floor of bench/file.sh: the two writes and two syncs of so many changes of Hard Totals, and nothing else.
// Each change goes to the log behind the image: its record without the gate, and the closed gate of the next one behind
// it, then its gate, with a sync after each. Where the log is at its end it begins again. It prints the seconds that
// the changes took.
use std::fs::File;
use std::os::unix::fs::FileExt;
use std::time::Instant;

const LOG: u64 = 16_384;
const END: u64 = 32_768;
const OPEN: u8 = 0xA5;

fn main() -> std::io::Result<()> {
    let words: Vec<String> = std::env::args().collect();
    let changes: u64 = words[2].parse().unwrap();
    let length: u64 = words[3].parse().unwrap();
    let file = File::options().read(true).write(true).create(true).open(&words[1])?;
    file.set_len(327_680)?;
    file.sync_all()?;
    let mut record = vec![0; length as usize + 5];
    let mut at = LOG;
    let start = Instant::now();
    for change in 0..changes {
        if at + 6 + length > END {
            at = LOG;
        }
        record[..4].copy_from_slice(&(length as u32).to_be_bytes());
        record[4..12].copy_from_slice(&change.to_be_bytes());
        file.write_at(&record, at + 1)?;
        file.sync_all()?;
        file.write_at(&[OPEN], at)?;
        file.sync_all()?;
        at += 5 + length;
    }
    println!("{}", start.elapsed().as_secs_f64());
    Ok(())
}
