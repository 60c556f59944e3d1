// What a durable command costs beside the device's own work, on one file system.
use std::fs::OpenOptions;
use std::io::{BufRead, BufReader, Write};
use std::os::unix::fs::FileExt;
use std::path::{Path, PathBuf};
use std::process::{Command, Stdio};
use std::time::Instant;

const COMMANDS: usize = 2000;
const MANY: usize = 100_000;
const SLOTS: usize = 20_000;

// Where the first frame stands in a store of three tasks: behind the header, two checkpoint areas, and the segment's gate and number.
const HEADER: u64 = 41;
const AREA: u64 = 1485;
const FIRST_FRAME: u64 = HEADER + 2 * AREA + 9;

fn show(name: &str, mut micros: Vec<u128>) -> u128 {
    micros.sort_unstable();
    let p50 = micros[micros.len() / 2];
    let p99 = micros[micros.len() * 99 / 100];
    println!("{name:<28} p50 {p50:>7} us   p99 {p99:>7} us");
    p50
}

// The bare pattern: the bytes behind a gate, a sync, the gate, a sync.
fn bare(room: &Path) -> Vec<u128> {
    let path = room.join("bare");
    let file = OpenOptions::new().read(true).write(true).create(true).truncate(true).open(path).unwrap();
    for piece in 0..512 {
        file.write_all_at(&[0; 4096], 4096 * piece).unwrap();
    }
    file.sync_all().unwrap();
    let frame = [7; 22];
    (0..COMMANDS as u64)
        .map(|i| {
            let gate = FIRST_FRAME + 22 * i;
            let start = Instant::now();
            file.write_all_at(&frame, gate + 1).unwrap();
            file.sync_data().unwrap();
            file.write_all_at(&[0xC3], gate).unwrap();
            file.sync_data().unwrap();
            start.elapsed().as_micros()
        })
        .collect()
}

// A new store, and a script of so many slots.
fn new_store(pfx: &str, set: &Path, room: &Path, count: usize) -> (PathBuf, PathBuf) {
    let (store, script) = (room.join("store"), room.join("script.csv"));
    let _ = std::fs::remove_file(&store);
    std::fs::write(&script, format!("slot,,,{count},\n")).unwrap();
    let made = Command::new(pfx).arg("init").arg(set).arg(&store).stdout(Stdio::null()).status().unwrap();
    assert!(made.success());
    (store, script)
}

// The program over a new store: the time from one command's line to the next one's, and the store's length.
fn run(pfx: &str, set: &Path, room: &Path, count: usize) -> (Vec<u128>, u64) {
    let (store, script) = new_store(pfx, set, room, count);
    let length = std::fs::metadata(&store).unwrap().len();
    let mut child = Command::new(pfx).arg("run").arg(&store).arg(&script).args(["--workers", "0"]).stdout(Stdio::piped()).spawn().unwrap();
    let mut lines = BufReader::new(child.stdout.take().unwrap()).lines();
    let mut micros = Vec::new();
    let mut last: Option<Instant> = None;
    while let Some(Ok(line)) = lines.next() {
        let now = Instant::now();
        if line.contains(" ran ") {
            if let Some(before) = last {
                micros.push((now - before).as_micros());
            }
            last = Some(now);
        }
    }
    assert!(child.wait().unwrap().success());
    assert_eq!(micros.len(), count - 1);
    assert_eq!(std::fs::metadata(&store).unwrap().len(), length);
    (micros, length)
}

// Many commands, with segments of this length: what one costs, and what the slowest waited.
fn endless(pfx: &str, set: &str, room: &Path, segment: u32) -> f64 {
    let text = std::fs::read_to_string(set).unwrap();
    let path = room.join("set.toml");
    std::fs::write(&path, format!("segment = {segment}\n{text}")).unwrap();
    let (micros, length) = run(pfx, &path, room, MANY);
    let mean = micros.iter().sum::<u128>() as f64 / micros.len() as f64;
    let slowest = micros.iter().max().unwrap();
    println!("{MANY} commands, segments of {segment:>7}: {mean:>6.1} us each, the slowest {slowest:>6} us, the file {length} bytes before and after");
    mean
}

// The program over a new store with so many slots kept at once: how many slots a second, and what it prints.
fn batched(pfx: &str, set: &Path, room: &Path, count: usize, batch: usize) -> (f64, Vec<u8>) {
    let (store, script) = new_store(pfx, set, room, count);
    let start = Instant::now();
    let done = Command::new(pfx).arg("run").arg(&store).arg(&script).args(["--workers", "0", "--batch", &batch.to_string()]).output().unwrap();
    let seconds = start.elapsed().as_secs_f64();
    assert!(done.status.success());
    (count as f64 / seconds, done.stdout)
}

fn main() {
    let words: Vec<String> = std::env::args().collect();
    let (pfx, set, room) = (&words[1], &words[2], Path::new(&words[3]));
    let before = show("write, sync, write, sync", bare(room));
    let program = show("a command of pfx run", run(pfx, Path::new(set), room, COMMANDS).0);
    let after = show("write, sync, write, sync", bare(room));
    println!("ratio of the medians         {:.2}", 2.0 * program as f64 / (before + after) as f64);
    let least = endless(pfx, set, room, 4233);
    let most = endless(pfx, set, room, 16_777_216);
    println!("a turn and a checkpoint every 190 commands cost {:.1} us a command", least - most);
    let (alone, lines) = batched(pfx, Path::new(set), room, SLOTS, 1);
    for batch in [2, 4, 8, 16] {
        let (together, same) = batched(pfx, Path::new(set), room, SLOTS, batch);
        assert!(same == lines);
        println!("--batch {batch:<2} {together:>8.0} slots a second, alone {alone:.0}: {:.1} times", together / alone);
    }
    std::io::stdout().flush().unwrap();
}
