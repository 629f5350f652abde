// The appends of office_bench in stock Rust, and nothing else: threads write frames of SIZE bytes to files, and sync
// each frame twice, as a journal does: its bytes behind a gate byte, then the gate byte.
// Words: locks|bare FOLDER LEVELS COUNT SIZE, for 2^LEVELS threads that write COUNT frames each: to 32 files, each
// behind a Mutex, or each thread to a file of its own.
use std::fs::{File, OpenOptions};
use std::io::Result;
use std::os::unix::fs::FileExt;
use std::path::Path;
use std::sync::Mutex;
use std::{env, process, thread};

struct Journal {
    file: File,
    place: u64,
}

impl Journal {
    fn open(folder: &str, number: usize) -> Result<Journal> {
        let path = Path::new(folder).join(format!("peer{number}"));
        let file = OpenOptions::new().read(true).write(true).create(true).truncate(true).open(path)?;
        file.write_all_at(&[1, 0], 0)?;
        file.sync_data()?;
        Ok(Journal { file, place: 1 })
    }

    fn append(&mut self, bytes: &[u8]) -> Result<()> {
        self.file.write_all_at(bytes, self.place + 1)?;
        self.file.sync_data()?;
        self.file.write_all_at(&[1], self.place)?;
        self.file.sync_data()?;
        self.place += bytes.len() as u64;
        Ok(())
    }
}

// As a bill's name does, a number picks one of the sixteen files of a platform; every fifth frame is the other's.
fn file_of(number: u64) -> usize {
    let platform = usize::from(number % 5 == 4) * 16;
    platform + ((number / 5).wrapping_mul(0x9E37_79B9_7F4A_7C15) >> 60) as usize
}

fn run(words: &[String]) -> Result<()> {
    let [word, folder, levels, count, size] = words else { process::exit(2) };
    let number = |word: &String| word.parse::<u64>().unwrap_or_else(|_| process::exit(2));
    let (threads, count, bytes) = (1u64 << number(levels), number(count), vec![7u8; number(size) as usize]);
    let bare = word == "bare";
    let files = if bare { threads as usize } else { 32 };
    let journals: Vec<_> = (0..files).map(|at| Journal::open(folder, at).map(Mutex::new)).collect::<Result<_>>()?;
    thread::scope(|scope| {
        let working: Vec<_> = (0..threads)
            .map(|first| {
                let (journals, bytes) = (&journals, &bytes);
                scope.spawn(move || {
                    for at in 0..count {
                        let which = if bare { first as usize } else { file_of(first * count + at) };
                        journals[which].lock().unwrap().append(bytes)?;
                    }
                    Ok(())
                })
            })
            .collect();
        working.into_iter().try_for_each(|thread| thread.join().unwrap())
    })
}

fn main() -> Result<()> {
    let words: Vec<String> = env::args().skip(1).collect();
    run(&words)
}
