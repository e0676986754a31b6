//! Scrubs images of pages in place: each argument is the path of an image file. It is checked, scrubbed and written back, and one
//! line says what happened. The exit status is 0 where all were scrubbed and written, and 1 where one was not.
//!
//! Built by
//!     rustc --edition 2021 -O -L native=crates/host/out -l static=host -o scrub hosts/rust/main.rs

use std::env;
use std::fmt;
use std::fs;
use std::process::ExitCode;

/// The two functions as safe ones, over slices.
mod almp {
    /// As `include/almp.h` declares them.
    mod c {
        extern "C" {
            pub fn almp_check(image: *const u8, size: usize) -> u64;
            pub fn almp_scrub(image: *mut u8, size: usize) -> u64;
        }
    }

    /// Why a call was refused: its number, and two places, 0 where none is named.
    #[derive(Clone, Copy, PartialEq, Eq, Debug)]
    pub struct Refusal {
        pub number: u32,
        pub first: u16,
        pub second: u16,
    }

    /// Takes an answer apart: what was counted, or the refusal.
    fn outcome(answer: u64) -> Result<u32, Refusal> {
        let number = (answer >> 32) as u32;
        if number == 0 {
            return Ok(answer as u32);
        }
        Err(Refusal {
            number,
            first: (answer >> 16) as u16,
            second: answer as u16,
        })
    }

    /// Whether the bytes are an image.
    pub fn check(image: &[u8]) -> Result<(), Refusal> {
        // SAFETY: a slice's pointer is not null, and its bytes are not written while it is borrowed.
        outcome(unsafe { c::almp_check(image.as_ptr(), image.len()) }).map(|_| ())
    }

    /// Scrubs the page whose image the bytes are: by how many levels its cells had risen. Where it is refused, no byte has moved.
    pub fn scrub(image: &mut [u8]) -> Result<u32, Refusal> {
        // SAFETY: a slice's pointer is not null, and nothing else uses its bytes while it is borrowed for writing.
        outcome(unsafe { c::almp_scrub(image.as_mut_ptr(), image.len()) })
    }
}

/// What block 0 names wrongly, by the first place of refusal 34.
fn part_of_header(place: u16) -> &'static str {
    match place {
        1 => "kind",
        2 => "columns",
        3 => "check columns",
        4 => "rows",
        5 => "heights",
        6 => "drift bound",
        _ => "page",
    }
}

/// A refusal in words.
struct InWords(almp::Refusal);

impl fmt::Display for InWords {
    fn fmt(&self, f: &mut fmt::Formatter) -> fmt::Result {
        let almp::Refusal { number, first, second } = self.0;
        write!(f, "refused {number} {first} {second}: ")?;
        match number {
            21 => write!(f, "the cell at row {first} and column {second} reads no level"),
            22 => write!(f, "no code row is close enough to row {first}"),
            23 => write!(f, "the cell at row {first} and column {second} has risen by more than the drift bound"),
            24 => write!(f, "the cell at row {first} and column {second} has drifted by more than it reads"),
            31 => write!(f, "the size is no multiple of 512 bytes, below 1024 or above 17408"),
            32 => write!(f, "the check of block {first} is wrong"),
            33 => write!(f, "byte {second}, of the first word or the edition, is wrong"),
            34 => write!(f, "block 0 names no page, by its {}", part_of_header(first)),
            35 if second == 14 => write!(f, "more columns are marked than the page has checks"),
            35 => write!(f, "the marked column at byte {second} is no column, or not above the one before"),
            36 => write!(f, "the page takes {first} blocks, and the image has another number"),
            37 => write!(f, "filler is not 0, in block {first} at byte {second}"),
            _ => write!(f, "for a reason that this program does not know"),
        }
    }
}

/// Scrubs the image in a file and writes it back: by how many levels its cells had risen, or what went wrong.
fn scrub_file(path: &str) -> Result<u32, String> {
    let mut image = fs::read(path).map_err(|_| "cannot be read".to_string())?;
    let refused = |refusal| InWords(refusal).to_string();
    almp::check(&image).map_err(refused)?;
    let risen = almp::scrub(&mut image).map_err(refused)?;
    fs::write(path, &image).map_err(|_| "scrubbed, but cannot be written".to_string())?;
    Ok(risen)
}

fn main() -> ExitCode {
    let paths: Vec<String> = env::args().skip(1).collect();
    if paths.is_empty() {
        eprintln!("usage: scrub FILE..");
        return ExitCode::FAILURE;
    }
    let mut status = ExitCode::SUCCESS;
    for path in paths {
        match scrub_file(&path) {
            Ok(risen) => println!("{path}: scrubbed: {risen} levels had risen, and the image is written back"),
            Err(why) => {
                println!("{path}: {why}");
                status = ExitCode::FAILURE;
            }
        }
    }
    status
}
