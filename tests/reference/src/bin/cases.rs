//! Writes the stream of records that `tests/c/compared.c` reads.
//!
//!     cases FIRST COUNT    the texts of so many seeds, from the first one on
//!     cases text SEED      the text of a seed, as it is
//!     cases longest        a text of the greatest length, and a longer one
//!     cases kinds          the names of what can be altered, a line each
//!     cases altered        for each of them a record that must be complained of
//!     cases far            a record with a stray change far from what is lent
//!     cases forbidden      a record with a touch of a forbidden page
//!
//! and the one that `tests/c/codes_compared.c` reads.
//!
//!     cases taken          which codes are taken, of all that texts can have
//!     cases taken altered  two records of these that must be complained of

use reference::compared::alter::{alterations, Alteration, FAR, FORBIDDEN, NOT_TAKEN, TAKEN};
use reference::compared::record::{longest_texts, record_of_seed, text_of_seed};
use reference::compared::stream::Record;
use reference::compared::taken::taken_records;
use std::io::{self, BufWriter, Write};
use std::process::ExitCode;

/// The first seeds are searched for a record that can be altered so.
const SEARCHED: u64 = 20_000;

fn main() -> ExitCode {
    let words: Vec<String> = std::env::args().skip(1).collect();
    let words: Vec<&str> = words.iter().map(String::as_str).collect();
    let out = &mut BufWriter::with_capacity(1 << 16, io::stdout().lock());
    let written = match words[..] {
        ["longest"] => out.write_all(&longest_texts(0).finish()),
        ["kinds"] => alterations().iter().try_for_each(|one| writeln!(out, "{}", one.what)),
        ["altered"] => alterations().iter().try_for_each(|&one| out.write_all(&altered(one))),
        ["far"] => out.write_all(&altered(FAR)),
        ["forbidden"] => out.write_all(&altered(FORBIDDEN)),
        ["taken"] => taken_records(None).try_for_each(|one| out.write_all(&one.finish())),
        ["taken", "altered"] => {
            [TAKEN, NOT_TAKEN].iter().try_for_each(|&one| out.write_all(&taken_altered(one)))
        }
        ["text", seed] => match seed.parse() {
            Ok(seed) => out.write_all(&text_of_seed(seed)),
            _ => return usage(),
        },
        [first, count] => match (first.parse(), count.parse()) {
            (Ok(first), Ok(count)) => seeds(out, first, count),
            _ => return usage(),
        },
        _ => return usage(),
    };
    match written.and_then(|()| out.flush()) {
        Ok(()) => ExitCode::SUCCESS,
        Err(_) => ExitCode::FAILURE,
    }
}

fn usage() -> ExitCode {
    eprintln!(
        "cases FIRST COUNT | text SEED | longest | kinds | altered | far | forbidden | \
         taken [altered]"
    );
    ExitCode::from(2)
}

fn seeds(out: &mut impl Write, first: u64, count: u64) -> io::Result<()> {
    (0..count).try_for_each(|number| {
        out.write_all(&record_of_seed(first.wrapping_add(number), None).finish())
    })
}

/// The first record of a text in which this can be altered.
fn altered(alteration: Alteration) -> Vec<u8> {
    first_altered((0..SEARCHED).map(|seed| record_of_seed(seed, Some(alteration))))
}

/// The first record of codes in which this can be altered.
fn taken_altered(alteration: Alteration) -> Vec<u8> {
    first_altered(taken_records(Some(alteration)))
}

fn first_altered(mut records: impl Iterator<Item = Record>) -> Vec<u8> {
    records.find(|record| record.is_altered()).expect("a record to alter").finish()
}
