//! salvages DIR [SEED COUNT]: writes inputs for the program `salvage` into DIR, each as NAME.in beside NAME.txt, what
//! the program must print, and NAME.rec, the recording that it must write; there is none where it must write none. They
//! are the tapes with names, one for every pattern of damaged copies among them, and COUNT random ones.

use std::path::Path;
use std::process::ExitCode;

use independent::inputs::Dice;
use independent::salvage::program;
use independent::tapes::{named, tape};

fn save(dir: &Path, name: &str, tape: &[u8]) -> std::io::Result<()> {
    let path = |kind: &str| dir.join(format!("{name}.{kind}"));
    let (text, recording) = program(tape);
    std::fs::write(path("in"), tape)?;
    std::fs::write(path("txt"), text)?;
    match recording {
        Some(recording) => std::fs::write(path("rec"), recording),
        None => Ok(()),
    }
}

fn save_all(dir: &Path, seed: u64, count: u64) -> std::io::Result<()> {
    for (name, tape) in named() {
        save(dir, &name, &tape)?;
    }
    for number in 0..count {
        save(dir, &format!("random-{number}"), &tape(&mut Dice::for_case(seed, number)))?;
    }
    Ok(())
}

fn main() -> ExitCode {
    let words: Vec<String> = std::env::args().skip(1).collect();
    let (dir, seed, count) = match words.as_slice() {
        [dir] => (dir, Ok(0), Ok(0)),
        [dir, seed, count] => (dir, seed.parse(), count.parse()),
        _ => return usage(),
    };
    let (Ok(seed), Ok(count)) = (seed, count) else { return usage() };
    match save_all(Path::new(dir), seed, count) {
        Ok(()) => ExitCode::SUCCESS,
        Err(why) => {
            eprintln!("{dir}: {why}");
            ExitCode::FAILURE
        }
    }
}

fn usage() -> ExitCode {
    eprintln!("usage: salvages DIR [SEED COUNT]");
    ExitCode::from(2)
}

#[cfg(test)]
mod tests {
    use independent::document::REPORT;
    use independent::salvage::program;
    use independent::tapes::named;

    /// What the program prints of the tape with this name, without its first line.
    fn printed(name: &str) -> String {
        let (_, tape) = named().into_iter().find(|(other, _)| other == name).unwrap();
        let text = program(&tape).0;
        text.strip_prefix("start bytes found changed\n").unwrap_or(&text).into()
    }

    #[test]
    fn names_are_told_apart() {
        let mut names: Vec<String> = named().into_iter().map(|(name, _)| name).collect();
        let count = names.len();
        names.sort();
        names.dedup();
        assert_eq!(names.len(), count);
    }

    #[test]
    fn the_printed_report() {
        assert_eq!(printed("example"), REPORT[1..].join("\n") + "\n");
        assert_eq!(printed("stored"), "0 137 span -\n137 2772 block -\n2909 2772 block 1,3\nend 2\n");
    }

    #[test]
    fn lengths_at_a_limit() {
        for name in ["empty", "bytes-89", "bytes-90", "bytes-2771", "no-block"] {
            assert_eq!(printed(name), "no block\n", "{name}");
        }
        assert_eq!(printed("bytes-2772"), "0 2772 block -\nend 1\n");
        assert_eq!(printed("bytes-2773"), "0 2772 block -\n2772 1 span -\nend 1\n");
        assert!(printed("bytes-65000").ends_with("end 5\n"));
        assert_eq!(printed("bytes-65001"), "too long\n");
        assert!(printed("full").ends_with("\n60984 2772 block -\nend 23\n"));
        assert!(printed("full-spans").ends_with("\n63917 7 span -\nend 23\n"));
    }

    /// The lower one wins; where it is unsound the higher one is found.
    #[test]
    fn two_readings_of_the_same_bytes() {
        assert_eq!(printed("lower-60"), "0 2772 block 1,2\n2772 60 span -\nend 1\n");
        assert_eq!(printed("lower-30"), "0 2772 block 1,3\n2772 30 span -\nend 1\n");
        assert_eq!(printed("higher-60"), "0 60 span -\n60 2772 block 2,3\nend 1\n");
        assert_eq!(printed("higher-30"), "0 30 span -\n30 2772 block 2,3\nend 1\n");
    }

    /// Both copies make a block; the first one decides how long it is.
    #[test]
    fn two_lengths_from_one_start() {
        assert_eq!(printed("shorter-first"), "0 2772 block 2,3\n2772 10 span -\nend 1\n");
        assert_eq!(printed("longer-first"), "0 2782 block 2,3\nend 1\n");
    }

    /// The first copy that is not ruined is used, and all that differ from it are changed.
    #[test]
    fn every_pattern_of_copies() {
        let changed = |name: &str| printed(name).lines().nth(1).unwrap_or("no block").to_string();
        for (name, line) in [
            ("copies-whole-whole-whole", "41 2772 block -"),
            ("copies-whole-ruined-whole", "41 2772 block 2"),
            ("copies-ruined-ruined-whole", "41 2772 block 1,2"),
            ("copies-other-whole-whole", "41 2772 block 2,3"),
            ("copies-whole-other-ruined", "41 2772 block 2,3"),
            ("copies-ruined-other-whole", "41 2772 block 1,3"),
            ("copies-ruined-ruined-ruined", "no block"),
            ("asks-more-1", "41 2772 block 1"),
            ("asks-more-3", "41 2772 block 3"),
        ] {
            assert_eq!(changed(name), line, "{name}");
        }
    }
}
