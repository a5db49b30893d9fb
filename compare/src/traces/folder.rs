//! The cases of the folder `traces/`: for each NAME.hex, the input, a NAME.out beside it with the whole expected output. What may
//! stand in the two is said in the folder's README.md.

use crate::traces::program::Pieces;
use crate::traces::tested::Tested;
use std::collections::BTreeMap;
use std::fs;
use std::path::{Path, PathBuf};

#[derive(Debug)]
pub struct Case {
    pub name: String,
    pub input: Vec<u8>,
    pub wanted: String,
}

/// All cases, the shortest first: what is wrong shows early.
pub fn cases() -> Result<Vec<Case>, String> {
    cases_of(&Path::new(env!("CARGO_MANIFEST_DIR")).join("traces"))
}

fn cases_of(folder: &Path) -> Result<Vec<Case>, String> {
    let (mut inputs, mut outputs) = (BTreeMap::new(), BTreeMap::new());
    for file in files(folder)? {
        let name = file.file_stem().unwrap_or_default().to_string_lossy().into_owned();
        match file.extension().and_then(|ending| ending.to_str()) {
            Some("hex") => inputs.insert(name, file),
            Some("out") => outputs.insert(name, file),
            Some("md") => None,
            _ => return Err(format!("{}: a case has the endings .hex and .out", file.display())),
        };
    }
    let mut cases = Vec::new();
    for (name, hex) in inputs {
        let out = outputs.remove(&name).ok_or_else(|| format!("{name}.hex has no {name}.out beside it"))?;
        let input = bytes_of(&text(&hex)?).map_err(|wrong| format!("{name}.hex: {wrong}"))?;
        let wanted = lines_of(&text(&out)?).map_err(|wrong| format!("{name}.out: {wrong}"))?;
        cases.push(Case { name, input, wanted });
    }
    if let Some((name, _)) = outputs.first_key_value() {
        return Err(format!("{name}.out has no {name}.hex beside it"));
    }
    if cases.is_empty() {
        return Err(format!("there is no case in {}", folder.display()));
    }
    cases.sort_by_key(|case| case.input.len());
    Ok(cases)
}

fn files(folder: &Path) -> Result<Vec<PathBuf>, String> {
    let said = |error| format!("{}: {error}", folder.display());
    fs::read_dir(folder).map_err(said)?.map(|entry| entry.map(|entry| entry.path()).map_err(said)).collect()
}

fn text(file: &Path) -> Result<String, String> {
    fs::read_to_string(file).map_err(|error| format!("{}: {error}", file.display()))
}

/// "N x REST" is N times the rest.
fn repeated(line: &str) -> Option<(u64, &str)> {
    let (many, rest) = line.split_once(" x ")?;
    Some((many.trim().parse().ok()?, rest))
}

/// Hex, with blanks and line ends where one likes, and comments behind #.
fn bytes_of(hex: &str) -> Result<Vec<u8>, String> {
    let mut bytes = Vec::new();
    for line in hex.lines() {
        let hex = line.split('#').next().unwrap_or_default();
        let (many, rest) = repeated(hex).unwrap_or((1, hex));
        let digits: Vec<u32> = rest
            .chars()
            .filter(|c| !c.is_whitespace())
            .map(|c| c.to_digit(16).ok_or_else(|| format!("\"{c}\" is no hex digit")))
            .collect::<Result<_, _>>()?;
        if !digits.len().is_multiple_of(2) {
            return Err(format!("half a byte in \"{line}\""));
        }
        let once: Vec<u8> = digits.chunks(2).map(|two| (16 * two[0] + two[1]) as u8).collect();
        (0..many).for_each(|_| bytes.extend(&once));
    }
    Ok(bytes)
}

/// Lines as they are. Of a repeated group the lines are parted by |; their places count on, and a number with + behind it grows by one
/// with each turn.
fn lines_of(out: &str) -> Result<String, String> {
    let mut lines = String::new();
    for line in out.lines() {
        let Some((many, group)) = repeated(line) else {
            lines += &format!("{line}\n");
            continue;
        };
        let group: Vec<&str> = group.split('|').map(str::trim).collect();
        for turn in 0..many {
            for line in &group {
                lines += &format!("{}\n", counted_on(line, turn, group.len() as u64)?);
            }
        }
    }
    Ok(lines)
}

fn counted_on(line: &str, turn: u64, group: u64) -> Result<String, String> {
    let number =
        |word: &str| word.parse::<u64>().map_err(|_| format!("\"{word}\" is no number in \"{line}\""));
    let mut words = Vec::new();
    for (at, word) in line.split(' ').enumerate() {
        words.push(match (at, word.strip_suffix('+')) {
            (0, _) => (number(word)? + turn * group).to_string(),
            (_, Some(grows)) => (number(grows)? + turn).to_string(),
            (_, None) => String::from(word),
        });
    }
    Ok(words.join(" "))
}

/// Above this many bytes a case is not fed byte by byte.
const MOST_BYTES_SINGLY: usize = 2_000;

/// Runs every case: its input whole, and byte by byte. True when each time the whole output was the expected one.
pub fn run(tested: &Tested, cases: &[Case]) -> bool {
    let mut failed = 0;
    for case in cases {
        let singly = case.input.len() <= MOST_BYTES_SINGLY;
        for pieces in [Pieces::Whole].into_iter().chain(singly.then_some(Pieces::Bytes)) {
            let what = match tested.printed(&case.input, pieces) {
                Ok(printed) => difference(&printed, &case.wanted),
                Err(why) => Some(why),
            };
            if let Some(what) = what {
                println!("{}, {pieces:?}: {what}", case.name);
                failed += 1;
            }
        }
    }
    println!("{} cases of traces/, {failed} differences", cases.len());
    failed == 0
}

/// Where two outputs differ first: the line's number, and the line of either.
pub fn difference(printed: &str, wanted: &str) -> Option<String> {
    if printed == wanted {
        return None;
    }
    let (mut left, mut right) = (printed.split_inclusive('\n'), wanted.split_inclusive('\n'));
    let mut at = 1;
    loop {
        match (left.next(), right.next()) {
            (a, b) if a == b && a.is_some() => at += 1,
            (a, b) => return Some(format!("line {at}: printed {a:?}, wanted {b:?}")),
        }
    }
}

#[cfg(test)]
mod tests {
    use super::*;

    #[test]
    fn forms_of_the_folder() {
        assert_eq!(bytes_of("01 0004 # open\n\n 2 x 0a F\tf\n"), Ok(vec![1, 0, 4, 10, 255, 10, 255]));
        assert!(bytes_of("01 2").is_err() && bytes_of("0g").is_err());
        assert_eq!(lines_of("1 open 0\n").as_deref(), Ok("1 open 0\n"));
        let group = "1 open 0\n2 x 2 create 0 7+ hard | 3 write 0 1\n6 cut 2\n";
        let wanted = "1 open 0\n2 create 0 7 hard\n3 write 0 1\n4 create 0 8 hard\n5 write 0 1\n6 cut 2\n";
        assert_eq!(lines_of(group).as_deref(), Ok(wanted));
        assert!(lines_of("2 x a 1").is_err());
    }

    #[test]
    fn a_difference_is_seen() {
        assert_eq!(difference("1 open 0\n", "1 open 0\n"), None);
        for printed in ["", "1 open 0", "1 open 0\n\n", "1 open 15\n", "1 open 0\n2 cut 0\n"] {
            assert!(difference(printed, "1 open 0\n").is_some(), "{printed:?}");
        }
    }

    #[test]
    fn a_case_without_its_pair_fails() {
        let folder = std::env::temp_dir().join(format!("traces-{}", std::process::id()));
        let put = |name: &str, text: &str| fs::write(folder.join(name), text).expect("a file of the test");
        fs::create_dir_all(&folder).expect("a folder for the test");
        let tried = |folder: &Path| cases_of(folder).map(|cases| cases.len());
        assert!(tried(&folder).is_err(), "an empty folder");
        put("a.hex", "");
        assert!(tried(&folder).is_err(), "no output");
        put("a.out", "1 bad 16\n");
        assert_eq!(tried(&folder), Ok(1));
        put("b.out", "1 bad 16\n");
        assert!(tried(&folder).is_err(), "no input");
        put("b.txt", "");
        assert!(tried(&folder).is_err(), "no case at all");
        assert!(cases_of(&folder.join("missing")).is_err());
        fs::remove_dir_all(&folder).expect("the test's folder");
    }
}
