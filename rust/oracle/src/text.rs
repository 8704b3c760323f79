//! Scripts as text: one record a line, `#` starts a comment, numbers decimal or `0x` hexadecimal.
//!
//! ```text
//! singleton PARENT STATE                                   set full|wildcard     show CONTEXT
//! merge LEFT RIGHT full|wildcard                           stops STATE ..        verdict
//! add STATE ALTERNATIVE CONTEXT SEMANTIC REACH PROVENANCE  hex BYTES ..          close
//! why
//! ```

use std::fmt::{self, Write};

use crate::record::{self, Config, Kinds, Mode, Record};

/// A stop list's length in bytes is a u16 and a multiple of 4.
const MOST_WRITTEN_STOPS: usize = 16_383;
/// Bytes on one line of `hex`.
const HEX_LINE: usize = 32;

/// What is wrong with a text, and in which line.
#[derive(Debug, Eq, PartialEq)]
pub struct TextError {
    pub line: usize,
    pub message: String,
}

impl fmt::Display for TextError {
    fn fmt(&self, out: &mut fmt::Formatter<'_>) -> fmt::Result {
        write!(out, "line {}: {}", self.line, self.message)
    }
}

/// Whether a file is text. A binary script with a well-formed record has a byte 0, so it is not.
pub fn is_text(bytes: &[u8]) -> bool {
    let is_plain = |c: char| !c.is_control() || matches!(c, '\t' | '\r' | '\n');
    std::str::from_utf8(bytes).is_ok_and(|text| text.chars().all(is_plain))
}

/// The bytes of a script, given as text or already as bytes.
pub fn script_of(bytes: Vec<u8>) -> Result<Vec<u8>, TextError> {
    match std::str::from_utf8(&bytes) {
        Ok(text) if is_text(&bytes) => assemble(text),
        _ => Ok(bytes),
    }
}

/// Text to bytes.
pub fn assemble(text: &str) -> Result<Vec<u8>, TextError> {
    let mut script = Vec::new();
    for (index, line) in text.lines().enumerate() {
        let line_error = |message| TextError { line: index + 1, message };
        assemble_line(line, &mut script).map_err(line_error)?;
    }
    Ok(script)
}

fn assemble_line(line: &str, script: &mut Vec<u8>) -> Result<(), String> {
    let content = line.split('#').next().unwrap_or("");
    let mut words = content.split_whitespace();
    let Some(name) = words.next() else {
        return Ok(());
    };
    let mut operands = Operands { name, words };
    if name == "hex" {
        return operands.hex(script);
    }
    let record = read_record(&mut operands)?;
    operands.end()?;
    record.encode(script);
    Ok(())
}

fn read_record(operands: &mut Operands<'_>) -> Result<Record, String> {
    Ok(match operands.name {
        "singleton" => {
            Record::Singleton { parent: operands.word("PARENT")?, state: operands.number("STATE", u64::MAX)? }
        }
        "merge" => Record::Merge {
            left: operands.word("LEFT")?,
            right: operands.word("RIGHT")?,
            mode: operands.mode()?,
        },
        "set" => Record::NewSet { mode: operands.mode()? },
        "add" => Record::Add(Config {
            state: operands.word("STATE")?,
            alternative: operands.word("ALTERNATIVE")?,
            context: operands.word("CONTEXT")?,
            semantic: operands.word("SEMANTIC")?,
            reach: operands.word("REACH")?,
            provenance: operands.word("PROVENANCE")?,
        }),
        "stops" => Record::Stops(operands.stops()?),
        "verdict" => Record::Verdict,
        "show" => Record::Show { context: operands.word("CONTEXT")? },
        "close" => Record::Close,
        "why" => Record::Why,
        other => return Err(format!("unknown record '{other}'")),
    })
}

/// What follows a record's name on its line.
struct Operands<'a> {
    name: &'a str,
    words: std::str::SplitWhitespace<'a>,
}

impl<'a> Operands<'a> {
    fn next(&mut self, what: &str) -> Result<&'a str, String> {
        let missing = || format!("'{}' lacks its {what}", self.name);
        self.words.next().ok_or_else(missing)
    }

    fn end(&mut self) -> Result<(), String> {
        match self.words.next() {
            None => Ok(()),
            Some(extra) => Err(format!("'{extra}' is too much for '{}'", self.name)),
        }
    }

    fn number(&mut self, what: &str, most: u64) -> Result<u64, String> {
        let word = self.next(what)?;
        parse_number(word, most).map_err(|fault| format!("'{word}' {fault}"))
    }

    fn word(&mut self, what: &str) -> Result<u32, String> {
        let number = self.number(what, u64::from(u32::MAX))?;
        Ok(u32::try_from(number).expect("at most u32::MAX"))
    }

    fn mode(&mut self) -> Result<Mode, String> {
        match self.next("mode, full or wildcard")? {
            "full" => Ok(Mode::Full),
            "wildcard" => Ok(Mode::Wildcard),
            other => Err(format!("'{other}' is no mode: full or wildcard")),
        }
    }

    fn stops(&mut self) -> Result<Vec<u32>, String> {
        let mut states = Vec::new();
        for word in self.words.by_ref() {
            let number =
                parse_number(word, u64::from(u32::MAX)).map_err(|fault| format!("'{word}' {fault}"))?;
            if states.len() == MOST_WRITTEN_STOPS {
                return Err(format!("'{word}' is more than a record of 'stops' can hold"));
            }
            states.push(u32::try_from(number).expect("at most u32::MAX"));
        }
        Ok(states)
    }

    /// Raw bytes: words of two hexadecimal digits a byte.
    fn hex(&mut self, script: &mut Vec<u8>) -> Result<(), String> {
        for word in self.words.by_ref() {
            let digits: Option<Vec<u32>> = word.chars().map(|digit| digit.to_digit(16)).collect();
            match digits {
                Some(digits) if digits.len() % 2 == 0 => {
                    let byte = |pair: &[u32]| (pair[0] << 4 | pair[1]) as u8;
                    script.extend(digits.chunks(2).map(byte));
                }
                _ => return Err(format!("'{word}' is not whole bytes in hexadecimal")),
            }
        }
        Ok(())
    }
}

fn parse_number(word: &str, most: u64) -> Result<u64, String> {
    let (digits, radix) = match word.strip_prefix("0x").or_else(|| word.strip_prefix("0X")) {
        Some(digits) => (digits, 16),
        None => (word, 10),
    };
    if digits.is_empty() || !digits.chars().all(|digit| digit.is_digit(radix)) {
        return Err("is not a number".to_owned());
    }
    match u64::from_str_radix(digits, radix) {
        Ok(number) if number <= most => Ok(number),
        _ => Err(format!("is above {most}")),
    }
}

/// Bytes to text; from the first malformed record on, the bytes stand as `hex`.
pub fn disassemble(script: &[u8]) -> String {
    let (records, rest) = record::split(script, Kinds::All);
    let mut text = String::new();
    for record in &records {
        writeln!(text, "{record}").expect("writing to memory");
    }
    for bytes in rest.chunks(HEX_LINE) {
        let digits: Vec<String> = bytes.iter().map(|byte| format!("{byte:02X}")).collect();
        writeln!(text, "hex {}", digits.join(" ")).expect("writing to memory");
    }
    text
}

impl fmt::Display for Record {
    fn fmt(&self, out: &mut fmt::Formatter<'_>) -> fmt::Result {
        match self {
            Record::Singleton { parent, state } => write!(out, "singleton {parent} {state}"),
            Record::Merge { left, right, mode } => write!(out, "merge {left} {right} {mode}"),
            Record::NewSet { mode } => write!(out, "set {mode}"),
            Record::Add(config) => write_words(out, "add", &config.words()),
            Record::Stops(states) => write_words(out, "stops", states),
            Record::Verdict => write!(out, "verdict"),
            Record::Show { context } => write!(out, "show {context}"),
            Record::Close => write!(out, "close"),
            Record::Why => write!(out, "why"),
        }
    }
}

impl fmt::Display for Mode {
    fn fmt(&self, out: &mut fmt::Formatter<'_>) -> fmt::Result {
        out.write_str(match self {
            Mode::Full => "full",
            Mode::Wildcard => "wildcard",
        })
    }
}

fn write_words(out: &mut fmt::Formatter<'_>, name: &str, words: &[u32]) -> fmt::Result {
    write!(out, "{name}")?;
    words.iter().try_for_each(|word| write!(out, " {word}"))
}
