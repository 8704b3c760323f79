//! Records of a script: their bytes, as document 01 lays them out.

/// How a merge or a set treats the empty stack.
#[derive(Clone, Copy, Debug, Eq, PartialEq)]
pub enum Mode {
    Full,
    Wildcard,
}

/// One well-formed record.
#[derive(Clone, Debug, Eq, PartialEq)]
pub enum Record {
    Singleton { parent: u32, state: u64 },
    Merge { left: u32, right: u32, mode: Mode },
    NewSet { mode: Mode },
    Add(Config),
    Stops(Vec<u32>),
    Verdict,
    Show { context: u32 },
    Close,
    Why,
}

/// The six words of a config, in the order of the record and of the set.
#[derive(Clone, Copy, Debug, Eq, PartialEq)]
pub struct Config {
    pub state: u32,
    pub alternative: u32,
    pub context: u32,
    pub semantic: u32,
    pub reach: u32,
    pub provenance: u32,
}

/// Which kinds of record are known; the others are unknown kinds, hence malformed.
#[derive(Clone, Copy, Debug, Eq, PartialEq)]
pub enum Kinds {
    /// Singleton, merge and show alone.
    Store,
    All,
}

impl Kinds {
    pub fn knows(self, kind: u16) -> bool {
        match self {
            Kinds::Store => matches!(kind, 1 | 2 | 7),
            Kinds::All => (1..=9).contains(&kind),
        }
    }
}

/// What stands at a place of a script.
#[derive(Debug, Eq, PartialEq)]
pub enum Step {
    /// A record, and where the next one starts.
    Record(Record, usize),
    End,
    Malformed,
}

/// Bytes that a script may have at most.
pub const MOST_BYTES: usize = 32_768;
/// Bytes of a record before its payload: length and kind.
pub const HEADER_BYTES: usize = 4;

/// Reads the record that starts at `at`.
pub fn next(script: &[u8], at: usize, kinds: Kinds) -> Step {
    let rest = &script[at..];
    if rest.is_empty() {
        return Step::End;
    }
    let Some((header, after)) = rest.split_first_chunk::<HEADER_BYTES>() else {
        return Step::Malformed;
    };
    let length = usize::from(u16::from_le_bytes([header[0], header[1]]));
    let kind = u16::from_le_bytes([header[2], header[3]]);
    let Some(payload) = after.get(..length) else {
        return Step::Malformed;
    };
    if !kinds.knows(kind) {
        return Step::Malformed;
    }
    match decode(kind, payload) {
        Some(record) => Step::Record(record, at + HEADER_BYTES + length),
        None => Step::Malformed,
    }
}

/// All well-formed records from the start, and the bytes from the first malformed one on.
pub fn split(script: &[u8], kinds: Kinds) -> (Vec<Record>, &[u8]) {
    let mut records = Vec::new();
    let mut at = 0;
    while let Step::Record(record, after) = next(script, at, kinds) {
        records.push(record);
        at = after;
    }
    (records, &script[at..])
}

fn decode(kind: u16, payload: &[u8]) -> Option<Record> {
    match (kind, payload.len()) {
        (1, 12) => Some(Record::Singleton {
            parent: word(payload, 0),
            state: u64::from(word(payload, 1)) | u64::from(word(payload, 2)) << 32,
        }),
        (2, 9) => {
            Some(Record::Merge { left: word(payload, 0), right: word(payload, 1), mode: mode(payload[8])? })
        }
        (3, 1) => Some(Record::NewSet { mode: mode(payload[0])? }),
        (4, 24) => Some(Record::Add(config(payload))),
        (5, length) if length % 4 == 0 => {
            Some(Record::Stops((0..length / 4).map(|i| word(payload, i)).collect()))
        }
        (6, 0) => Some(Record::Verdict),
        (7, 4) => Some(Record::Show { context: word(payload, 0) }),
        (8, 0) => Some(Record::Close),
        (9, 0) => Some(Record::Why),
        _ => None,
    }
}

fn config(payload: &[u8]) -> Config {
    Config {
        state: word(payload, 0),
        alternative: word(payload, 1),
        context: word(payload, 2),
        semantic: word(payload, 3),
        reach: word(payload, 4),
        provenance: word(payload, 5),
    }
}

fn word(payload: &[u8], index: usize) -> u32 {
    let at = 4 * index;
    u32::from_le_bytes([payload[at], payload[at + 1], payload[at + 2], payload[at + 3]])
}

fn mode(byte: u8) -> Option<Mode> {
    match byte {
        0 => Some(Mode::Full),
        1 => Some(Mode::Wildcard),
        _ => None,
    }
}

impl Record {
    pub fn kind(&self) -> u16 {
        match self {
            Record::Singleton { .. } => 1,
            Record::Merge { .. } => 2,
            Record::NewSet { .. } => 3,
            Record::Add(_) => 4,
            Record::Stops(_) => 5,
            Record::Verdict => 6,
            Record::Show { .. } => 7,
            Record::Close => 8,
            Record::Why => 9,
        }
    }

    /// Appends the record's bytes. A stop list has at most 16,383 states: its length is a u16.
    pub fn encode(&self, script: &mut Vec<u8>) {
        let payload = self.payload();
        let length = u16::try_from(payload.len()).expect("a payload is shorter than 65,536 bytes");
        script.extend(length.to_le_bytes());
        script.extend(self.kind().to_le_bytes());
        script.extend(payload);
    }

    fn payload(&self) -> Vec<u8> {
        match self {
            Record::Singleton { parent, state } => {
                [&parent.to_le_bytes()[..], &state.to_le_bytes()[..]].concat()
            }
            Record::Merge { left, right, mode } => {
                let mut payload = little_endian(&[*left, *right]);
                payload.push(mode.byte());
                payload
            }
            Record::NewSet { mode } => vec![mode.byte()],
            Record::Add(config) => little_endian(&config.words()),
            Record::Stops(states) => little_endian(states),
            Record::Verdict | Record::Close | Record::Why => Vec::new(),
            Record::Show { context } => little_endian(&[*context]),
        }
    }
}

impl Mode {
    pub fn byte(self) -> u8 {
        match self {
            Mode::Full => 0,
            Mode::Wildcard => 1,
        }
    }
}

impl Config {
    pub fn words(&self) -> [u32; 6] {
        [self.state, self.alternative, self.context, self.semantic, self.reach, self.provenance]
    }
}

fn little_endian(words: &[u32]) -> Vec<u8> {
    words.iter().flat_map(|word| word.to_le_bytes()).collect()
}

/// The bytes of a whole script.
pub fn encode_all(records: &[Record]) -> Vec<u8> {
    let mut script = Vec::new();
    for record in records {
        record.encode(&mut script);
    }
    script
}
