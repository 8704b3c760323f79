//! A recorded sample: scripts with the oracle's answers, in one plain binary file.
//!
//! For each script: its length (u32), its bytes, the length of its answer (u32), the answer's bytes; all
//! little-endian, one after the other, to the end of the file.

use crate::generate;
use crate::record::Kinds;
use crate::run::run;

pub struct Plan {
    pub seed: u64,
    pub scripts: u64,
    pub kinds: Kinds,
    /// Bytes that the file may have; a script that no longer fits is left out.
    pub most_bytes: usize,
}

pub struct Sample {
    pub bytes: Vec<u8>,
    pub scripts: u64,
}

pub fn record(plan: &Plan) -> Sample {
    let mut sample = Sample { bytes: Vec::new(), scripts: 0 };
    for index in 0..plan.scripts {
        let script = generate::script(plan.seed, index, plan.kinds).script;
        let answer = run(&script, plan.kinds).lines;
        let size = 8 + script.len() + answer.len();
        if sample.bytes.len() + size <= plan.most_bytes {
            put(&mut sample.bytes, &script);
            put(&mut sample.bytes, &answer);
            sample.scripts += 1;
        }
    }
    sample
}

fn put(file: &mut Vec<u8>, bytes: &[u8]) {
    let length = u32::try_from(bytes.len()).expect("scripts and answers are short");
    file.extend(length.to_le_bytes());
    file.extend(bytes);
}
