//! A config set as a list of configs.

use crate::layout::{
    CONFIG_WORDS, CONFIGS_AT, DIPS, FULL_CONTEXT, HAS_SEMANTIC, READ_ONLY, SET_WORDS, narrow, wide,
};
use crate::sound_set::is_sound_set;

/// Where bit 31 of the provenance word begins.
const MARK: u32 = 1 << 31;

/// The six words of a config, in their order.
#[derive(Clone, Copy, Debug, Eq, PartialEq)]
pub struct Config {
    pub state: u32,
    pub alternative: u32,
    pub context: u32,
    pub semantic: u32,
    pub reach: u32,
    pub provenance: u32,
}

/// State, alternative, semantic id and provenance id.
pub type Key = (u32, u32, u32, u32);

impl Config {
    pub fn of([state, alternative, context, semantic, reach, provenance]: [u32; CONFIG_WORDS]) -> Self {
        Config { state, alternative, context, semantic, reach, provenance }
    }

    pub fn words(&self) -> [u32; CONFIG_WORDS] {
        [self.state, self.alternative, self.context, self.semantic, self.reach, self.provenance]
    }

    /// "In the provenance word bit 31 is the precedence-filter mark and the lower 31 bits the id."
    pub fn id(&self) -> u32 {
        self.provenance % MARK
    }

    pub fn marked(&self) -> bool {
        self.provenance >= MARK
    }

    /// "The key is state, alternative, semantic id and lower 31 provenance bits."
    pub fn key(&self) -> Key {
        (self.state, self.alternative, self.semantic, self.id())
    }

    /// "Reach becomes the larger, bit 31 the OR of both", over the merged context.
    pub fn joined(&self, other: &Config, context: u32) -> Self {
        let mark = if self.marked() || other.marked() { MARK } else { 0 };
        Config { context, reach: self.reach.max(other.reach), provenance: self.id() + mark, ..*self }
    }
}

/// Configs in order of insertion, and the two flags that they do not decide.
#[derive(Clone, Debug, Eq, PartialEq)]
pub struct ConfigSet {
    pub configs: Vec<Config>,
    pub full_context: bool,
    pub read_only: bool,
}

/// The config at a place of a set's words.
pub(crate) fn config_at(words: &[u32], place: usize) -> Config {
    let at = CONFIGS_AT + CONFIG_WORDS * place;
    Config::of(std::array::from_fn(|offset| words[at + offset]))
}

impl ConfigSet {
    pub fn fresh(full_context: bool) -> Self {
        ConfigSet { configs: Vec::new(), full_context, read_only: false }
    }

    /// The set in these words, if they are sound beside a store of so many contexts.
    pub fn decode(words: &[u32], contexts: usize) -> Option<Self> {
        is_sound_set(words, contexts).then(|| ConfigSet {
            configs: (0..wide(words[0])).map(|place| config_at(words, place)).collect(),
            full_context: words[1] & FULL_CONTEXT != 0,
            read_only: words[1] & READ_ONLY != 0,
        })
    }

    /// Where the config of a key stands.
    pub fn place(&self, key: Key) -> Option<usize> {
        self.configs.iter().position(|config| config.key() == key)
    }

    /// "Flag 2 exactly if some semantic id is not 0, flag 4 exactly if some reach is above 0."
    pub fn flags(&self) -> u32 {
        let has_semantic = self.configs.iter().any(|config| config.semantic != 0);
        let dips = self.configs.iter().any(|config| config.reach > 0);
        let flags = [
            (self.full_context, FULL_CONTEXT),
            (has_semantic, HAS_SEMANTIC),
            (dips, DIPS),
            (self.read_only, READ_ONLY),
        ];
        flags.iter().map(|&(set, flag)| if set { flag } else { 0 }).sum()
    }

    /// The words of a set of at most 256 configs.
    pub fn words(&self) -> Vec<u32> {
        let mut words = vec![narrow(self.configs.len()), self.flags()];
        words.extend(self.configs.iter().flat_map(Config::words));
        assert!(words.len() <= SET_WORDS, "a set has at most 256 configs");
        words.resize(SET_WORDS, 0);
        words
    }
}
