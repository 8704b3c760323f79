/* The doors of Pursecricket's static library (rt lib, in crates/purse, writes out/libpurse.a there).
   Every call is lent its words: a store is 5,634 of them, a scratch 16,384, a config set 1,538. Any contents are allowed; a refused call
   leaves store and set as they were and the scratch all 0, but for a wrong length, which leaves the scratch too. */
#ifndef PURSECRICKET_H
#define PURSECRICKET_H

#include <stddef.h>
#include <stdint.h>

enum {
    PURSE_STORE_WORDS = 5634,
    PURSE_SCRATCH_WORDS = 16384,
    PURSE_SET_WORDS = 1538,
    PURSE_SUBSET_WORDS = 1025,
    PURSE_CONFLICT_WORDS = 257,
    PURSE_MOST_STOPS = 64
};

/* Why a call was refused; 0 where it was not. */
enum purse_refusal {
    PURSE_ACCEPTED = 0,
    PURSE_UNSOUND_STORE = 1,
    PURSE_WRONG_LENGTH = 2,
    PURSE_UNSOUND_SET = 3,
    PURSE_UNKNOWN_CONTEXT = 4,
    PURSE_STATE_OUT_OF_RANGE = 5,
    PURSE_FULL_STORE = 6,
    PURSE_READ_ONLY_SET = 7,
    PURSE_FULL_SET = 8,
    PURSE_TOO_MANY_STOPS = 10,
    PURSE_TOO_MUCH_WORK = 12
};

/* Modes of merges and of sets: 0 is full-context, every other number by wildcard. */
enum purse_mode { PURSE_FULL = 0, PURSE_WILDCARD = 1 };

/* The return state of the empty stack. */
#define PURSE_EMPTY_STATE UINT64_MAX

/* A refusal's number; where that is 0, the value. */
typedef struct {
    uint32_t refusal;
    uint32_t value;
} purse_answer;

/* A refusal's number; where that is 0: the value; how many merges the call counted, each that is neither of equal contexts nor answered from the
   first 1,024 results of the call (more than 65,536 are refused); and how many contexts it made, the store's count after less the count before.
   On a refusal the other fields are 0. */
typedef struct {
    uint32_t refusal;
    uint32_t value;
    uint32_t merges;
    uint32_t made;
} purse_counted_answer;

/* A refusal's number; where that is 0, 1 and the value, or 0 where there is none. */
typedef struct {
    uint32_t refusal;
    uint32_t found;
    uint64_t value;
} purse_entry_answer;

/* A config, by its six words in their order. */
typedef struct {
    uint32_t state;
    uint32_t alternative;
    uint32_t context;
    uint32_t semantic;
    uint32_t reach;
    uint32_t provenance;
} purse_config;

/* A refusal's number; where that is 0, how many subsets, 1 and the unique alternative or 0 where there is none, the same of the viable one, and
   1 where the verdict is yes. */
typedef struct {
    uint32_t refusal;
    uint32_t subsets;
    uint32_t has_unique;
    uint32_t unique;
    uint32_t has_viable;
    uint32_t viable;
    uint32_t verdict;
} purse_figures_answer;

/* Why a verdict is what it is: the first of these that holds, in this order. Stop and clash go with yes, the others with no. */
enum purse_reason {
    PURSE_REFUSED = 0,
    PURSE_STOP = 1,  /* every config is at a stop, an empty set included */
    PURSE_NONE = 2,  /* no subset holds two alternatives */
    PURSE_ONE = 3,   /* a state has only one alternative: the first such state in set order */
    PURSE_CLASH = 4  /* the first subset that holds two alternatives or more */
};

/* A refusal's number; where that is 0, which reason, and what it names: the state of one or of a clash, the alternative of one, the context of a
   clash; 0 where it names none. */
typedef struct {
    uint32_t refusal;
    uint32_t reason;
    uint32_t state;
    uint32_t alternative;
    uint32_t context;
} purse_reason_answer;

/* Makes the words a store of context 0 alone; answers a refusal's number. */
uint32_t purse_fresh(uint32_t *store, size_t store_len);

/* The context of `state` on top of each stack of `parent`, made (1) or found (0); the empty state answers 0. It counts no merges. */
purse_counted_answer purse_singleton(uint32_t *store, size_t store_len, uint32_t *scratch, size_t scratch_len, uint32_t parent, uint64_t state);

/* The context of the merge of `left` and `right`, and how many contexts were made for it, those beneath it included. */
purse_counted_answer purse_merge(uint32_t *store, size_t store_len, uint32_t *scratch, size_t scratch_len, uint32_t left, uint32_t right,
                                 uint32_t mode);

/* How many entries a context has. */
purse_answer purse_len(const uint32_t *store, size_t store_len, uint32_t *scratch, size_t scratch_len, uint32_t context);

/* 1 if a context is exactly the set of the empty stack. */
purse_answer purse_is_empty(const uint32_t *store, size_t store_len, uint32_t *scratch, size_t scratch_len, uint32_t context);

/* 1 if the empty stack is one of a context's. */
purse_answer purse_has_empty_path(const uint32_t *store, size_t store_len, uint32_t *scratch, size_t scratch_len, uint32_t context);

/* The return state of an entry; the empty state for the empty stack, none past the end. */
purse_entry_answer purse_return_state(const uint32_t *store, size_t store_len, uint32_t *scratch, size_t scratch_len, uint32_t context, uint32_t index);

/* The parent of an entry; none past the end, and for context 0 at every index. */
purse_entry_answer purse_parent(const uint32_t *store, size_t store_len, uint32_t *scratch, size_t scratch_len, uint32_t context, uint32_t index);

/* Makes the words a config set without configs; answers a refusal's number. */
uint32_t purse_fresh_set(uint32_t *set, size_t set_len, uint32_t mode);

/* Adds a config, given by its six words: 1 where it was inserted, 0 where it was merged with the one that has its key. An inserted one counts no
   merges and makes no contexts. */
purse_counted_answer purse_add(uint32_t *store, size_t store_len, uint32_t *set, size_t set_len, uint32_t *scratch, size_t scratch_len,
                               uint32_t state, uint32_t alternative, uint32_t context, uint32_t semantic, uint32_t reach, uint32_t provenance);

/* Makes a set read-only; answers a refusal's number. */
uint32_t purse_close(const uint32_t *store, size_t store_len, uint32_t *set, size_t set_len, uint32_t *scratch, size_t scratch_len);

/* The alternative that every config has, if there is one. */
purse_entry_answer purse_unique_alt(const uint32_t *store, size_t store_len, const uint32_t *set, size_t set_len, uint32_t *scratch, size_t scratch_len);

/* The same of a list of configs, of any length; nothing is refused. */
purse_entry_answer purse_unique_alt_of(const purse_config *configs, size_t configs_len);

/* The alternative that is the smallest of every subset, if there is one. */
purse_entry_answer purse_single_viable_alt(const uint32_t *store, size_t store_len, const uint32_t *set, size_t set_len, uint32_t *scratch, size_t scratch_len);

/* 1 if every subset has two or more alternatives. */
purse_answer purse_all_subsets_conflict(const uint32_t *store, size_t store_len, const uint32_t *set, size_t set_len, uint32_t *scratch, size_t scratch_len);

/* 1 if all subsets have the same alternatives. */
purse_answer purse_all_subsets_equal(const uint32_t *store, size_t store_len, const uint32_t *set, size_t set_len, uint32_t *scratch, size_t scratch_len);

/* The verdict, with these stop states, 64 at most: 1 where the set settles the prediction. */
purse_answer purse_has_sll_conflict_terminating_prediction(const uint32_t *store, size_t store_len, const uint32_t *set, size_t set_len,
                                                           uint32_t *scratch, size_t scratch_len, const uint32_t *stops, size_t stops_len);

/* Writes the subsets over all 1,025 words: how many, then of each state, context, how many alternatives and these, rising; the rest 0. Answers a
   refusal's number, and leaves the words where that is not 0. */
uint32_t purse_conflicting_alt_subsets(const uint32_t *store, size_t store_len, const uint32_t *set, size_t set_len, uint32_t *scratch,
                                       size_t scratch_len, uint32_t *output, size_t output_len);

/* Writes the alternatives of the subsets with two or more over all 257 words: how many, then these, rising; the rest 0. Answers as above. */
uint32_t purse_conflicting_alts(const uint32_t *store, size_t store_len, const uint32_t *set, size_t set_len, uint32_t *scratch, size_t scratch_len,
                                uint32_t *output, size_t output_len);

/* How many subsets, unique and viable alternative and the verdict with these stop states, by one check of store and set. */
purse_figures_answer purse_figures(const uint32_t *store, size_t store_len, const uint32_t *set, size_t set_len, uint32_t *scratch,
                                   size_t scratch_len, const uint32_t *stops, size_t stops_len);

/* Why the verdict with these stop states is what it is. Writes the alternatives of a clash over all 257 words: how many, then these, rising; the
   rest 0, and all 0 where it is no clash. A refusal leaves the words. */
purse_reason_answer purse_why(const uint32_t *store, size_t store_len, const uint32_t *set, size_t set_len, uint32_t *scratch, size_t scratch_len,
                              const uint32_t *stops, size_t stops_len, uint32_t *output, size_t output_len);

#endif
