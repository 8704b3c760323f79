/* A clause that reads two ways: document 01's example through the C doors. Prints each answer; examples/c/clash.out has what is expected. */
#include <stdio.h>

#include "pursecricket.h"

static uint32_t store[PURSE_STORE_WORDS], set[PURSE_SET_WORDS], scratch[PURSE_SCRATCH_WORDS];
static uint32_t subsets[PURSE_SUBSET_WORDS], alternatives[PURSE_CONFLICT_WORDS];

static purse_counted_answer add(uint32_t state, uint32_t alternative, uint32_t context) {
    return purse_add(store, PURSE_STORE_WORDS, set, PURSE_SET_WORDS, scratch, PURSE_SCRATCH_WORDS, state, alternative, context, 0, 0, 0);
}

static uint32_t verdict(void) {
    return purse_has_sll_conflict_terminating_prediction(store, PURSE_STORE_WORDS, set, PURSE_SET_WORDS, scratch, PURSE_SCRATCH_WORDS, 0, 0).value;
}

int main(void) {
    purse_fresh(store, PURSE_STORE_WORDS);
    purse_fresh_set(set, PURSE_SET_WORDS, PURSE_FULL);

    purse_counted_answer over = purse_singleton(store, PURSE_STORE_WORDS, scratch, PURSE_SCRATCH_WORDS, 0, 42);
    purse_counted_answer both = purse_merge(store, PURSE_STORE_WORDS, scratch, PURSE_SCRATCH_WORDS, over.value, 0, PURSE_FULL);
    purse_answer size = purse_len(store, PURSE_STORE_WORDS, scratch, PURSE_SCRATCH_WORDS, both.value);
    purse_entry_answer state = purse_return_state(store, PURSE_STORE_WORDS, scratch, PURSE_SCRATCH_WORDS, both.value, 0);
    printf("42 over 0 is context %u; merged with 0 it is context %u, with %u entries, the first %llu; merges counted: %u\n", over.value, both.value,
           size.value, (unsigned long long)state.value, both.merges);
    purse_counted_answer found = purse_singleton(store, PURSE_STORE_WORDS, scratch, PURSE_SCRATCH_WORDS, 0, 42);
    printf("contexts made: %u and %u; asked for again, 42 over 0 is context %u, contexts made: %u\n", over.made, both.made, found.value, found.made);

    printf("state 7 with alternatives 1 and 2 in one context, inserted: %u", add(7, 1, over.value).value);
    printf(" %u", add(7, 2, over.value).value);
    printf("; verdict: %u\n", verdict());
    uint32_t refusal = purse_conflicting_alts(store, PURSE_STORE_WORDS, set, PURSE_SET_WORDS, scratch, PURSE_SCRATCH_WORDS, alternatives, PURSE_CONFLICT_WORDS);
    printf("refusal %u; %u conflicting alternatives: %u %u\n", refusal, alternatives[0], alternatives[1], alternatives[2]);
    purse_reason_answer why = purse_why(store, PURSE_STORE_WORDS, set, PURSE_SET_WORDS, scratch, PURSE_SCRATCH_WORDS, 0, 0, alternatives, PURSE_CONFLICT_WORDS);
    printf("why: %s in state %u and context %u, of %u alternatives: %u %u\n", why.reason == PURSE_CLASH ? "a clash" : "no clash", why.state, why.context,
           alternatives[0], alternatives[1], alternatives[2]);
    purse_counted_answer again = add(7, 2, both.value);
    printf("alternative 2 again, in a wider context, merged: %u, merges counted: %u, contexts made: %u", again.value, again.merges, again.made);
    printf("; verdict: %u\n", verdict());

    purse_entry_answer unique = purse_unique_alt(store, PURSE_STORE_WORDS, set, PURSE_SET_WORDS, scratch, PURSE_SCRATCH_WORDS);
    printf("one alternative for all: %s\n", unique.found ? "yes" : "none");

    purse_config list[] = {{7, 2, over.value, 0, 0, 0}, {9, 2, both.value, 0, 0, 0}};
    unique = purse_unique_alt_of(list, 2);
    printf("one for two configs of a list: %s, %llu\n", unique.found ? "yes" : "none", (unsigned long long)unique.value);

    purse_figures_answer all = purse_figures(store, PURSE_STORE_WORDS, set, PURSE_SET_WORDS, scratch, PURSE_SCRATCH_WORDS, 0, 0);
    printf("by one check: %u subsets, unique %s, viable %s, verdict %u\n", all.subsets, all.has_unique ? "yes" : "none", all.has_viable ? "yes" : "none", all.verdict);
    refusal = purse_conflicting_alt_subsets(store, PURSE_STORE_WORDS, set, PURSE_SET_WORDS, scratch, PURSE_SCRATCH_WORDS, subsets, PURSE_SUBSET_WORDS);
    printf("refusal %u; %u subsets, the second of state %u and context %u with alternative %u\n", refusal, subsets[0], subsets[5], subsets[6], subsets[8]);

    uint32_t closed = purse_close(store, PURSE_STORE_WORDS, set, PURSE_SET_WORDS, scratch, PURSE_SCRATCH_WORDS);
    printf("closed: %u; then adding is refused with %u\n", closed, add(8, 1, 0).refusal);
    printf("a state that no store holds is refused with %u\n",
           purse_singleton(store, PURSE_STORE_WORDS, scratch, PURSE_SCRATCH_WORDS, 0, 4294967295u).refusal);
    printf("a short scratch is refused with %u\n", purse_len(store, PURSE_STORE_WORDS, scratch, 5, 0).refusal);
    return 0;
}
