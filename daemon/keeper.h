/* The keeper of one link's entries in the database of a bridge. */
#ifndef KEEPER_H
#define KEEPER_H

#include "filter.h"
#include "link.h"
#include "mdb.h"
#include "rows.h"
#include "tunings.h"

#include <stdbool.h>
#include <stdint.h>

struct keeper {
    struct rows rows;
    uint64_t gathers;        /* the time until which inherited entries stay, or MQ_NONE */
    bool inherits_others;    /* also entries of the kernel, which are older than the link */
    struct tuned_port tuned; /* the port, for its static groups; `tunings` is NULL if it has none */
};

/* Allocates the rows for a link with at most `groups` groups, unless they are allocated. Returns false if that fails. */
bool keeper_open(struct keeper *keeper, size_t groups);
/* Forgets all entries. The kernel removes them, or they are removed already. */
void keeper_forget(struct keeper *keeper, const struct place *place);
/* Makes the present entries inherited: until `gathers`, none is removed or made narrower. The kernel's are inherited too if it learns
   no new ones. */
void keeper_begin(struct keeper *keeper, uint64_t gathers, bool inherits_others);
/* Makes the entry of a group forward what the link forwards, and what static groups say. */
void keeper_update(struct keeper *keeper, const mq_link *link, const struct place *place, const uint8_t *group);
/* Makes the entries of static groups that changed: `before` has the earlier ones. */
void keeper_change_statics(struct keeper *keeper, const mq_link *link, const struct place *place, const struct tunings *before);
/* Returns what is forwarded of a group: what the link forwards or static groups say, and what an inherited entry does. `link` is NULL if the link has not
   begun. The sources stand until the next call. */
struct filter keeper_filter(const struct keeper *keeper, const mq_link *link, const struct place *place, const uint8_t *group);
/* Makes the entries temporary at the end, with their sources or for all sources. The kernel's snooping goes on with them. `link` is
   as above. */
void keeper_hand_over(struct keeper *keeper, const mq_link *link, const struct place *place, bool with_sources);
/* Ends inheritance: all entries forward what the link forwards. */
void keeper_gathered(struct keeper *keeper, const mq_link *link, const struct place *place);

/* A repair calls `keeper_forget_seen`, then `keeper_note` for each own entry of a dump, then `keeper_repair`, which corrects the
   entries. `is_whole` says that the dump had all entries. `link` is NULL if the link has not begun: then its entries are inherited.
   */
void keeper_forget_seen(struct keeper *keeper);
void keeper_note(struct keeper *keeper, const mq_link *link, const struct entry *entry);
void keeper_repair(struct keeper *keeper, const mq_link *link, const struct place *place, bool is_whole);

#endif
