/* A run of many calls through the C face, on random words, tables and buffers. Each call is lent blocks of
 * exactly the size that it is told, and what it may not change is compared with a copy afterwards. */
#ifndef STRENGTH_H
#define STRENGTH_H
#include "trestlejay.h"

/* Document 01's numbers go up to 17. */
enum { MOST_WORDS = 48, PART = 48, REFUSALS = 18 };

/* random.c: the same numbers for the same seed. */
void seed(uint64_t value);
uint64_t any(void);
size_t below(size_t limit);
bool once_in(size_t times);

/* inputs.c: what is lent. Each returns how many words it wrote, or records. */
enum { ROOM = 64, MOST_RECORDS = 130, MOST_STEP_WORDS = 4 * 130, MOST_SHEET = 12552 + 16 };
size_t some_words(uint64_t *t);
size_t some_sheet(uint8_t *bytes);
size_t words_beside(uint64_t *t, const uint64_t *other, size_t n);
size_t some_steps(uint64_t *s, size_t most);
size_t steps_along(uint64_t *s, size_t most, const uint64_t *known, size_t n);
size_t some_table(tj_symbol *table, uint64_t *store, size_t *store_words);
uint32_t some_id(void);
uint32_t id_among(size_t records);
uint64_t some_number(void);

/* lent.c: blocks that are lent to one call, numbered in the order of lending. */
enum { MOST_LENT = 8 };
extern bool only_malloc;
void open_lending(void);
void *lend(const void *content, size_t bytes);
void *lend_room(size_t bytes);
tj_symbol *lend_records(const tj_symbol *records, size_t count);
void allow_writes(bool allowed); /* to the blocks between pages; without, a write stops the run */
bool same_record(const tj_symbol *a, const tj_symbol *b);
bool kept(size_t block);
bool kept_from(size_t block, size_t byte);
bool all_kept(void);
bool close_lending(void);

/* calls.c, records.c, plans.c: one call of an export, with its checks. */
typedef struct {
    const char *name;
    bool (*run)(size_t which, uint64_t *refusal);
    size_t which;
} export;
extern const export questions[];
extern const size_t question_count;
extern const export operations[];
extern const size_t operation_count;
extern const export planning[];
extern const size_t planning_count;

/* What every refusal must be: a number of document 01, with a place that it may have. */
bool placed(uint64_t refusal, uint64_t place);

/* What every answer must be: at most this, or a refusal, and then everything lent is kept. */
bool answered(tj_answer a, uint64_t most);
#endif
