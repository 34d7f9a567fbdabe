/* Blocks of exactly the size that is told: from malloc, or at an end of some pages between two that nobody
 * may touch, so that a read or a write past that end stops the run whatever code makes it. */
#include "strength.h"
#include <stddef.h>
#include <stdio.h>
#include <stdlib.h>
#include <string.h>
#include <sys/mman.h>

enum { PAGES = 1 << 16, PAGE = 1 << 16, MARGIN = 64, MARK = 0xa5, BETWEEN = 0x5a };

typedef enum { FROM_MALLOC, AT_START, AT_END } way;

typedef struct {
    unsigned char *pages, *at, *copy;
    size_t bytes;
    way how;
} block;

bool only_malloc;
static block blocks[MOST_LENT];
static size_t lent;

static void open_pages(block *b)
{
    unsigned char *all = mmap(NULL, PAGES + 2 * PAGE, PROT_READ | PROT_WRITE,
                              MAP_PRIVATE | MAP_ANONYMOUS, -1, 0);
    b->copy = malloc(PAGES);
    if (all == MAP_FAILED || !b->copy || mprotect(all, PAGE, PROT_NONE) ||
        mprotect(all + PAGE + PAGES, PAGE, PROT_NONE)) {
        perror("strength");
        exit(2);
    }
    b->pages = all + PAGE;
    memset(b->pages, MARK, PAGES);
}

void open_lending(void)
{
    for (size_t i = 0; i < MOST_LENT && !blocks[i].pages; i++)
        open_pages(&blocks[i]);
    lent = 0;
}

void *lend_room(size_t bytes)
{
    block *b = &blocks[lent++];
    b->bytes = bytes;
    b->how = only_malloc ? FROM_MALLOC : (way)below(3);
    if (b->how == FROM_MALLOC) {
        b->at = malloc(bytes);
        if (!b->at) {
            perror("strength");
            exit(2);
        }
    } else {
        b->at = b->how == AT_START ? b->pages : b->pages + PAGES - bytes;
    }
    /* No two words of it are equal. */
    for (size_t i = 0; i + 8 <= bytes; i += 8) {
        uint64_t word = 0x6b65707421215a5au + i;
        memcpy(b->at + i, &word, 8);
    }
    memcpy(b->copy, b->at, bytes);
    return b->at;
}

void *lend(const void *content, size_t bytes)
{
    void *at = lend_room(bytes);
    memcpy(at, content, bytes);
    memcpy(blocks[lent - 1].copy, content, bytes);
    return at;
}

/* The bytes between authority and place, which belong to no field. */
static void fill_between(tj_symbol *records, size_t count)
{
    size_t from = offsetof(tj_symbol, authority) + sizeof(bool);
    for (size_t i = 0; i < count; i++)
        memset((unsigned char *)&records[i] + from, BETWEEN, offsetof(tj_symbol, place) - from);
}

tj_symbol *lend_records(const tj_symbol *records, size_t count)
{
    tj_symbol *at = lend(records, count * sizeof *records);
    fill_between(at, count);
    memcpy(blocks[lent - 1].copy, at, count * sizeof *at);
    return at;
}

/* Those from malloc always allow them. */
void allow_writes(bool allowed)
{
    for (size_t i = 0; i < lent; i++)
        if (blocks[i].how != FROM_MALLOC &&
            mprotect(blocks[i].pages, PAGES, allowed ? PROT_READ | PROT_WRITE : PROT_READ)) {
            perror("strength");
            exit(2);
        }
}

bool same_record(const tj_symbol *a, const tj_symbol *b)
{
    return a->id == b->id && a->authority == b->authority && a->place == b->place && a->state == b->state &&
           a->layers == b->layers && a->mark == b->mark;
}

bool kept_from(size_t number, size_t byte)
{
    const block *b = &blocks[number];
    return byte <= b->bytes && !memcmp(b->at + byte, b->copy + byte, b->bytes - byte);
}

bool kept(size_t number)
{
    return kept_from(number, 0);
}

bool all_kept(void)
{
    for (size_t i = 0; i < lent; i++)
        if (!kept(i))
            return false;
    return true;
}

/* The bytes beside a block on its open side. */
static bool margin_kept(const block *b)
{
    const unsigned char *side = b->how == AT_START ? b->at + b->bytes : b->at - MARGIN;
    for (size_t i = 0; i < MARGIN; i++)
        if (side[i] != MARK)
            return false;
    return true;
}

bool close_lending(void)
{
    bool good = true;
    for (size_t i = 0; i < lent; i++) {
        block *b = &blocks[i];
        if (b->how == FROM_MALLOC) {
            free(b->at);
        } else {
            good = good && margin_kept(b);
            memset(b->at, MARK, b->bytes);
        }
    }
    lent = 0;
    return good;
}
