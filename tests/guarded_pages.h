/* Bytes beside a page that may not be touched. For programs that define _DEFAULT_SOURCE. */
#ifndef GUARDED_PAGES_H
#define GUARDED_PAGES_H

#include "stop_if.h"
#include <stddef.h>
#include <stdint.h>
#include <string.h>
#include <sys/mman.h>
#include <unistd.h>

/* Which end of their pages the bytes stand at. */
enum edge { AT_START, AT_END, EDGES };

/* Pages for so many bytes, one at least; before them and behind them is one that may not be touched. */
struct pages {
    uint8_t *all;
    size_t size;
    uint8_t *held;
    size_t held_size;
    uint8_t *at;
};

static inline struct pages pages_for(size_t length, enum edge edge) {
    const long told = sysconf(_SC_PAGESIZE);
    stop_if(told <= 0, "tell a page's size");
    const size_t page = (size_t)told;
    const size_t held = length == 0 ? page : (length + page - 1) / page * page;
    struct pages p = {.size = page + held + page, .held_size = held};
    p.all = mmap(NULL, p.size, PROT_NONE, MAP_PRIVATE | MAP_ANONYMOUS, -1, 0);
    stop_if(p.all == MAP_FAILED, "map pages");
    p.held = p.all + page;
    stop_if(mprotect(p.held, held, PROT_READ | PROT_WRITE) != 0, "open pages");
    p.at = edge == AT_START ? p.held : p.held + held - length;
    return p;
}

/* From here on the pages may only be used so. */
static inline void allow(const struct pages *p, int rights) {
    stop_if(mprotect(p->held, p->held_size, rights) != 0, "guard pages");
}

/* These bytes at the end of their pages. */
static inline struct pages pages_of(const uint8_t *bytes, size_t length, int rights) {
    struct pages p = pages_for(length, AT_END);
    memcpy(p.at, bytes, length);
    allow(&p, rights);
    return p;
}

static inline void give_back(const struct pages *p) {
    stop_if(munmap(p->all, p->size) != 0, "unmap pages");
}

#endif
