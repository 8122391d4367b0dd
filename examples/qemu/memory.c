/* The guest's memory: QEMU sends it as sections of files, and each is mapped here at its own address of a window. What lies
   between them is a hole: zeros of the bridge's own, in no region that the controller is told. */
#define _GNU_SOURCE
#include "bridge.h"

#include <errno.h>
#include <string.h>
#include <sys/mman.h>

enum { MOST_SECTIONS = 8 };

static uint8_t *window;
static uint64_t window_end = WINDOW_END;
static opal_region regions[MOST_SECTIONS];
static size_t count;

/* Maps a piece of the window anew. */
static void place(uint64_t address, uint64_t size, int flags, int fd, int64_t offset)
{
    void *at = window ? window + address : NULL;
    void *got = mmap(at, size, PROT_READ | PROT_WRITE, flags | (window ? MAP_FIXED : 0), fd, offset);
    if (got == MAP_FAILED)
        stop("the guest's memory: %s", strerror(errno));
    if (!window)
        window = got;
}

void memory_none(void)
{
    place(0, window_end, MAP_PRIVATE | MAP_ANONYMOUS | MAP_NORESERVE, -1, 0);
    count = 0;
}

/* Regions that touch one another are one: an access may lie in both. */
static bool joins(opal_region *region, const opal_region *other)
{
    bool is_before = other->begin + other->length == region->begin;
    if (!is_before && region->begin + region->length != other->begin)
        return false;
    region->begin = is_before ? other->begin : region->begin;
    region->length += other->length;
    return true;
}

static void remember(uint64_t address, uint64_t size)
{
    opal_region region = { address, size };
    for (size_t i = 0; i < count;)
        if (joins(&region, &regions[i])) {
            regions[i] = regions[--count];
            i = 0;
        } else {
            i++;
        }
    if (count == MOST_SECTIONS)
        stop("QEMU sends more than %d sections of memory", MOST_SECTIONS);
    regions[count++] = region;
}

void memory_widen(void)
{
    window_end = WIDE_END;
}

bool memory_is_wide(void)
{
    return window_end == WIDE_END;
}

uint64_t memory_end(void)
{
    return window_end;
}

/* Unless the controller has addresses of 64 bits, what lies above 4 GiB it cannot reach. */
void memory_add(uint64_t address, uint64_t size, int fd, int64_t offset)
{
    uint64_t end = address < WINDOW_END ? WINDOW_END : window_end;
    if (address >= end || (address >= WINDOW_END && address < FOUR_GIB))
        return;
    if (size > end - address)
        size = end - address;
    whisper("memory %llx+%llx", (unsigned long long)address, (unsigned long long)size);
    place(address, size, MAP_SHARED, fd, offset);
    remember(address, size);
}

void memory_own(uint32_t address, uint32_t size)
{
    remember(address, size);
}

const opal_region *memory_regions(size_t *number)
{
    *number = count;
    return regions;
}

uint8_t *memory_at(uint32_t address)
{
    return window + address;
}
