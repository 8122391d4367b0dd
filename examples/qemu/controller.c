/* The controller: the library, in this process. */
#include "bridge.h"

#include <stdlib.h>

enum { LINE = 1024, NO_SIGNATURE = -1 };

static opal_handle hba = OPAL_NONE;
static bool is_explained;
static size_t choice;
struct counts controller_counts;

static void must(opal_code code, const char *what)
{
    if (code != OPAL_DONE)
        stop("%s: %s", what, opal_error_text(code));
}

void controller_make(const opal_config *config, bool explains)
{
    is_explained = explains;
    must(opal_hba_new(&hba, config), "no drive");
}

void controller_load(const void *saved, size_t length, bool explains)
{
    is_explained = explains;
    must(memory_is_wide() ? opal_hba_load_wide(&hba, saved, length) : opal_hba_load(&hba, saved, length), "no drive");
}

uint8_t *controller_saved(size_t *length)
{
    uint8_t least[1];
    opal_count told = opal_save(&hba, least, sizeof least);
    uint8_t *bytes = told.code == OPAL_ROOM ? malloc(told.number) : NULL;
    if (bytes)
        told = opal_save(&hba, bytes, told.number);
    if (told.code != OPAL_DONE) {
        free(bytes);
        return NULL;
    }
    *length = told.number;
    return bytes;
}

uint64_t controller_sectors(void)
{
    return opal_about_handle(&hba).sectors;
}

uint32_t controller_read(uint32_t offset)
{
    opal_count told = opal_hba_read(&hba, offset);
    must(told.code, "a read of a register");
    return (uint32_t)told.number;
}

void controller_write(uint32_t offset, uint32_t value)
{
    must(opal_hba_write(&hba, offset, value), "a write of a register");
}

bool controller_interrupts(void)
{
    opal_count told = opal_hba_interrupt(&hba);
    must(told.code, "the interrupt line");
    return told.number != 0;
}

void controller_power_cycle(void)
{
    must(opal_hba_power_cycle(&hba), "a power cycle");
}

opal_code controller_sector(uint64_t lba, uint8_t *into)
{
    return opal_media(&hba, lba, into, OPAL_SECTOR_BYTES).code;
}

/* Works */

static void tell_denial(void)
{
    char line[LINE];
    opal_count told = opal_hba_denial(&hba, line, sizeof line);
    must(told.code, "a denial");
    tell("audit %.*s", (int)told.number, line);
    if (!is_explained)
        return;
    told = opal_remedy(&hba, 0, line, sizeof line);
    must(told.code, "a remedy");
    tell("%.*s", (int)told.number, line);
}

static void tell_fault(const opal_worked *worked)
{
    static const char *const missing[] = { "its header", "its table", "a block of its data", "the place of received FISes" };
    tell("slot %d: no memory at %s", worked->tag, missing[worked->went - OPAL_WENT_NO_LIST]);
}

static void count_held(void)
{
    unsigned long held = 0;
    for (uint32_t tags = controller_read(PxSACT) & ~controller_read(PxCI); tags != 0; tags &= tags - 1)
        held++;
    if (held > controller_counts.held)
        controller_counts.held = held;
}

static bool works(size_t which)
{
    size_t count;
    const opal_region *regions = memory_regions(&count);
    opal_worked worked = opal_hba_turn_within(&hba, which, 0, memory_at(0), memory_end(), regions, count);
    must(worked.code, "a turn");
    if (worked.denied)
        tell_denial();
    if (worked.went >= OPAL_WENT_NO_LIST && worked.went <= OPAL_WENT_NO_FIS)
        tell_fault(&worked);
    if (worked.work == OPAL_WORK_FETCH) {
        controller_counts.commands++;
        count_held();
    }
    return worked.work != OPAL_WORK_NONE;
}

void controller_work(void)
{
    while (works(0))
        ;
}

/* A fetch is ready before each completion, and the signature before both. */
void controller_fetch(void)
{
    while ((controller_read(PxCI) != 0 || controller_read(PxSIG) == (uint32_t)NO_SIGNATURE) && works(0))
        ;
}

bool controller_completes(void)
{
    choice += 7; /* has no divisor but 1 in common with how many wait, mostly: so they come out of order */
    return works(choice);
}
