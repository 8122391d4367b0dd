/* A toy driver over the library: an AHCI controller in this process, and an array as the host's memory. It reads a sector
   that range 1 locks, is told why, starts the port again, and reads one that is not locked. */
#include "opalport.h"

#include <stdio.h>
#include <stdlib.h>
#include <string.h>

enum { BASE = 0x100000, LIST = 0, RECEIVED = 0x1000, TABLE = 0x2000, DATA = 0x3000, SIZE = 0x4000 };
enum { PxCLB = 0x100, PxFB = 0x108, PxIS = 0x110, PxIE = 0x114, PxCMD = 0x118, PxTFD = 0x120, PxSERR = 0x130, PxCI = 0x138, GHC = 0x4, IS = 0x8 };
enum { ST = 0x1, FRE = 0x10, TASK_ERROR = 0x40000000, BUS_ERROR = 0x20000000, AE_IE = (int)0x80000002 };

static uint8_t memory[SIZE];
static opal_handle hba = OPAL_NONE;

static void must(bool holds, const char *what)
{
    if (!holds) {
        fprintf(stderr, "driver: %s\n", what);
        exit(1);
    }
}

static void write_register(uint32_t offset, uint32_t value)
{
    must(opal_hba_write(&hba, offset, value) == OPAL_DONE, "a write was refused");
}

static uint32_t read_register(uint32_t offset)
{
    opal_count told = opal_hba_read(&hba, offset);
    must(told.code == OPAL_DONE, opal_error_text(told.code));
    return (uint32_t)told.number;
}

static void put_word(size_t at, uint32_t value)
{
    for (int i = 0; i < 4; i++)
        memory[at + i] = (uint8_t)(value >> 8 * i);
}

/* READ DMA EXT of one sector in slot 0: a header, a FIS, one descriptor. */
static void issue_read(uint8_t sector)
{
    static const uint8_t fis[] = { 0x27, 0x80, 0x25, 0, 0, 0, 0, 0x40, 0, 0, 0, 0, 1 };
    put_word(LIST, 5 | 1 << 16); /* CFL, PRDTL */
    put_word(LIST + 8, BASE + TABLE);
    memcpy(memory + TABLE, fis, sizeof fis);
    memory[TABLE + 4] = sector;
    put_word(TABLE + 0x80, BASE + DATA);
    put_word(TABLE + 0x8c, 511);
    memset(memory + DATA, 0xff, 512);
    write_register(PxCI, 1);
}

/* The same, and the turn that fetches it. */
static opal_worked read_sector(uint8_t sector)
{
    issue_read(sector);
    opal_worked worked = opal_hba_turn(&hba, 0, BASE, memory, sizeof memory);
    must(worked.code == OPAL_DONE && worked.work == OPAL_WORK_FETCH && worked.tag == 0, "slot 0 was not fetched");
    printf("sector %d: went %d, PxCI %x, PxTFD %04x, interrupt %d\n", sector, worked.went, (unsigned)read_register(PxCI),
           (unsigned)read_register(PxTFD), (int)opal_hba_interrupt(&hba).number);
    return worked;
}

/* Of the host's memory the sector's place is none: the port halts, and tells a fatal error of the bus. */
static void read_into_a_hole(void)
{
    static const opal_region regions[] = { { BASE, DATA }, { BASE + DATA + 510, SIZE - DATA - 510 } };
    issue_read(0);
    opal_worked worked = opal_hba_turn_within(&hba, 0, BASE, memory, sizeof memory, regions, 2);
    must(worked.code == OPAL_DONE && worked.went == OPAL_WENT_NO_DATA && memory[DATA] == 0xff, "data went into a hole");
    must(read_register(PxIS) & BUS_ERROR, "PxIS tells no error of the bus");
    printf("sector 0 into a hole: went %d\n", worked.went);
    must(opal_hba_turn_within(&hba, 0, BASE, memory, sizeof memory, NULL, 1).code == OPAL_NULL, "null regions are taken");
    must(opal_hba_turn_within(&hba, 0, BASE, memory, sizeof memory, (const opal_region *)(const void *)memory, 1).code == OPAL_SHARED,
         "regions in the memory are taken");
}

int main(void)
{
    static const opal_range locked = { 100, 10, 1, 1, 1, 1, 1 };
    opal_config config = OPAL_CONFIG_INIT;
    config.ranges = &locked;
    config.range_count = 1;
    char line[200];
    must(opal_hba_new(&hba, &config) == OPAL_DONE, "no controller");
    write_register(GHC, (uint32_t)AE_IE);
    write_register(PxCLB, BASE + LIST);
    write_register(PxFB, BASE + RECEIVED);
    write_register(PxSERR, read_register(PxSERR));
    write_register(PxIE, TASK_ERROR);
    write_register(PxCMD, FRE | ST);
    must(opal_hba_turn(&hba, 0, BASE, memory, sizeof memory).work == OPAL_WORK_SIGNATURE, "the device tells no signature");

    must(read_sector(100).denied && memory[DATA] == 0xff, "a locked sector was read");
    must(read_register(PxIS) & TASK_ERROR, "PxIS tells no error");
    opal_count told = opal_hba_denial(&hba, line, sizeof line);
    printf("%.*s\n", (int)told.number, line);
    must(opal_hba_denied(&hba).reason == OPAL_REASON_READ_LOCKED && opal_hba_denied(&hba).lba == 100, "another denial is told");
    told = opal_remedy(&hba, 0, line, sizeof line);
    printf("%.*s\n", (int)told.number, line);

    write_register(PxCMD, FRE); /* the port stops, its errors are cleared, and it starts again */
    write_register(PxIS, read_register(PxIS));
    write_register(IS, 1);
    write_register(PxCMD, FRE | ST);
    must(!read_sector(0).denied && memory[DATA] == 0 && memory[DATA + 511] == 0, "sector 0 was not read");
    must(opal_hba_turn(&hba, 0, BASE, memory, sizeof memory).work == OPAL_WORK_NONE, "something is left to do");
    must(opal_hba_turn(&hba, 0, BASE, NULL, 1).code == OPAL_NULL, "a null memory is taken");
    must(opal_hba_turn(&hba, 0, BASE, &hba, sizeof hba).code == OPAL_SHARED, "the handle is taken for memory");
    read_into_a_hole();
    opal_about about = opal_about_handle(&hba);
    must(about.kind == OPAL_HBA && about.sectors == 1000 && about.profile == OPAL_BASE, "the handle has something else");

    must(opal_hba_power_cycle(&hba) == OPAL_DONE && read_register(PxCLB) == 0, "a power cycle leaves a register");
    printf("after a power cycle: PxCMD %x, PxTFD %04x\n", (unsigned)read_register(PxCMD), (unsigned)read_register(PxTFD));
    must(opal_port_recover(&hba).code == OPAL_OTHER_KIND && opal_free(&hba) == OPAL_DONE, "not freed");
    return 0;
}
