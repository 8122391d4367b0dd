/* A port that lives: 300,000 writes of 4 KiB to the same sectors, 1,500,000 steps, and a denied read behind each thousandth. Its
   memory is no more behind them than behind the first thousand, each step has the next number, and of the denials the 64 latest
   are told. And a drive of which 128 MiB are written and trimmed, each time other sectors (ACS-3, DATA SET MANAGEMENT): it takes no
   more memory for all of them than for the first. */
#include "opalport.h"

#include <stdio.h>
#include <stdlib.h>
#include <string.h>
#include <unistd.h>

enum { WRITES = 300000, BETWEEN = 1000, BYTES = 4096, KEPT = 64, MOST_MORE = 256 << 10 };
enum { RUNS = 2048, RUN = 128, SECTOR = 512 };

static opal_handle port = OPAL_NONE;
static size_t number;

static void must(int holds, const char *what)
{
    if (!holds) {
        fprintf(stderr, "lives: %s, behind step %zu\n", what, number);
        exit(1);
    }
}

static void step(opal_count told)
{
    must(told.code == OPAL_DONE && told.number == ++number, opal_error_text(told.code));
}

static void moves(uint32_t command, uint64_t lba, uint32_t count, const uint8_t *bytes, size_t length, unsigned ending)
{
    opal_request request = { .lba = lba, .command = command, .count = count };
    step(opal_port_put(&port, 1, 3, &request, bytes, length));
    step(opal_port_issue(&port, 3));
    step(opal_port_accept(&port, 3));
    if (ending == OPAL_TAKEN_DONE)
        step(opal_port_complete(&port, 3));
    else
        step(opal_port_recover(&port));
    opal_taken taken = opal_port_take(&port, 1, 3);
    must(taken.code == OPAL_DONE && taken.number == ++number && taken.ending == ending, "another answer");
}

/* The bytes that the process has in memory, but for those of files, which come and go by what else the machine does. */
static size_t resident(void)
{
    unsigned long all = 0, here = 0, of_files = 0;
    FILE *file = fopen("/proc/self/statm", "r");
    must(file != NULL && fscanf(file, "%lu %lu %lu", &all, &here, &of_files) == 3, "no /proc/self/statm");
    fclose(file);
    return (here - of_files) * (size_t)sysconf(_SC_PAGESIZE);
}

/* The FIS of a command of the ATA device that takes data (Serial ATA 3.0, Register Host to Device). */
static void accepts(opal_handle *drive, uint8_t command, uint8_t feature, uint64_t lba, uint16_t count, const uint8_t *bytes,
                    size_t length)
{
    uint8_t fis[OPAL_FIS_BYTES] = { 0x27, 0x80, command, feature, (uint8_t)lba, (uint8_t)(lba >> 8), (uint8_t)(lba >> 16), 0x40,
                                    (uint8_t)(lba >> 24), 0, 0, 0, (uint8_t)count, (uint8_t)(count >> 8) };
    opal_answer told = opal_drive_accept(drive, fis, sizeof fis, bytes, length);
    must(told.code == OPAL_DONE && (told.status & 1) == 0, "a write or a TRIM fails");
}

/* Writes and trims runs of sectors, each time others, and reads the last of them as zeros. */
static size_t trims(void)
{
    static uint8_t bytes[RUN * SECTOR], entries[SECTOR], read[SECTOR], zeros[SECTOR];
    opal_handle drive = OPAL_NONE;
    opal_config config = OPAL_CONFIG_INIT;
    size_t first = 0;
    config.profile = OPAL_OPAL;
    config.sectors = RUNS * RUN;
    config.shadow = RUNS * RUN;
    must(opal_drive_new(&drive, &config) == OPAL_DONE, "no drive");
    memset(bytes, 0xab, sizeof bytes);
    for (uint64_t i = 0; i < RUNS; i++) {
        uint64_t lba = i * RUN;
        accepts(&drive, 0x35, 0, lba, RUN, bytes, sizeof bytes);
        /* an entry: the first sector in bits 47:0, how many in 63:48 */
        for (int at = 0; at < 6; at++)
            entries[at] = (uint8_t)(lba >> 8 * at);
        entries[6] = RUN;
        accepts(&drive, 0x06, 1, 0, 1, entries, sizeof entries);
        if (i == 0)
            first = resident();
    }
    size_t last = resident();
    must(last <= first + MOST_MORE, "the memory grows where sectors are trimmed");
    must(opal_media(&drive, RUN * (RUNS - 1), read, sizeof read).code == OPAL_DONE, "no media");
    must(memcmp(read, zeros, sizeof read) == 0, "a trimmed sector is no zeros");
    must(opal_free(&drive) == OPAL_DONE, "not freed");
    return last > first ? last - first : 0;
}

int main(void)
{
    static const opal_range locked = { 100, 10, 1, 1, 0, 1, 0 };
    static uint8_t bytes[BYTES];
    char line[200];
    size_t first = 0, denials = 0;
    opal_config config = OPAL_CONFIG_INIT;
    config.ranges = &locked;
    config.range_count = 1;
    must(opal_port_new(&port, &config) == OPAL_DONE, "no port");
    for (int i = 0; i < WRITES; i++) {
        bytes[i % BYTES] = (uint8_t)i;
        moves(OPAL_WRITE_QUEUED, 200, 0, bytes, sizeof bytes, OPAL_TAKEN_DONE);
        if (i % BETWEEN == BETWEEN - 1) {
            moves(OPAL_READ_QUEUED, 100, 1, NULL, 0, OPAL_TAKEN_FAILED);
            denials++;
            first = first ? first : resident();
        }
    }
    size_t last = resident();
    must(last <= first + MOST_MORE, "the memory grows");
    must(opal_port_shown(&port).denials == denials, "another number of denials");
    opal_count told = opal_port_denial(&port, denials - 1, line, sizeof line);
    must(told.code == OPAL_DONE && told.number > 0 && atol(line) == (long)(number - 2), "the last denial is not told");
    told = opal_port_denial(&port, denials - KEPT, line, sizeof line);
    must(told.code == OPAL_DONE && told.number > 0, "a denial of the 64 latest is not told");
    told = opal_port_denial(&port, denials - KEPT - 1, line, sizeof line);
    must(told.code == OPAL_DONE && told.number == 0, "a denial before the 64 latest is told");
    must(opal_free(&port) == OPAL_DONE, "not freed");
    fprintf(stderr, "lives: %zu steps of a port, %zu bytes more than behind the first %d writes\n", number,
            last > first ? last - first : 0, BETWEEN);
    fprintf(stderr, "lives: %d sectors written and trimmed, %zu bytes more than for the first %d\n", RUNS * RUN, trims(), RUN);
    return 0;
}
