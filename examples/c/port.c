/* A test bench for a driver's queue, over the library: one AHCI port with the drive behind it, in this process. Range 1 is
   locked for reads. Two clients have a command in the queue each; one is denied, so that the queue fails, and the other goes
   on after the recovery. Each step is held against what the standards say of it, and told in a line. */
#include "opalport.h"

#include <stdio.h>
#include <stdlib.h>
#include <string.h>

enum { SECTOR = 512, ALICE = 1, BOB = 2 };
enum { READY = 0x0050, DENIED = 0x0451, TASK_ERROR = 0x40000000 }; /* PxTFD, and TFES of PxIS */

static opal_handle port = OPAL_NONE;

static void must(bool holds, const char *what)
{
    if (!holds) {
        fprintf(stderr, "port: %s\n", what);
        exit(1);
    }
}

/* Tells the number of a step, and holds it against the one that is wanted. */
static void step(const char *what, opal_count told, size_t number)
{
    must(told.code == OPAL_DONE, opal_error_text(told.code));
    must(told.number == number, "another number of a step");
    printf("%zu %s\n", told.number, what);
}

/* Tells what the port shows, and holds it against what is wanted. */
static void shows(uint32_t issued, uint32_t active, uint32_t task)
{
    opal_shown shown = opal_port_shown(&port);
    must(shown.code == OPAL_DONE, opal_error_text(shown.code));
    printf("  PxCI %08x PxSACT %08x PxTFD %04x\n", (unsigned)shown.issued, (unsigned)shown.active, (unsigned)shown.task);
    must(shown.issued == issued && shown.active == active && shown.task == task, "the port shows something else");
}

/* Puts a request whose payload is one sector of a byte, or nothing. */
static opal_count put(uint32_t client, uint8_t tag, uint32_t command, uint64_t lba, int byte)
{
    uint8_t sector[SECTOR];
    opal_request request = { .lba = lba, .command = command, .count = byte < 0 ? 1 : 0 };
    memset(sector, byte, sizeof sector);
    return opal_port_put(&port, client, tag, &request, sector, byte < 0 ? 0 : sizeof sector);
}

static void failed_and_recovered(void)
{
    char line[200];
    step("client 1 puts READ FPDMA QUEUED of 100 in slot 3", put(ALICE, 3, OPAL_READ_QUEUED, 100, -1), 1);
    step("client 2 puts WRITE FPDMA QUEUED of 200 in slot 5", put(BOB, 5, OPAL_WRITE_QUEUED, 200, 0x5a), 2);
    step("slot 5 is issued", opal_port_issue(&port, 5), 3);
    step("slot 3 is issued", opal_port_issue(&port, 3), 4);
    shows(1 << 3 | 1 << 5, 1 << 3 | 1 << 5, READY);
    step("the drive takes slot 5, and holds it", opal_port_accept(&port, 5), 5);
    shows(1 << 3, 1 << 3 | 1 << 5, READY);
    step("the drive takes slot 3, and denies it", opal_port_accept(&port, 3), 6);
    shows(1 << 3, 1 << 3 | 1 << 5, DENIED);
    must(opal_port_shown(&port).interrupts & TASK_ERROR, "PxIS tells no error");
    must(opal_port_shown(&port).denials == 1, "the audit log has another number of lines");
    opal_count told = opal_port_denial(&port, 0, line, sizeof line);
    printf("  %.*s\n", (int)told.number, line);
    opal_denied denied = opal_port_denied(&port, 0);
    must(denied.reason == OPAL_REASON_READ_LOCKED && denied.range == 1 && denied.client == ALICE && denied.step == 6,
         "the numbers of the denial are others");
    must(opal_port_denied(&port, 1).reason == OPAL_REASON_NONE, "there is another denial");
    opal_denied list[4];
    size_t place = 0;
    must(opal_port_denials(&port, &place, list, 4).number == 1 && list[0].lba == 100 && place == 1, "the list has others");
    must(opal_port_denials(&port, &place, list, 4).number == 0 && place == 1, "a denial is listed twice");

    must(opal_port_complete(&port, 5).code == OPAL_PORT_FAILED, "a failed port goes on");
    step("the port recovers", opal_port_recover(&port), 7);
    shows(0, 0, READY);
    must(opal_port_take(&port, BOB, 3).code == OPAL_PORT_NOT_YOURS, "client 2 takes what is client 1's");
    opal_taken taken = opal_port_take(&port, ALICE, 3);
    must(taken.code == OPAL_DONE && taken.ending == OPAL_TAKEN_FAILED, "slot 3 has not failed");
    must(taken.number == 8 && taken.status == 0x51 && taken.error == 0x04, "slot 3 has failed otherwise");
    printf("8 client 1 takes slot 3: failed %02x %02x\n", taken.status, taken.error);
}

/* What is prepared again goes on by the engine, one step a turn. */
static void finished(void)
{
    static const char *const steps[] = { "issue", "accept", "complete", "recover" };
    opal_ready ready[32];
    for (size_t number = 9; number < 12; number++) {
        opal_count listed = opal_port_ready(&port, ready, sizeof ready / sizeof *ready);
        must(listed.code == OPAL_DONE && listed.number == 1 && ready[0].tag == 5, "another step is ready");
        opal_count told = opal_port_turn(&port, 0);
        must(told.code == OPAL_DONE && told.number == number, "the engine does another step");
        printf("%zu the engine's %s of slot %d\n", told.number, steps[ready[0].step], ready[0].tag);
    }
    must(opal_port_turn(&port, 0).number == 0, "something is left to do");
    opal_taken taken = opal_port_take(&port, BOB, 5);
    must(taken.code == OPAL_DONE && taken.ending == OPAL_TAKEN_DONE && taken.length == 0, "the write is not done");
    printf("12 client 2 takes slot 5: done\n");
}

/* A read out of the queue is executed whole where the drive takes it. */
static void read_back(void)
{
    uint8_t read[SECTOR] = { 0 }, written[SECTOR];
    memset(written, 0x5a, sizeof written);
    step("client 1 puts READ DMA EXT of 200 in slot 0", put(ALICE, 0, OPAL_READ_DMA, 200, -1), 13);
    step("slot 0 is issued", opal_port_issue(&port, 0), 14);
    step("the drive takes slot 0, and executes it", opal_port_accept(&port, 0), 15);
    opal_taken taken = opal_port_take(&port, ALICE, 0);
    must(taken.code == OPAL_DONE && taken.length == SECTOR, "the read gives no sector");
    must(opal_port_data(&port, read, sizeof read).number == SECTOR, "no data");
    must(memcmp(read, written, sizeof read) == 0, "another sector was read");
    printf("16 client 1 takes slot 0: %zu bytes, as they were written\n", taken.length);

    step("client 2 puts FLUSH CACHE EXT in slot 31", put(BOB, 31, OPAL_FLUSH, 0, -1), 17);
    step("client 2 resets", opal_port_reset(&port, BOB, OPAL_HARDWARE_RESET), 18);
    must(opal_port_take(&port, BOB, 31).ending == OPAL_TAKEN_RESET, "the flush is not stopped");
}

/* What a caller can get wrong is an error value. */
static void refused(const opal_config *config)
{
    uint8_t byte = 0;
    opal_handle none = OPAL_NONE, drive = OPAL_NONE;
    opal_request request = { .command = OPAL_IDENTIFY };
    must(opal_drive_new(&drive, config) == OPAL_DONE, "no drive");
    printf("a null handle: %s\n", opal_error_text(opal_port_issue(NULL, 0).code));
    printf("a null request: %s\n", opal_error_text(opal_port_put(&port, ALICE, 0, NULL, NULL, 0).code));
    printf("tag 32: %s\n", opal_error_text(opal_port_issue(&port, 32).code));
    printf("a payload of IDENTIFY: %s\n", opal_error_text(opal_port_put(&port, ALICE, 0, &request, &byte, 1).code));
    printf("command 9: %s\n", opal_error_text(put(ALICE, 0, 9, 0, -1).code));
    printf("a write of no byte: %s\n", opal_error_text(put(ALICE, 0, OPAL_WRITE_DMA, 0, -1).code));
    printf("a slot with nothing: %s\n", opal_error_text(opal_port_take(&port, ALICE, 0).code));
    printf("a reset of kind 2: %s\n", opal_error_text(opal_port_reset(&port, ALICE, 2).code));
    printf("no room: %s\n", opal_error_text(opal_port_denial(&port, 0, (char *)&byte, 1).code));
    printf("a handle with nothing: %s\n", opal_error_text(opal_port_recover(&none).code));
    printf("a drive: %s\n", opal_error_text(opal_port_recover(&drive).code));
    printf("a port that is asked as a drive: %s\n", opal_error_text(opal_drive_reset(&port, OPAL_POWER_CYCLE)));
    must(opal_free(&drive) == OPAL_DONE && opal_free(&port) == OPAL_DONE, "not freed");
    printf("a freed port: %s\n", opal_error_text(opal_port_recover(&port).code));
}

int main(void)
{
    static const opal_range locked = { 100, 10, 1, 1, 0, 1, 0 };
    opal_config config = OPAL_CONFIG_INIT;
    config.ranges = &locked;
    config.range_count = 1;
    must(opal_port_new(&port, &config) == OPAL_DONE, "no port");
    must(opal_port_new(&port, &config) == OPAL_IN_USE, "a second port at one handle");
    failed_and_recovered();
    finished();
    read_back();
    refused(&config);
    return 0;
}
