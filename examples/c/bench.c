/* A test bench for a driver, over the library: a drive whose range 1 is locked for reads and writes, in this process. It
   shows a denied read, a queue that fails and its recovery, and an unlock by Admin1 with the MSID. Each step is held
   against what the standards say of it, and told in a line. */
#include "opalport.h"

#include <stdio.h>
#include <stdlib.h>
#include <string.h>

enum { SECTOR = OPAL_SECTOR_BYTES };

static opal_handle drive = OPAL_NONE;

static void must(bool holds, const char *what)
{
    if (!holds) {
        fprintf(stderr, "bench: %s\n", what);
        exit(1);
    }
}

/* Gives the drive a command of opal_command_fis with this payload. */
static opal_answer give(enum opal_command command, uint64_t lba, uint32_t count, uint8_t tag, const void *payload,
                        size_t length)
{
    uint8_t fis[20];
    must(opal_command_fis(command, lba, count, tag, fis, sizeof fis).code == OPAL_DONE, "no such command");
    opal_answer answer = opal_drive_accept(&drive, fis, sizeof fis, payload, length);
    must(answer.code == OPAL_DONE, opal_error_text(answer.code));
    return answer;
}

/* Tells status and error of an answer, and what denied it. */
static void tell(const char *what, opal_answer answer)
{
    char line[200];
    opal_count told = opal_drive_denial(&drive, 7, line, sizeof line);
    must(told.code == OPAL_DONE, opal_error_text(told.code));
    printf("%s: %02x %02x%s%.*s\n", what, answer.status, answer.error, told.number ? " " : "", (int)told.number, line);
}

/* Sends tokens to the TPer, in a session or to the session manager, and tells the item that it answers. */
static void call(const char *what, uint32_t tsn, uint32_t hsn, const uint8_t *tokens, size_t length)
{
    uint8_t block[SECTOR] = { 0 }, fis[20];
    char text[200];
    must(opal_frame(OPAL_COM_ID, tsn, hsn, tokens, length, block, sizeof block).code == OPAL_DONE, "no frame");
    must(opal_trusted_fis(true, OPAL_PROTOCOL_TCG, OPAL_COM_ID, 1, fis, sizeof fis).code == OPAL_DONE, "no FIS");
    must(opal_drive_accept(&drive, fis, sizeof fis, block, sizeof block).status == OPAL_STATUS_DONE, "the send failed");
    must(opal_trusted_fis(false, OPAL_PROTOCOL_TCG, OPAL_COM_ID, 1, fis, sizeof fis).code == OPAL_DONE, "no FIS");
    must(opal_drive_accept(&drive, fis, sizeof fis, NULL, 0).length == SECTOR, "the receive failed");
    must(opal_drive_data(&drive, block, sizeof block).code == OPAL_DONE, "no data");
    opal_carried carried = opal_opened(block, sizeof block);
    must(carried.code == OPAL_DONE, "no frame was answered");
    opal_count told = opal_tokens_text(false, block + carried.at, carried.length, text, sizeof text);
    must(told.code == OPAL_DONE, "no item was answered");
    printf("%s: %.*s\n", what, (int)told.number, text);
}

/* StartSession on the Locking SP as Admin1, with the MSID as the challenge, for writing. */
static const uint8_t start_session[] = {
    0xf8, 0xa8, 0, 0, 0, 0, 0, 0, 0, 0xff, 0xa8, 0, 0, 0, 0, 0, 0, 0xff, 0x02, 0xf0, 0x07,
    0xa8, 0, 0, 2, 5, 0, 0, 0, 2, 0x01, 0xf2, 0x00, 0xa8, 'O', 'P', 'A', 'L', 'M', 'S', 'I', 'D', 0xf3,
    0xf2, 0x03, 0xa8, 0, 0, 0, 9, 0, 1, 0, 1, 0xf3, 0xf1, 0xf9, 0xf0, 0, 0, 0, 0xf1
};

/* Set of range 1: ReadLocked (column 7) and WriteLocked (column 8) are 0. */
static const uint8_t unlock[] = {
    0xf8, 0xa8, 0, 0, 8, 2, 0, 3, 0, 1, 0xa8, 0, 0, 0, 6, 0, 0, 0, 0x17, 0xf0, 0xf2, 0x01, 0xf0, 0xf2, 0x07, 0x00, 0xf3,
    0xf2, 0x08, 0x00, 0xf3, 0xf1, 0xf3, 0xf1, 0xf9, 0xf0, 0, 0, 0, 0xf1
};

static void denied_and_recovered(void)
{
    opal_answer answer = give(OPAL_READ_DMA, 100, 1, 0, NULL, 0);
    must(answer.status == OPAL_STATUS_FAILED && answer.error == OPAL_ERROR_ABORTED && answer.denied,
         "a locked sector was read");
    tell("READ DMA EXT of 100", answer);
    opal_denied denied = opal_drive_denied(&drive, 7);
    must(denied.reason == OPAL_REASON_READ_LOCKED && denied.range == 1 && denied.lba == 100 && denied.count == 1,
         "the numbers of the denial are others");

    answer = give(OPAL_READ_QUEUED, 95, 6, 3, NULL, 0);
    must(answer.status == OPAL_STATUS_FAILED && answer.denied && !answer.held, "a locked sector is held for a read");
    tell("READ FPDMA QUEUED of 95 to 100", answer);

    opal_failed failed = opal_drive_failure(&drive);
    must(failed.failed && failed.queued && failed.tag == 3 && failed.lba == 95, "the queue tells another failure");
    answer = give(OPAL_READ_DMA, 0, 1, 0, NULL, 0);
    must(answer.status == OPAL_STATUS_FAILED && answer.error == OPAL_ERROR_ABORTED && !answer.denied,
         "a failed queue serves a read");
    tell("READ DMA EXT of 0, while the queue has failed", answer);

    uint8_t page[SECTOR];
    answer = give(OPAL_READ_QUEUE_ERROR, 0, 0, 0, NULL, 0);
    must(answer.status == OPAL_STATUS_DONE && answer.length == SECTOR, "no log page 10h");
    must(opal_drive_data(&drive, page, sizeof page).number == SECTOR && page[0] == 3 && page[3] == OPAL_ERROR_ABORTED,
         "log page 10h names another command");
    must(!opal_drive_failure(&drive).failed, "the queue has still failed");
    tell("READ LOG DMA EXT of log 10h", answer);
}

static void unlocked(void)
{
    call("StartSession", 0, 0, start_session, sizeof start_session);
    call("Set", 0x1000, 7, unlock, sizeof unlock);

    uint8_t written[SECTOR], read[SECTOR] = { 0 };
    memset(written, 0xa5, sizeof written);
    tell("WRITE DMA EXT of 100", give(OPAL_WRITE_DMA, 100, 1, 0, written, sizeof written));
    opal_answer answer = give(OPAL_READ_QUEUED, 100, 1, 5, NULL, 0);
    must(answer.held, "the read is not held");
    answer = opal_drive_complete(&drive, 5, NULL, 0);
    must(answer.code == OPAL_DONE && answer.length == SECTOR, "the read gives no sector");
    must(opal_drive_data(&drive, read, sizeof read).code == OPAL_DONE, "no data");
    must(memcmp(read, written, sizeof read) == 0, "another sector was read");
    memset(read, 0, sizeof read);
    must(opal_media(&drive, 100, read, sizeof read).code == OPAL_DONE && memcmp(read, written, sizeof read) == 0,
         "the media hold another sector");
    tell("READ FPDMA QUEUED of 100", answer);
}

/* The data of an answer in a buffer of the call; one that is too short is as before. */
static void read_into(void)
{
    uint8_t fis[20], into[SECTOR + 1] = { 0 };
    must(opal_command_fis(OPAL_READ_DMA, 100, 1, 0, fis, sizeof fis).code == OPAL_DONE, "no FIS");
    opal_answer answer = opal_drive_accept_into(&drive, fis, sizeof fis, NULL, 0, into, SECTOR - 1);
    must(answer.code == OPAL_DONE && answer.length == SECTOR && into[0] == 0, "a short buffer was written");
    must(opal_drive_data(&drive, into, SECTOR).number == SECTOR && into[0] == 0xa5, "its data are gone");
    memset(into, 0, sizeof into);
    answer = opal_drive_accept_into(&drive, fis, sizeof fis, NULL, 0, into, sizeof into);
    must(answer.length == SECTOR && into[0] == 0xa5 && into[SECTOR - 1] == 0xa5 && into[SECTOR] == 0, "another sector was read");
    must(opal_command_fis(OPAL_READ_QUEUED, 100, 1, 6, fis, sizeof fis).code == OPAL_DONE, "no FIS");
    answer = opal_drive_accept_into(&drive, fis, sizeof fis, NULL, 0, into, 0);
    must(answer.held && answer.length == 0, "the read is not held");
    memset(into, 0, sizeof into);
    answer = opal_drive_complete_into(&drive, 6, NULL, 0, into, SECTOR);
    must(answer.length == SECTOR && into[0] == 0xa5 && into[SECTOR - 1] == 0xa5, "the read gives another sector");
}

/* What a caller can get wrong is an error value. */
static void refused(void)
{
    uint8_t fis[20], byte = 0;
    opal_handle none = OPAL_NONE, noise = { 0x1122334455667788, 0x1122334455667788 };
    must(opal_command_fis(OPAL_READ_DMA, 0, 1, 0, fis, sizeof fis).code == OPAL_DONE, "no FIS");
    printf("a null handle: %s\n", opal_error_text(opal_drive_accept(NULL, fis, sizeof fis, NULL, 0).code));
    printf("a null FIS: %s\n", opal_error_text(opal_drive_accept(&drive, NULL, sizeof fis, NULL, 0).code));
    printf("a short FIS: %s\n", opal_error_text(opal_drive_accept(&drive, fis, 19, NULL, 0).code));
    printf("a payload of a read: %s\n", opal_error_text(opal_drive_accept(&drive, fis, sizeof fis, &byte, 1).code));
    printf("tag 32: %s\n", opal_error_text(opal_drive_complete(&drive, 32, NULL, 0).code));
    printf("a tag that holds nothing: %s\n", opal_error_text(opal_drive_complete(&drive, 1, NULL, 0).code));
    printf("a handle with nothing: %s\n", opal_error_text(opal_drive_accept(&none, fis, sizeof fis, NULL, 0).code));
    printf("bytes that are no handle: %s\n", opal_error_text(opal_drive_accept(&noise, fis, sizeof fis, NULL, 0).code));
    printf("a reset of kind 2: %s\n", opal_error_text(opal_drive_reset(&drive, 2)));
    printf("no room: %s\n", opal_error_text(opal_command_fis(OPAL_FLUSH, 0, 0, 0, fis, 19).code));
    must(opal_free(&drive) == OPAL_DONE, "the drive is not freed");
    printf("a freed drive: %s\n", opal_error_text(opal_free(&drive)));
}

int main(void)
{
    static const opal_range locked = { 100, 10, 1, 1, 1, 1, 1 };
    opal_config config = OPAL_CONFIG_INIT;
    config.ranges = &locked;
    config.range_count = 1;
    must(opal_drive_new(&drive, &config) == OPAL_DONE, "no drive");
    must(opal_drive_new(&drive, &config) == OPAL_IN_USE, "a second drive at one handle");
    denied_and_recovered();
    unlocked();
    read_into();
    refused();
    return 0;
}
