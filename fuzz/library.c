/* Calls of the library, made of the bytes of the standard input: a byte for each call and those that it takes. A drive, a port and a
   controller stand beside one another, of the profile that the first byte chooses. Each buffer has just as many bytes as its length
   says, so that AddressSanitizer sees one byte more. A call may refuse anything; it may not give a code that no call has. */
#include "opalport.h"

#include <stdbool.h>
#include <stdio.h>
#include <stdlib.h>
#include <string.h>

enum { MOST = 1 << 16, FEW = 16, BASE = 0x100000, MEMORY = 0x4000 };

static uint8_t given[MOST];
static size_t at, end;
static opal_handle drive = OPAL_NONE, port = OPAL_NONE, hba = OPAL_NONE;
static uint8_t *memory;

static uint8_t byte(void) { return at < end ? given[at++] : 0; }

static uint32_t word(void)
{
    uint32_t low = byte(), high = byte();
    return low | high << 8;
}

/* A buffer of so many bytes to be written. */
static uint8_t *space(size_t length)
{
    uint8_t *it = malloc(length ? length : 1);
    if (it == NULL)
        exit(2);
    return it;
}

/* A buffer of so many bytes: of the next ones of the input, so many at most, and then the last of them over and over. */
static uint8_t *bytes(size_t length, size_t most)
{
    uint8_t *it = space(length), last = 0;
    for (size_t i = 0; i < length; i++)
        it[i] = last = i < most && at < end ? byte() : last;
    return it;
}

static void known(opal_code code)
{
    if (opal_error_text(code)[0] == 0 || (code > OPAL_SEED && code < OPAL_PORT_SLOT_BUSY) || code > OPAL_PORT_HISTORY_FULL)
        abort();
}

/* What a text or data of a call comes to: what is told stands in the buffer. */
static void told(opal_count count, size_t length)
{
    known(count.code);
    if (count.code == OPAL_DONE && count.number > length)
        abort();
}

static void accept_fis(const uint8_t *fis, const uint8_t *payload, size_t length, int into)
{
    size_t room = into ? word() : 0;
    uint8_t *to = space(room);
    opal_answer answer = into ? opal_drive_accept_into(&drive, fis, OPAL_FIS_BYTES, payload, length, to, room)
                              : opal_drive_accept(&drive, fis, OPAL_FIS_BYTES, payload, length);
    known(answer.code);
    if (!into && answer.code == OPAL_DONE) {
        uint8_t *data = space(answer.length);
        told(opal_drive_data(&drive, data, answer.length), answer.length);
        free(data);
    }
    free(to);
}

/* A FIS of the input, with as many bytes behind it as the drive wants. */
static void accept(int into)
{
    uint8_t *fis = bytes(OPAL_FIS_BYTES, OPAL_FIS_BYTES);
    if (byte() & 1)
        fis[0] = 0x27, fis[1] |= 0x80;
    opal_count wanted = opal_drive_payload(&drive, fis, OPAL_FIS_BYTES);
    known(wanted.code);
    if (wanted.code == OPAL_DONE && wanted.number <= MOST) {
        uint8_t *payload = bytes(wanted.number, FEW);
        accept_fis(fis, payload, wanted.number, into);
        free(payload);
    }
    free(fis);
}

/* Tokens in a frame, to a ComID by TRUSTED SEND, and the answer by TRUSTED RECEIVE. */
static void method(const uint8_t *tokens, size_t length)
{
    uint8_t fis[OPAL_FIS_BYTES], frame[2048];
    uint16_t com_id = OPAL_COM_ID + byte() % 5;
    uint32_t tsn = byte() & 1 ? 0x1000 + byte() % 4 : 0;
    opal_count framed = opal_frame(com_id, tsn, tsn ? 1 : 0, tokens, length, frame, sizeof frame);
    told(framed, sizeof frame);
    if (framed.code != OPAL_DONE)
        return;
    memset(frame + framed.number, 0, sizeof frame - framed.number);
    known(opal_trusted_fis(1, OPAL_PROTOCOL_TCG, com_id, 4, fis, sizeof fis).code);
    accept_fis(fis, frame, sizeof frame, 0);
    known(opal_trusted_fis(0, OPAL_PROTOCOL_TCG, com_id, 1 + byte() % 8, fis, sizeof fis).code);
    accept_fis(fis, NULL, 0, byte() & 1);
}

static void of_drive(unsigned which)
{
    size_t length = word() % 2048;
    uint8_t *it = bytes(length, FEW), line[300];
    switch (which) {
    case 0: known(opal_drive_complete(&drive, byte(), it, length).code); break;
    case 1: known(opal_drive_complete_into(&drive, byte(), NULL, 0, it, length).code); break;
    case 2: known(opal_drive_reset(&drive, byte() % 3)); break;
    case 3: told(opal_drive_denial(&drive, word(), (char *)line, byte()), sizeof line); break;
    case 4: known(opal_drive_denied(&drive, word()).code); break;
    case 5: known(opal_drive_failure(&drive).code); break;
    case 6: known(opal_drive_expects(&drive, byte()).code); break;
    default: told(opal_media(&drive, word(), it, length), length); break;
    }
    free(it);
}

static void of_port(unsigned which)
{
    size_t length = 512 * (size_t)(byte() % 4) + byte() % 2;
    uint8_t *it = bytes(length, FEW), tag = byte() % 33;
    opal_request request = { .lba = word(), .command = byte() % 10, .count = byte(), .com_id = (uint16_t)word(), .protocol = byte() % 3 };
    opal_ready ready[65];
    switch (which) {
    case 0: case 1: known(opal_port_put(&port, byte() % 3, tag, &request, it, length).code); break;
    case 2: known(opal_port_issue(&port, tag).code); break;
    case 3: known(opal_port_accept(&port, tag).code); break;
    case 4: known(opal_port_complete(&port, tag).code); break;
    case 5: known(opal_port_recover(&port).code); break;
    case 6: known(opal_port_take(&port, byte() % 3, tag).code); told(opal_port_data(&port, it, length), length); break;
    case 7: known(opal_port_reset(&port, byte() % 3, byte() % 3).code); break;
    case 8: known(opal_port_turn(&port, byte()).code); told(opal_port_ready(&port, ready, 65), 65); break;
    default: told(opal_port_denial(&port, byte(), (char *)it, length), length); known(opal_port_denied(&port, byte()).code); break;
    }
    known(opal_port_shown(&port).code);
    free(it);
}

static void of_hba(unsigned which)
{
    opal_region region = { BASE + word(), word() };
    size_t place = word() % MEMORY, length = byte();
    switch (which) {
    case 0: known(opal_hba_write(&hba, 4u * byte(), word() | word() << 16)); break;
    case 1: known(opal_hba_read(&hba, word()).code); break;
    case 2: for (size_t i = 0; i < length && place + i < MEMORY; i++) memory[place + i] = byte(); break;
    case 3: known(opal_hba_turn(&hba, byte(), BASE, memory, MEMORY).code); break;
    case 4: known(opal_hba_turn_within(&hba, byte(), BASE, memory, MEMORY, &region, 1).code); break;
    case 5: known(opal_hba_write(&hba, 0x100, BASE)), known(opal_hba_write(&hba, 0x108, BASE + 0x1000));
            known(opal_hba_write(&hba, 0x118, 0x11)); break;
    case 6: known(opal_hba_power_cycle(&hba)); break;
    default: known(opal_hba_denied(&hba).code); known(opal_hba_interrupt(&hba).code); break;
    }
}

static void of_bytes(unsigned which)
{
    size_t length = word() % 2048, room = word() % 4096;
    uint8_t *it = bytes(length, length), *to = space(room);
    switch (which) {
    case 0: told(opal_tokens_text(byte() & 1, it, length, (char *)to, room), room); break;
    case 1: told(opal_decoded_text(byte() % 8, it, length, (char *)to, room), room); break;
    case 2: told(opal_call_named((const char *)it, length, to, room), room); break;
    case 3: known(opal_opened(it, length).code); break;
    case 4: method(it, length < 1900 ? length : 1900); break;
    case 5: { opal_count named = opal_call_named((const char *)it, length, to, room);
              told(named, room);
              if (named.code == OPAL_DONE) method(to, named.number);
              break; }
    default: told(opal_command_fis(byte() % 9, word(), word(), byte(), to, room), room); break;
    }
    free(it);
    free(to);
}

/* The drive of a handle is saved, a byte of it is changed or none, and it is loaded. Where none is, what is loaded is saved as the
   same bytes; else a save may lock what the changed bytes had unlocked, since it is a power cycle. What is loaded may take the place
   of what there was. */
static void of_saved(unsigned which)
{
    opal_handle *from[] = { &drive, &port, &hba }, loaded = OPAL_NONE;
    uint8_t least[1];
    size_t length = opal_save(from[which % 3], least, sizeof least).number;
    uint8_t *text = space(length), *again = space(length), as_hba = byte() & 1;
    told(opal_save(from[which % 3], text, length), length);
    if (which >= 6)
        text[(word() | word() << 16) % length] ^= byte();
    opal_code code = as_hba ? opal_hba_load(&loaded, text, length) : opal_drive_load(&loaded, text, length);
    known(code);
    if (code != OPAL_DONE && which < 6)
        abort();
    if (code == OPAL_DONE) {
        opal_count count = opal_save(&loaded, again, length);
        bool is_same = count.code == OPAL_DONE && count.number == length && memcmp(text, again, length) == 0;
        known(count.code);
        if (which < 6 && !is_same)
            abort();
        opal_handle *gone = as_hba ? &hba : &drive;
        if (byte() & 1) {
            opal_handle before = *gone;
            *gone = loaded;
            loaded = before;
        }
        known(opal_free(&loaded));
    }
    free(text);
    free(again);
}

int main(void)
{
    static const opal_config plain = OPAL_CONFIG_INIT, opal = OPAL_CONFIG_INIT_OPAL;
    end = fread(given, 1, sizeof given, stdin);
    uint8_t first = byte();
    opal_range row = { 100, 10, 1, 1, 1, first >> 2 & 1, first >> 3 & 1 };
    opal_config config = first % 3 == 2 ? opal : plain;
    config.profile = first % 3;
    config.ranges = first & 0x80 ? &row : NULL;
    config.range_count = first >> 7;
    memory = calloc(1, MEMORY);
    if (memory == NULL || opal_drive_new(&drive, &config) || opal_port_new(&port, &config) || opal_hba_new(&hba, &config))
        return 2;
    while (at < end) {
        unsigned which = byte();
        switch (which / 10) {
        case 0: accept(which & 1); break;
        case 1: of_drive(which % 10); break;
        case 2: of_port(which % 10); break;
        case 3: of_hba(which % 10); break;
        case 5: of_saved(which % 10); break;
        default: of_bytes(which % 7); break;
        }
    }
    known(opal_free(&drive)), known(opal_free(&port)), known(opal_free(&hba));
    free(memory);
    return 0;
}
