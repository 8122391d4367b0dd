/* How much stack the calls of the library take: each is made in a thread with 64 KiB of stack, which is painted before, and what
   is painted no more is counted. A call may take 16 KiB, a copy and a save 30, as the header says. A page below the stack can't be touched. */
#include "opalport.h"

#include <pthread.h>
#include <stdio.h>
#include <stdlib.h>
#include <string.h>
#include <sys/mman.h>

enum { STACK = 64 << 10, PAGE = 4096, PAINT = 0xa5, MOST = 16 << 10, MOST_OF_A_COPY = 30 << 10, BASE = 0x100000 };
enum { PxCLB = 0x100, PxFB = 0x108, PxCMD = 0x118, PxSERR = 0x130, PxCI = 0x138 };

static const opal_range locked = { 500, 10, 1, 1, 1, 1, 1 };
static opal_handle handle = OPAL_NONE, twin = OPAL_NONE;
static opal_config config = OPAL_CONFIG_INIT;
static uint8_t fis[OPAL_FIS_BYTES], block[OPAL_SECTOR_BYTES], many[60000], memory[0x4000];
static char text[1 << 20];
static opal_code code;
static size_t saved;

/* StartSession on the Locking SP as Admin1, with the MSID as the challenge, for writing. */
static const uint8_t start_session[] = {
    0xf8, 0xa8, 0, 0, 0, 0, 0, 0, 0, 0xff, 0xa8, 0, 0, 0, 0, 0, 0, 0xff, 0x02, 0xf0, 0x07,
    0xa8, 0, 0, 2, 5, 0, 0, 0, 2, 0x01, 0xf2, 0x00, 0xa8, 'O', 'P', 'A', 'L', 'M', 'S', 'I', 'D', 0xf3,
    0xf2, 0x03, 0xa8, 0, 0, 0, 9, 0, 1, 0, 1, 0xf3, 0xf1, 0xf9, 0xf0, 0, 0, 0, 0xf1
};

static void *nothing(void *it) { return it; }
static void *drive_new(void *it) { code = opal_drive_new(&handle, &config); return it; }
static void *clones(void *it) { code = opal_clone(&twin, &handle); return it; }
static void *frees_clone(void *it) { code = opal_free(&twin); return it; }
static void *saves(void *it) { opal_count told = opal_save(&handle, text, sizeof text); code = told.code, saved = told.number; return it; }
static void *loads(void *it) { code = opal_drive_load(&twin, text, saved); return it; }
static void *hba_loads(void *it) { code = opal_hba_load(&twin, text, saved); return it; }
static void *port_new(void *it) { code = opal_port_new(&handle, &config); return it; }
static void *hba_new(void *it) { code = opal_hba_new(&handle, &config); return it; }
static void *frees(void *it) { code = opal_free(&handle); return it; }
static void *about(void *it) { code = opal_about_handle(&handle).code; return it; }
static void *media(void *it) { code = opal_media(&handle, 100, text, sizeof text).code; return it; }
static void *version(void *it) { code = opal_version_text(text, sizeof text).code; return it; }
static void *frame(void *it) { code = opal_frame(OPAL_COM_ID, 0, 0, start_session, sizeof start_session, block, sizeof block).code; return it; }
static void *opened(void *it) { code = opal_opened(block, sizeof block).code; return it; }
static void *send_fis(void *it) { code = opal_trusted_fis(1, OPAL_PROTOCOL_TCG, OPAL_COM_ID, 1, fis, sizeof fis).code; return it; }
static void *send_block(void *it) { code = opal_drive_accept(&handle, fis, sizeof fis, block, sizeof block).code; return it; }
static void *receive_fis(void *it) { code = opal_trusted_fis(0, OPAL_PROTOCOL_TCG, OPAL_COM_ID, 1, fis, sizeof fis).code; return it; }
static void *read_fis(void *it) { code = opal_command_fis(OPAL_READ_QUEUED, 100, 1, 3, fis, sizeof fis).code; return it; }
static void *read_dma_fis(void *it) { code = opal_command_fis(OPAL_READ_DMA, 500, 1, 0, fis, sizeof fis).code; return it; }
static void *payload(void *it) { code = opal_drive_payload(&handle, fis, sizeof fis).code; return it; }
static void *accepts(void *it) { code = opal_drive_accept(&handle, fis, sizeof fis, NULL, 0).code; return it; }
static void *accepts_into(void *it) { code = opal_drive_accept_into(&handle, fis, sizeof fis, NULL, 0, block, sizeof block).code; return it; }
static void *completes_into(void *it) { code = opal_drive_complete_into(&handle, 3, NULL, 0, block, sizeof block).code; return it; }
static void *expects(void *it) { code = opal_drive_expects(&handle, 3).code; return it; }
static void *completes(void *it) { code = opal_drive_complete(&handle, 3, NULL, 0).code; return it; }
static void *data(void *it) { code = opal_drive_data(&handle, block, sizeof block).code; return it; }
static void *denial(void *it) { code = opal_drive_denial(&handle, 7, text, sizeof text).code; return it; }
static void *denied(void *it) { code = opal_drive_denied(&handle, 7).code; return it; }
static void *remedy(void *it) { code = opal_remedy(&handle, 0, text, sizeof text).code; return it; }
static void *failure(void *it) { code = opal_drive_failure(&handle).code; return it; }
static void *reset(void *it) { code = opal_drive_reset(&handle, OPAL_POWER_CYCLE); return it; }
static void *tokens(void *it) { code = opal_tokens_text(1, many, sizeof many, text, sizeof text).code; return it; }

static void *named(void *it)
{
    static const char line[] = "set 1 Locking_Range1 ReadLocked=0 WriteLocked=0";
    code = opal_call_named(line, sizeof line - 1, text, sizeof text).code;
    return it;
}

static void *decoded(void *it) { code = opal_decoded_text(OPAL_FIS, fis, sizeof fis, text, sizeof text).code; return it; }

static void *port_put(void *it)
{
    opal_request request = { .lba = 100, .command = OPAL_READ_QUEUED, .count = 1 };
    code = opal_port_put(&handle, 1, 3, &request, NULL, 0).code;
    return it;
}

static void *port_issue(void *it) { code = opal_port_issue(&handle, 3).code; return it; }
static void *port_accept(void *it) { code = opal_port_accept(&handle, 3).code; return it; }
static void *port_complete(void *it) { code = opal_port_complete(&handle, 3).code; return it; }
static void *port_take(void *it) { code = opal_port_take(&handle, 1, 3).code; return it; }
static void *port_data(void *it) { code = opal_port_data(&handle, block, sizeof block).code; return it; }
static void *port_turn(void *it) { code = opal_port_turn(&handle, 0).code; return it; }
static void *port_recover(void *it) { opal_count told = opal_port_recover(&handle); code = told.code == OPAL_PORT_NOT_FAILED ? OPAL_DONE : told.code; return it; }
static void *port_reset(void *it) { code = opal_port_reset(&handle, 1, OPAL_HARDWARE_RESET).code; return it; }
static void *port_shown(void *it) { code = opal_port_shown(&handle).code; return it; }
static void *port_denial(void *it) { code = opal_port_denial(&handle, 0, text, sizeof text).code; return it; }
static void *port_denied(void *it) { code = opal_port_denied(&handle, 0).code; return it; }
static void *port_denials(void *it) { static opal_denied list[64]; size_t place = 0; code = opal_port_denials(&handle, &place, list, 64).code; return it; }
static void *port_ready(void *it) { opal_ready ready[32]; code = opal_port_ready(&handle, ready, 32).code; return it; }

static void *hba_start(void *it)
{
    static const uint8_t read[] = { 0x27, 0x80, 0x25, 0, 0, 0, 0, 0x40, 0, 0, 0, 0, 1 };
    static const uint32_t writes[][2] = { { PxCLB, BASE }, { PxFB, BASE + 0x1000 }, { PxSERR, ~0u }, { PxCMD, 0x11 } };
    memcpy(memory + 0x2000, read, sizeof read);
    memory[0] = 5, memory[2] = 1, memory[9] = 0x20, memory[10] = 0x10;                               /* CFL, PRDTL, CTBA */
    memory[0x2081] = 0x30, memory[0x2082] = 0x10, memory[0x208c] = 0xff, memory[0x208d] = 0x01; /* DBA, DBC */
    for (size_t i = 0; i < sizeof writes / sizeof *writes; i++)
        code = opal_hba_write(&handle, writes[i][0], writes[i][1]);
    return it;
}

static void *hba_turn(void *it) { code = opal_hba_turn(&handle, 0, BASE, memory, sizeof memory).code; return it; }

static void *hba_within(void *it)
{
    static const opal_region region = { BASE, sizeof memory };
    code = opal_hba_turn_within(&handle, 0, BASE, memory, sizeof memory, &region, 1).code;
    return it;
}

static void *hba_issue(void *it) { code = opal_hba_write(&handle, PxCI, 1); return it; }
static void *hba_read(void *it) { code = opal_hba_read(&handle, PxCI).code; return it; }
static void *hba_interrupt(void *it) { code = opal_hba_interrupt(&handle).code; return it; }
static void *hba_denial(void *it) { code = opal_hba_denial(&handle, text, sizeof text).code; return it; }
static void *hba_denied(void *it) { code = opal_hba_denied(&handle).code; return it; }
static void *hba_cycle(void *it) { code = opal_hba_power_cycle(&handle); return it; }

/* How many bytes of stack a thread takes that makes a call. */
static size_t taken(void *(*call)(void *))
{
    pthread_attr_t how;
    pthread_t thread;
    uint8_t *below = mmap(NULL, PAGE + STACK, PROT_READ | PROT_WRITE, MAP_PRIVATE | MAP_ANONYMOUS, -1, 0), *stack = below + PAGE;
    size_t left = 0;
    if (below == MAP_FAILED || mprotect(below, PAGE, PROT_NONE) != 0)
        exit(2);
    memset(stack, PAINT, STACK);
    pthread_attr_init(&how);
    if (pthread_attr_setstack(&how, stack, STACK) != 0 || pthread_create(&thread, &how, call, NULL) != 0)
        exit(2);
    pthread_join(thread, NULL);
    while (left < STACK && stack[left] == PAINT)
        left++;
    munmap(below, PAGE + STACK);
    return STACK - left;
}

static int wrong;
static size_t most, least;

static void run(const char *what, void *(*call)(void *), size_t may_take)
{
    code = OPAL_DONE;
    size_t bytes = taken(call);
    bytes -= bytes < least ? bytes : least;
    most = bytes > most && may_take == MOST ? bytes : most;
    if (code != OPAL_DONE || bytes > may_take) {
        fprintf(stderr, "stack: %s: %s, %zu bytes\n", what, opal_error_text(code), bytes);
        wrong = 1;
    }
}

#define RUN(call) run(#call, call, MOST)
#define CLONE(what) run("a clone of " what, clones, MOST_OF_A_COPY), RUN(frees_clone)
#define SAVE(what) run("a save of " what, saves, MOST_OF_A_COPY), run("its load", loads, MOST), RUN(frees_clone), run("its load into a controller", hba_loads, MOST), RUN(frees_clone)

int main(void)
{
    memset(many, 0xf0, sizeof many);
    least = taken(nothing);
    config.ranges = &locked, config.range_count = 1;
    RUN(version), RUN(tokens), RUN(named);
    RUN(drive_new), RUN(about), RUN(media);
    RUN(frame), RUN(opened), RUN(send_fis), RUN(send_block), CLONE("a drive"), SAVE("a drive"), RUN(receive_fis), RUN(accepts), RUN(data);
    RUN(read_fis), RUN(decoded), RUN(payload), RUN(accepts), RUN(expects), RUN(completes), RUN(accepts_into), RUN(completes_into);
    RUN(failure), RUN(reset);
    RUN(read_dma_fis), RUN(accepts), RUN(denial), RUN(denied), RUN(remedy);
    RUN(frees);
    RUN(port_new);
    RUN(port_put), RUN(port_ready), RUN(port_issue), RUN(port_accept), RUN(port_complete), RUN(port_take), RUN(port_data);
    RUN(port_put), RUN(port_turn), RUN(port_shown), RUN(port_denial), RUN(port_denied), RUN(port_denials), CLONE("a port"), SAVE("a port"), RUN(port_recover), RUN(port_reset), RUN(frees);
    RUN(hba_new);
    RUN(hba_start), RUN(hba_turn), RUN(hba_issue), RUN(hba_within), RUN(hba_read), RUN(hba_interrupt), RUN(hba_denial), RUN(hba_denied), CLONE("a controller"), SAVE("a controller");
    RUN(hba_cycle), RUN(frees);
    fprintf(stderr, "stack: at most %zu bytes in any call that copies nothing\n", most);
    return wrong;
}
