/* A power-on, from QEMU's first message to its last: the protocol of QEMU's device x-pci-proxy-dev, as QEMU 7.2 speaks it on a
   64-bit host, least significant byte first. A message is a header, then its size of bytes; files come beside the header. */
#define _GNU_SOURCE
#include "bridge.h"

#include <errno.h>
#include <poll.h>
#include <signal.h>
#include <stdio.h>
#include <string.h>
#include <sys/socket.h>
#include <time.h>
#include <unistd.h>

enum { SYNC_MEMORY, ANSWER, CONFIG_WRITE, CONFIG_READ, REGISTER_WRITE, REGISTER_READ, SET_INTERRUPT, DEVICE_RESET };
enum { MOST_FILES = 8 };

struct header {
    int32_t kind;
    uint32_t unused;
    uint64_t size;
};

union body {
    uint64_t number;
    struct { uint32_t at, value; int32_t length; } config;
    struct { uint64_t addresses[MOST_FILES], sizes[MOST_FILES]; int64_t offsets[MOST_FILES]; } memory; /* one of each a file */
    struct { uint64_t address, value; uint32_t length; uint8_t is_memory; } reg;
};

_Static_assert(sizeof(struct header) == 16 && sizeof(union body) == 192, "the layout of the protocol");

struct message {
    struct header header;
    union body body;
    int files[MOST_FILES];
    int file_count;
};

static struct line line;     /* the interrupt line, as bridge.h has it */
static int qemu = -1;        /* the socket of the messages */
static int raised = -1, ended = -1; /* with KVM: events of a rising line, and of an end of interrupt */
static bool is_high;
static int hold;             /* milliseconds */
static bool is_held;
static bool is_wrong; /* what QEMU sent was no message */
static struct { unsigned long configs, reads, writes, maps, interrupts; } count;

/* Interrupts */

/* Without KVM QEMU's test socket sets the pin of the interrupt controller. QEMU says OK, but not while its main thread waits for an
   answer of the bridge: so no answer is waited for that long. */
static void set_pin(bool high)
{
    char text[256];
    int length = snprintf(text, sizeof text, "set_irq_in %s %d\n", line.pin, high);
    struct pollfd answer = { .fd = line.socket, .events = POLLIN };
    if (send(line.socket, text, (size_t)length, MSG_NOSIGNAL) != length)
        whisper("the pin is not set: %s", strerror(errno));
    else if (poll(&answer, 1, 50) == 1)
        (void)!read(line.socket, text, sizeof text);
}

/* With KVM a rising line is an event, and at each end of interrupt it is told again where it is still high. */
static void kick(void)
{
    uint64_t one = 1;
    if (raised >= 0 && write(raised, &one, sizeof one) != sizeof one)
        whisper("the interrupt is not raised: %s", strerror(errno));
}

static void shows_line(void)
{
    bool high = device_line();
    if (high == is_high)
        return;
    is_high = high;
    count.interrupts += high;
    if (line.socket >= 0)
        set_pin(high);
    else if (high)
        kick();
}

static void ends_interrupt(void)
{
    uint64_t times;
    if (read(ended, &times, sizeof times) == sizeof times && is_high)
        kick();
}

/* Messages */

/* Reads so many bytes; with the first of them may come files. */
static bool has_read(void *into, size_t length, struct message *message)
{
    union { char room[CMSG_SPACE(MOST_FILES * sizeof(int))]; struct cmsghdr head; } beside;
    for (size_t at = 0; at < length;) {
        struct iovec part = { (char *)into + at, length - at };
        struct msghdr asked = { .msg_iov = &part, .msg_iovlen = 1, .msg_control = beside.room, .msg_controllen = sizeof beside.room };
        ssize_t got = recvmsg(qemu, &asked, MSG_CMSG_CLOEXEC);
        if (got <= 0)
            return false;
        at += (size_t)got;
        struct cmsghdr *files = CMSG_FIRSTHDR(&asked);
        if (files && files->cmsg_level == SOL_SOCKET && files->cmsg_type == SCM_RIGHTS && message->file_count == 0) {
            message->file_count = (int)((files->cmsg_len - CMSG_LEN(0)) / sizeof(int));
            memcpy(message->files, CMSG_DATA(files), (size_t)message->file_count * sizeof(int));
        }
    }
    return true;
}

static void answer(uint64_t value)
{
    struct { struct header header; uint64_t value; } told = { { ANSWER, 0, sizeof value }, value };
    if (send(qemu, &told, sizeof told, MSG_NOSIGNAL) != sizeof told)
        whisper("QEMU takes no answer: %s", strerror(errno));
}

static void syncs_memory(const struct message *message)
{
    count.maps++;
    memory_none();
    for (int i = 0; i < message->file_count; i++)
        memory_add(message->body.memory.addresses[i], message->body.memory.sizes[i], message->files[i],
                   message->body.memory.offsets[i]);
}

static void takes_events(struct message *message)
{
    if (message->file_count != 2)
        return;
    close(raised);
    close(ended);
    raised = message->files[0];
    ended = message->files[1];
    message->file_count = 0;
}

/* What the guest wrote may have given the controller something to do. QEMU's processor waits for the answer, so the guest's memory
   stays as it is meanwhile. */
static void works(void)
{
    if (device_masters() && hold == 0)
        controller_work();
    else if (device_masters()) {
        controller_fetch();
        is_held = true;
    }
    shows_line();
}

static void registers(const struct message *message)
{
    uint64_t address = message->body.reg.address, value = message->body.reg.value;
    uint32_t length = message->body.reg.length;
    if (length != 1 && length != 2 && length != 4 && length != 8)
        stop("QEMU asks for %u bytes of registers", length);
    if (message->header.kind == REGISTER_READ) {
        count.reads++;
        value = device_read(address, length);
        answer(value);
        whisper("read %03x: %llx", (unsigned)(address & 0xfff), (unsigned long long)value);
        return;
    }
    count.writes++;
    if (count.maps == 0)
        stop("QEMU has sent no memory: is it a memory-backend-memfd with share=on?");
    whisper("write %03x: %llx", (unsigned)(address & 0xfff), (unsigned long long)value);
    device_write(address, value, length);
    works();
    answer(0);
}

static void configuration(const struct message *message)
{
    uint32_t at = message->body.config.at, value = message->body.config.value;
    count.configs++;
    if (message->header.kind == CONFIG_READ) {
        answer(device_config_read(at, message->body.config.length));
        return;
    }
    device_config_write(at, value, message->body.config.length);
    works();
    answer(0);
}

static bool fails(const char *what, unsigned long long number)
{
    is_wrong = true;
    tell("QEMU sends a message %s %llu: is it QEMU %s?", what, number, QEMU_VERSION);
    return false;
}

static bool serves(struct message *message)
{
    switch (message->header.kind) {
    case SYNC_MEMORY: syncs_memory(message); return true; /* this one and the next have no answer */
    case SET_INTERRUPT: takes_events(message); return true;
    case CONFIG_READ:
    case CONFIG_WRITE: configuration(message); return true;
    case REGISTER_READ:
    case REGISTER_WRITE: registers(message); return true;
    case DEVICE_RESET:
        device_reset();
        is_held = false;
        shows_line();
        answer(0);
        return true;
    default: return fails("of kind", (unsigned)message->header.kind);
    }
}

/* One message and its answer; false where QEMU has gone, or sends what is no message. */
static bool has_served(void)
{
    struct message message = { .file_count = 0 };
    bool goes_on = has_read(&message.header, sizeof message.header, &message);
    if (goes_on && message.header.size > sizeof message.body)
        goes_on = fails("whose size is", message.header.size);
    goes_on = goes_on && has_read(&message.body, message.header.size, &message) && serves(&message);
    for (int i = 0; i < message.file_count; i++)
        close(message.files[i]);
    return goes_on;
}

/* A power-on */

static void power_off(double seconds)
{
    tell("power off after %.1f s: %lu configuration accesses, %lu reads and %lu writes of registers, %lu maps of memory, "
         "%lu interrupts, %lu commands, %lu held at most",
         seconds, count.configs, count.reads, count.writes, count.maps, count.interrupts, controller_counts.commands, controller_counts.held);
    close(raised);
    close(ended);
    raised = ended = -1;
    memory_none();
}

static double now(void)
{
    struct timespec time;
    clock_gettime(CLOCK_MONOTONIC, &time);
    return (double)time.tv_sec + (double)time.tv_nsec / 1e9;
}

bool power_on(int socket, const struct line *by, int held_for)
{
    double start = now();
    qemu = socket;
    line = *by;
    hold = held_for;
    is_high = is_held = is_wrong = false;
    memset(&count, 0, sizeof count);
    memset(&controller_counts, 0, sizeof controller_counts);
    controller_power_cycle();
    device_power_on();
    for (bool goes_on = true; goes_on;) {
        struct pollfd waits[] = { { .fd = qemu, .events = POLLIN }, { .fd = ended, .events = POLLIN } };
        struct timespec time = { hold / 1000, hold % 1000 * 1000000L };
        sigset_t none;
        sigemptyset(&none);
        int ready = ppoll(waits, 2, is_held ? &time : NULL, &none);
        if (ready < 0)
            continue; /* a signal */
        if (ready == 0) {
            is_held = device_masters() && controller_completes();
            shows_line();
        } else if (waits[1].revents != 0)
            ends_interrupt();
        else
            goes_on = has_served();
    }
    power_off(now() - start);
    return !is_wrong;
}
