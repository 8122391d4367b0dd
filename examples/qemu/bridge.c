/* A self-locking drive before an unmodified QEMU, as a PCI AHCI controller: the other side of QEMU's device x-pci-proxy-dev
   (multi-process QEMU). docs/qemu.md walks through it. This file has the options, and the power-ons one after the other. */
#define _GNU_SOURCE
#include "bridge.h"

#include <getopt.h>
#include <signal.h>
#include <stdarg.h>
#include <stdio.h>
#include <stdlib.h>
#include <string.h>
#include <unistd.h>

enum { RANGES = 17, LONGEST_HOLD = 60000, FAULT = 1, USAGE = 2, BY_SIGNAL = 128 };
static const uint64_t MOST_SAVED = 1ull << 27; /* 64 GiB: each sector is looked at */

static const char usage[] =
    "usage: bridge [OPTION..] -- QEMU [WORD..] [-- QEMU [WORD..]]..\n"
    "\n"
    "Starts QEMU with a self-locking drive behind a PCI AHCI controller. Each `--` begins a power-on of\n"
    "the same drive; the bridge ends with the last one, or with one that a signal ends. QEMU's memory is\n"
    "to be a memory-backend-memfd with share=on.\n"
    "\n"
    "  --image FILE       the first sectors of the drive are those of a raw image\n"
    "  --save-image FILE  behind each power-on what the media hold goes to FILE, a raw image; no locks, no PINs\n"
    "  --save FILE        behind each power-on the whole drive goes to FILE, with locks and PINs\n"
    "  --load FILE        the drive is that of such a FILE; what else a drive is can be said of a new one alone\n"
    "  --sectors N        sectors of 512 bytes (as many as the image has; at least 524288 with opal, else 1000)\n"
    "  --profile NAME     base, field or opal (opal)\n"
    "  --shadow N         how many sectors the shadow MBR can have (262144 with opal, else 8)\n"
    "  --range N,START,LENGTH,RLE,WLE\n"
    "                     a range whose reads (RLE 1) and writes (WLE 1) each power-on locks\n"
    "  --msid TEXT        the PIN that SID has at first (OPALMSID)\n"
    "  --psid TEXT, --serial TEXT, --model TEXT\n"
    "                     what the drive's label and IDENTIFY DEVICE say\n"
    "  --interrupts HOW   where INTA goes: pc (the I/O APIC of -machine pc), q35, 8259 (that of pc), kvm (pc)\n"
    "  --hold MS          queued commands are completed out of order, one each MS milliseconds that the guest\n"
    "                     is silent\n"
    "  --s64a             the controller has 64-bit addresses (CAP.S64A), and reaches memory up to 64 GiB\n"
    "  --explain          behind what denied a command, what would lift it\n"
    "  --any-version      goes on with a QEMU other than " QEMU_VERSION "\n"
    "  --verbose          each access of a register, each section of memory\n"
    "  --version, --help\n"
    "\n"
    "The status is QEMU's, or 128 and the number of the signal that ended it; 1 where the bridge fails, 2 for\n"
    "a wrong option.\n";

static const struct line lines[] = {
    { .name = "pc", .slot = 2, .pin = "/machine/i440fx/ioapic unnamed-gpio-in 10", .socket = -1 },
    { .name = "q35", .slot = 1, .pin = "/machine/q35/ioapic unnamed-gpio-in 21", .socket = -1 },
    { .name = "8259", .slot = 2, .pin = "/machine/unattached/device[7] unnamed-gpio-in 2", .socket = -1 },
    { .name = "kvm", .slot = 2, .pin = NULL, .socket = -1 },
};

static struct {
    opal_config drive;
    opal_range ranges[RANGES];
    struct line line;
    const char *image, *save_image, *save, *load;
    bool is_described, has_sectors, has_shadow, explains, any_version;
    int hold;
} asked = { .drive = OPAL_CONFIG_INIT_OPAL };

static bool is_verbose;
static volatile sig_atomic_t signals;
static pid_t child;
static bool is_on, is_broken; /* whether the drive has power; whether QEMU sent what is no message */

/* Lines on standard error */

static void line_of(const char *form, va_list rest)
{
    fputs("bridge: ", stderr);
    vfprintf(stderr, form, rest);
    fputc('\n', stderr);
}

void tell(const char *form, ...)
{
    va_list rest;
    va_start(rest, form);
    line_of(form, rest);
    va_end(rest);
}

void whisper(const char *form, ...)
{
    va_list rest;
    va_start(rest, form);
    if (is_verbose)
        line_of(form, rest);
    va_end(rest);
}

/* What is to be kept of the drive goes to its files. */
static bool all_saved(void)
{
    bool has_media = !asked.save_image || media_saved(asked.save_image, asked.drive.sectors);
    bool has_drive = !asked.save || drive_saved(asked.save);
    return has_media && has_drive;
}

void stop(const char *form, ...)
{
    va_list rest;
    va_start(rest, form);
    line_of(form, rest);
    va_end(rest);
    if (is_on)
        all_saved();
    exit(FAULT);
}

static _Noreturn void refuse(const char *what, const char *value)
{
    tell("%s %s: bridge --help tells what can be typed", what, value);
    exit(USAGE);
}

/* Options */

static uint64_t number_of(const char *option, const char *text)
{
    char *end;
    uint64_t number = strtoull(text, &end, 10);
    if (end == text || *end != 0 || strchr(text, '-'))
        refuse(option, text);
    return number;
}

static int milliseconds_of(const char *text)
{
    uint64_t number = number_of("--hold", text);
    if (number > LONGEST_HOLD)
        refuse("--hold", text);
    return (int)number;
}

static void range_of(const char *text)
{
    unsigned number, read_enabled, write_enabled;
    unsigned long long start, length;
    char rest;
    if (asked.drive.range_count == RANGES
        || sscanf(text, "%u,%llu,%llu,%u,%u%c", &number, &start, &length, &read_enabled, &write_enabled, &rest) != 5
        || number > 255)
        refuse("--range", text);
    asked.ranges[asked.drive.range_count++] =
        (opal_range){ start, length, (uint8_t)number, read_enabled != 0, write_enabled != 0, 0, 0 };
    asked.drive.ranges = asked.ranges;
}

static uint32_t profile_of(const char *text)
{
    static const char *const names[] = { "base", "field", "opal" };
    for (uint32_t i = 0; i < 3; i++)
        if (strcmp(text, names[i]) == 0)
            return i;
    refuse("--profile", text);
}

static struct line line_by(const char *name)
{
    for (size_t i = 0; i < sizeof lines / sizeof *lines; i++)
        if (strcmp(name, lines[i].name) == 0)
            return lines[i];
    refuse("--interrupts", name);
}

static _Noreturn void says(const char *text)
{
    fputs(text, stdout);
    exit(0);
}

static _Noreturn void version(void)
{
    char text[64];
    opal_count told = opal_version_text(text, sizeof text);
    printf("bridge of opalport %.*s, for QEMU " QEMU_VERSION "\n", told.code == OPAL_DONE ? (int)told.number : 0, text);
    exit(0);
}

enum option_name { SECTORS = 256, PROFILE, SHADOW, RANGE, MSID, PSID, SERIAL, MODEL, /* of the drive, and of the bridge: */
                   IMAGE, SAVE_IMAGE, SAVE, LOAD, INTERRUPTS, HOLD, S64A, EXPLAIN, ANY, VERBOSE, VERSION, HELP };

static const struct option options[] = {
    { "image", required_argument, NULL, IMAGE },     { "save", required_argument, NULL, SAVE },
    { "load", required_argument, NULL, LOAD },       { "save-image", required_argument, NULL, SAVE_IMAGE },
    { "sectors", required_argument, NULL, SECTORS }, { "profile", required_argument, NULL, PROFILE },
    { "shadow", required_argument, NULL, SHADOW },   { "range", required_argument, NULL, RANGE },
    { "msid", required_argument, NULL, MSID },       { "psid", required_argument, NULL, PSID },
    { "serial", required_argument, NULL, SERIAL },   { "model", required_argument, NULL, MODEL },
    { "hold", required_argument, NULL, HOLD },       { "interrupts", required_argument, NULL, INTERRUPTS },
    { "s64a", no_argument, NULL, S64A },
    { "explain", no_argument, NULL, EXPLAIN },       { "any-version", no_argument, NULL, ANY },
    { "verbose", no_argument, NULL, VERBOSE },       { "version", no_argument, NULL, VERSION },
    { "help", no_argument, NULL, HELP },             { NULL, 0, NULL, 0 },
};

/* An option that says what the drive is. */
static bool is_of_drive(int option, const char *value)
{
    opal_config *drive = &asked.drive;
    switch (option) {
    case SECTORS: drive->sectors = number_of("--sectors", value); asked.has_sectors = true; return true;
    case SHADOW: drive->shadow = number_of("--shadow", value); asked.has_shadow = true; return true;
    case PROFILE: drive->profile = profile_of(value); return true;
    case RANGE: range_of(value); return true;
    case MSID: drive->msid = value; drive->msid_length = strlen(value); return true;
    case PSID: drive->psid = value; drive->psid_length = strlen(value); return true;
    case SERIAL: drive->serial = value; drive->serial_length = strlen(value); return true;
    case MODEL: drive->model = value; drive->model_length = strlen(value); return true;
    default: return false;
    }
}

static void takes(int option, const char *value)
{
    switch (option) {
    case IMAGE: asked.image = value; break;
    case SAVE_IMAGE: asked.save_image = value; break;
    case SAVE: asked.save = value; break;
    case LOAD: asked.load = value; break;
    case INTERRUPTS: asked.line = line_by(value); break;
    case HOLD: asked.hold = milliseconds_of(value); break;
    case S64A: asked.drive.wide_addresses = 1; memory_widen(); break;
    case EXPLAIN: asked.explains = true; break;
    case ANY: asked.any_version = true; break;
    case VERBOSE: is_verbose = true; break;
    case VERSION: version();
    case HELP: says(usage);
    default:
        if (!is_of_drive(option, value))
            exit(USAGE); /* getopt has said what is wrong */
        asked.is_described = true;
    }
}

/* What was not said of a new drive: sizes, by the profile and by the image. */
static void completes(void)
{
    static const opal_config small = OPAL_CONFIG_INIT;
    opal_config *drive = &asked.drive;
    uint64_t image = asked.image ? image_sectors(asked.image) : 0;
    if (!asked.has_shadow && drive->profile != OPAL_OPAL)
        drive->shadow = small.shadow;
    if (!asked.has_sectors) {
        drive->sectors = drive->profile == OPAL_OPAL ? drive->sectors : small.sectors;
        drive->sectors = image > drive->sectors ? image : drive->sectors;
    }
    if (image > drive->sectors)
        stop("%s has %llu sectors, the drive %llu", asked.image, (unsigned long long)image, (unsigned long long)drive->sectors);
}

/* The files that are to be written can be. */
static void tries_files(void)
{
    if (asked.save_image && asked.drive.sectors > MOST_SAVED)
        stop("--save-image is for drives of at most %llu sectors", (unsigned long long)MOST_SAVED);
    if (asked.save_image)
        file_tried(asked.save_image);
    if (asked.save)
        file_tried(asked.save);
}

/* The drive: that of a file, or a new one, with what an image has. */
static void has_drive(void)
{
    if (asked.load) {
        if (asked.is_described || asked.image)
            refuse("--load", "and what a drive is: that can be said of a new one alone");
        drive_load(asked.load, asked.explains);
        asked.drive.sectors = controller_sectors();
        tries_files();
        return;
    }
    completes();
    tries_files();
    controller_make(&asked.drive, asked.explains);
    if (asked.image)
        image_load(asked.image, image_sectors(asked.image));
}

/* Power-ons */

static void on_signal(int number)
{
    signals++;
    if (child > 0)
        kill(child, signals > 1 ? SIGKILL : number);
}

/* Signals come while the bridge waits for QEMU, and go to QEMU: when that has ended, the bridge saves and ends. */
static void waits_for_signals(void)
{
    static const int caught[] = { SIGINT, SIGTERM, SIGHUP };
    struct sigaction action = { .sa_handler = on_signal };
    sigset_t blocked;
    sigemptyset(&blocked);
    for (size_t i = 0; i < sizeof caught / sizeof *caught; i++) {
        sigaction(caught[i], &action, NULL);
        sigaddset(&blocked, caught[i]);
    }
    sigprocmask(SIG_BLOCK, &blocked, NULL);
}

/* One power-on: QEMU's status. */
static int powered(char **words)
{
    int socket;
    struct line line = asked.line;
    child = qemu_started(words, &line, &socket);
    if (!line.pin) {
        close(line.socket);
        line.socket = -1;
    }
    is_on = true;
    is_broken = !power_on(socket, &line, asked.hold);
    is_on = false;
    if (is_broken)
        kill(child, SIGTERM);
    close(socket);
    close(line.socket);
    int status = qemu_ended(child);
    child = 0;
    return is_broken ? FAULT : status;
}

static int all_powered(char **words)
{
    int status = 0;
    for (char **next = words; next && signals == 0 && !is_broken && status < BY_SIGNAL;) {
        words = next;
        while (*next && strcmp(*next, "--") != 0)
            next++;
        next = *next ? (*next = NULL, next + 1) : NULL;
        if (!*words)
            refuse("--", "and no QEMU behind it");
        if (!qemu_is_known(words[0]) && !asked.any_version)
            return FAULT;
        status = powered(words);
        if (!all_saved())
            return FAULT;
    }
    return status;
}

int main(int count, char **words)
{
    asked.line = lines[0];
    for (int option; (option = getopt_long(count, words, "+", options, NULL)) != -1;)
        takes(option, optarg);
    if (optind == count || strcmp(words[optind - 1], "--") != 0)
        refuse(optind == count ? "no QEMU" : words[optind], optind == count ? "behind --" : "stands before --");
    memory_none();
    has_drive();
    waits_for_signals();
    return all_powered(words + optind);
}
