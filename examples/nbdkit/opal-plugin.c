/* A plugin of nbdkit: a self-locking drive as a block device, for whatever speaks NBD.

       nbdkit -f -U nbd.sock ./opal-plugin.so sectors=20480 range=1,1024,64,1,1,1,1 control=control.sock

   A range is NUMBER,START,LENGTH,ReadLockEnabled,WriteLockEnabled,ReadLocked,WriteLocked, and may be given up to 17 times.
   The rest are sectors, shadow, msid, profile=field, and with it serial, model and psid. With drive=FILE the drive is that of FILE,
   where FILE is there, and goes to FILE when nbdkit ends: PINs and sectors stand in it as they are, and what a drive is can be said
   of a new one alone. Without it the drive ends with the process.

   A read or a write that the drive denies fails with EPERM, one that it fails otherwise with EIO. nbdkit's log has the reason.

   What a block device can't carry goes by a Unix socket, `control`. Numbers have their most significant byte first:
       asked:     'S' protocol(1) sp_specific(2) length(4) bytes    TRUSTED SEND, of whole blocks of 512 bytes
                  'R' protocol(1) sp_specific(2) blocks(4)          TRUSTED RECEIVE
                  'P' or 'H'                                        a power cycle, a hardware reset
                  'D'                                               what denied the last command, in words
       answered:  code(1) status(1) error(1) denied(1) length(4) bytes    code is that of opalport.h */
#define NBDKIT_API_VERSION 2
#include <nbdkit-plugin.h>
#include <opalport.h>

#include <errno.h>
#include <fcntl.h>
#include <pthread.h>
#include <stdio.h>
#include <stdlib.h>
#include <string.h>
#include <sys/socket.h>
#include <sys/stat.h>
#include <sys/un.h>
#include <unistd.h>

#define THREAD_MODEL NBDKIT_THREAD_MODEL_SERIALIZE_ALL_REQUESTS
enum { SECTOR = 512, MOST_SECTORS = 65536, MOST_BLOCKS = 65535, RANGES = 17, FIS = 20, LINE = 256, DONE = 0x50 };

static opal_config config = { .size = sizeof(opal_config), .sectors = 20480, .shadow = 8 };
static opal_range rows[RANGES];
static opal_handle drive = OPAL_NONE;
static pthread_mutex_t lock = PTHREAD_MUTEX_INITIALIZER; /* over the drive: requests and the control thread share it */

static char *control_path, *drive_path;
static bool is_described; /* whether a parameter says what the drive is */
static int listener = -1, caller = -1; /* the control thread's, seen by the thread that ends it */
static pthread_t control_thread;
static bool has_control_thread, is_ending;

static int range_of(const char *value)
{
    unsigned number, flags[4];
    unsigned long long start, length;
    char rest;
    if (config.range_count == RANGES
        || sscanf(value, "%u,%llu,%llu,%u,%u,%u,%u%c", &number, &start, &length, &flags[0], &flags[1], &flags[2], &flags[3],
                  &rest) != 7
        || number > 255) {
        nbdkit_error("range=NUMBER,START,LENGTH,RLE,WLE,RL,WL, at most %d times", RANGES);
        return -1;
    }
    rows[config.range_count++] = (opal_range){ start, length, (uint8_t)number, flags[0] != 0, flags[1] != 0, flags[2] != 0,
                                               flags[3] != 0 };
    return 0;
}

/* nbdkit keeps the texts of parameters as long as the plugin is there. */
static int opal_plugin_config(const char *key, const char *value)
{
    if (strcmp(key, "control") == 0)
        return (control_path = nbdkit_absolute_path(value)) ? 0 : -1;
    if (strcmp(key, "drive") == 0)
        return (drive_path = nbdkit_absolute_path(value)) ? 0 : -1;
    is_described = true;
    if (strcmp(key, "range") == 0)
        return range_of(value);
    if (strcmp(key, "sectors") == 0)
        return nbdkit_parse_uint64_t(key, value, &config.sectors);
    if (strcmp(key, "shadow") == 0)
        return nbdkit_parse_uint64_t(key, value, &config.shadow);
    if (strcmp(key, "profile") == 0 && (strcmp(value, "base") == 0 || strcmp(value, "field") == 0))
        config.profile = strcmp(value, "field") == 0;
    else if (strcmp(key, "msid") == 0) {
        config.msid = value;
        config.msid_length = strlen(value);
    } else if (strcmp(key, "psid") == 0) {
        config.psid = value;
        config.psid_length = strlen(value);
    } else if (strcmp(key, "serial") == 0) {
        config.serial = value;
        config.serial_length = strlen(value);
    } else if (strcmp(key, "model") == 0) {
        config.model = value;
        config.model_length = strlen(value);
    } else {
        nbdkit_error("no parameter %s=%s", key, value);
        return -1;
    }
    return 0;
}

/* The drive itself */

static opal_answer trusted(bool is_send, const uint8_t *head, uint32_t blocks, const uint8_t *bytes)
{
    uint8_t fis[FIS];
    opal_answer answer = { .code = OPAL_LENGTH };
    if (blocks == 0 || blocks > MOST_BLOCKS)
        return answer;
    uint16_t sp_specific = (uint16_t)(head[1] << 8 | head[2]);
    answer.code = opal_trusted_fis(is_send, head[0], sp_specific, (uint16_t)blocks, fis, sizeof fis).code;
    if (answer.code != OPAL_DONE)
        return answer;
    return opal_drive_accept(&drive, fis, sizeof fis, bytes, is_send ? (size_t)blocks * SECTOR : 0);
}

/* What denied the last command; an empty text where nothing did. */
static size_t denial(char *into)
{
    opal_count told = opal_drive_denial(&drive, 0, into, LINE - 1);
    size_t length = told.code == OPAL_DONE ? told.number : 0;
    into[length] = 0;
    return length;
}

static int failed(const char *what, const opal_answer *answer)
{
    char line[LINE];
    denial(line);
    nbdkit_error("%s: %s, status %02x, error %02x%s%s", what, opal_error_text(answer->code), answer->status, answer->error,
                 answer->denied ? ": " : "", answer->denied ? line : "");
    nbdkit_set_error(answer->code == OPAL_OUT_OF_MEMORY ? ENOMEM : answer->denied ? EPERM : EIO);
    return -1;
}

static int transfer(const char *what, enum opal_command command, void *into, const void *from, uint32_t count, uint64_t offset)
{
    uint8_t fis[FIS];
    opal_answer answer = { .code = OPAL_LENGTH };
    int status = 0;
    if (offset % SECTOR != 0 || count % SECTOR != 0 || count / SECTOR > MOST_SECTORS) {
        nbdkit_error("%s: not of whole sectors", what);
        nbdkit_set_error(EINVAL);
        return -1;
    }
    pthread_mutex_lock(&lock);
    answer.code = opal_command_fis(command, offset / SECTOR, count / SECTOR, 0, fis, sizeof fis).code;
    if (answer.code == OPAL_DONE)
        answer = opal_drive_accept(&drive, fis, sizeof fis, from, from ? count : 0);
    if (answer.code == OPAL_DONE && answer.status == DONE && into)
        answer.code = opal_drive_data(&drive, into, count).code;
    if (answer.code != OPAL_DONE || answer.status != DONE)
        status = failed(what, &answer);
    pthread_mutex_unlock(&lock);
    return status;
}

/* The control socket */

static uint32_t number_of(const uint8_t *at)
{
    return (uint32_t)at[0] << 24 | (uint32_t)at[1] << 16 | (uint32_t)at[2] << 8 | at[3];
}

static bool has_read(int fd, void *into, size_t length)
{
    for (size_t at = 0; at < length;) {
        ssize_t part = read(fd, (char *)into + at, length - at);
        if (part <= 0)
            return false;
        at += (size_t)part;
    }
    return true;
}

static bool has_sent(int fd, const void *bytes, size_t length)
{
    for (size_t at = 0; at < length;) {
        ssize_t part = send(fd, (const char *)bytes + at, length - at, MSG_NOSIGNAL);
        if (part <= 0)
            return false;
        at += (size_t)part;
    }
    return true;
}

/* Does what is asked, and makes room for the bytes of the answer. */
static uint8_t *done(uint8_t asked, const uint8_t *head, uint32_t blocks, const uint8_t *bytes, opal_answer *answer)
{
    uint8_t *told = malloc(LINE);
    if (asked == 'S' || asked == 'R')
        *answer = trusted(asked == 'S', head, blocks, bytes);
    else if (asked == 'D')
        answer->length = told ? denial((char *)told) : 0;
    else
        answer->code = opal_drive_reset(&drive, asked == 'H');
    if (asked != 'D' && answer->code == OPAL_DONE && answer->length > 0) {
        free(told);
        told = malloc(answer->length);
        if (!told || opal_drive_data(&drive, told, answer->length).code != OPAL_DONE)
            answer->code = OPAL_OUT_OF_MEMORY;
    }
    if (answer->code != OPAL_DONE)
        answer->length = 0;
    return told;
}

/* One question and its answer; false where the caller has gone, or asks what is no question. */
static bool serves(int fd)
{
    uint8_t asked, head[7] = { 0 }, *bytes = NULL;
    if (!has_read(fd, &asked, 1) || !memchr("SRPHD", asked, 5) || ((asked == 'S' || asked == 'R') && !has_read(fd, head, 7)))
        return false;
    uint32_t number = number_of(head + 3);
    if (asked == 'S') {
        bytes = number % SECTOR == 0 && number / SECTOR <= MOST_BLOCKS ? malloc(number + 1) : NULL;
        if (!bytes || !has_read(fd, bytes, number)) {
            free(bytes);
            return false;
        }
    }
    opal_answer answer = { .code = OPAL_DONE };
    pthread_mutex_lock(&lock);
    uint8_t *told = done(asked, head, asked == 'S' ? number / SECTOR : number, bytes, &answer);
    pthread_mutex_unlock(&lock);
    uint32_t length = (uint32_t)answer.length;
    uint8_t front[8] = { (uint8_t)answer.code, answer.status, answer.error, answer.denied, (uint8_t)(length >> 24),
                         (uint8_t)(length >> 16), (uint8_t)(length >> 8), (uint8_t)length };
    bool goes_on = has_sent(fd, front, sizeof front) && has_sent(fd, told, length);
    free(told);
    free(bytes);
    return goes_on;
}

static void *control(void *unused)
{
    for (;;) {
        int fd = accept(listener, NULL, NULL);
        pthread_mutex_lock(&lock);
        bool ends = fd < 0 || is_ending;
        caller = ends ? -1 : fd;
        pthread_mutex_unlock(&lock);
        while (!ends && serves(fd))
            ;
        pthread_mutex_lock(&lock);
        caller = -1;
        pthread_mutex_unlock(&lock);
        if (fd >= 0)
            close(fd);
        if (ends)
            return unused;
    }
}

static int opens_control(void)
{
    struct sockaddr_un at = { .sun_family = AF_UNIX };
    if (strlen(control_path) >= sizeof at.sun_path) {
        nbdkit_error("%s: too long for a socket", control_path);
        return -1;
    }
    strcpy(at.sun_path, control_path);
    unlink(control_path);
    listener = socket(AF_UNIX, SOCK_STREAM | SOCK_CLOEXEC, 0);
    if (listener < 0 || bind(listener, (const struct sockaddr *)&at, sizeof at) != 0 || listen(listener, 4) != 0
        || pthread_create(&control_thread, NULL, control, NULL) != 0) {
        nbdkit_error("%s: %m", control_path);
        return -1;
    }
    has_control_thread = true;
    return 0;
}

/* The drive in a file */

/* 1 where the drive is that of the file, 0 where there is no file, -1 where it has none. */
static int loads(void)
{
    struct stat about;
    int status = -1;
    FILE *file = fopen(drive_path, "re");
    if (!file && errno == ENOENT)
        return 0;
    uint8_t *bytes = file && fstat(fileno(file), &about) == 0 ? malloc((size_t)about.st_size + 1) : NULL;
    if (!bytes || fread(bytes, 1, (size_t)about.st_size + 1, file) != (size_t)about.st_size)
        nbdkit_error("%s: %m", drive_path);
    else if (is_described)
        nbdkit_error("%s has a drive: what a drive is can be said of a new one alone", drive_path);
    else {
        opal_code code = opal_drive_load(&drive, bytes, (size_t)about.st_size);
        status = code == OPAL_DONE ? 1 : -1;
        if (code == OPAL_DONE)
            config.sectors = opal_about_handle(&drive).sectors;
        else
            nbdkit_error("%s: %s", drive_path, opal_error_text(code));
    }
    free(bytes);
    if (file)
        fclose(file);
    return status;
}

/* The drive as bytes, which are to be freed; null where it is not saved. */
static uint8_t *saved(size_t *length)
{
    uint8_t least[1];
    opal_count told = opal_save(&drive, least, sizeof least);
    uint8_t *bytes = told.code == OPAL_ROOM ? malloc(told.number) : NULL;
    if (bytes)
        told = opal_save(&drive, bytes, told.number);
    *length = told.number;
    if (told.code == OPAL_DONE)
        return bytes;
    free(bytes);
    return NULL;
}

/* The file is another one until it is whole: so one that is there stays as it is where anything fails. */
static void saves(void)
{
    size_t length = 0;
    uint8_t *bytes = saved(&length);
    char *beside = malloc(strlen(drive_path) + sizeof ".new");
    if (beside)
        sprintf(beside, "%s.new", drive_path);
    errno = ENOMEM;
    int fd = bytes && beside ? open(beside, O_WRONLY | O_CREAT | O_TRUNC | O_CLOEXEC, S_IRUSR | S_IWUSR) : -1;
    bool is_done = fd >= 0;
    for (size_t at = 0; is_done && at < length;) {
        ssize_t part = write(fd, bytes + at, length - at);
        is_done = part > 0;
        at += is_done ? (size_t)part : 0;
    }
    if (!is_done || fsync(fd) != 0 || rename(beside, drive_path) != 0)
        nbdkit_error("%s is not saved: %m", drive_path);
    if (fd >= 0)
        close(fd);
    free(beside);
    free(bytes);
}

/* What nbdkit calls */

static int opal_plugin_after_fork(void)
{
    int found = drive_path ? loads() : 0;
    if (found != 0)
        return found < 0 ? -1 : control_path ? opens_control() : 0;
    if (!config.msid) {
        config.msid = "OPALMSID";
        config.msid_length = 8;
    }
    config.ranges = rows;
    uint32_t code = opal_drive_new(&drive, &config);
    if (code != OPAL_DONE) {
        nbdkit_error("no drive: %s", opal_error_text(code));
        return -1;
    }
    return control_path ? opens_control() : 0;
}

static void opal_plugin_unload(void)
{
    if (has_control_thread) {
        pthread_mutex_lock(&lock);
        is_ending = true;
        shutdown(listener, SHUT_RDWR);
        if (caller >= 0)
            shutdown(caller, SHUT_RDWR);
        pthread_mutex_unlock(&lock);
        pthread_join(control_thread, NULL);
        unlink(control_path);
    }
    if (listener >= 0)
        close(listener);
    if (drive_path && opal_about_handle(&drive).code == OPAL_DONE)
        saves();
    free(control_path);
    free(drive_path);
    opal_free(&drive);
}

static void *opal_plugin_open(int is_read_only)
{
    (void)is_read_only;
    return &drive;
}

static int64_t opal_plugin_get_size(void *handle)
{
    (void)handle;
    return (int64_t)config.sectors * SECTOR;
}

static int opal_plugin_block_size(void *handle, uint32_t *least, uint32_t *best, uint32_t *most)
{
    (void)handle;
    *least = SECTOR;
    *best = 4096;
    *most = MOST_SECTORS * SECTOR;
    return 0;
}

static int opal_plugin_pread(void *handle, void *into, uint32_t count, uint64_t offset, uint32_t flags)
{
    (void)handle, (void)flags;
    return transfer("read", OPAL_READ_DMA, into, NULL, count, offset);
}

static int opal_plugin_pwrite(void *handle, const void *from, uint32_t count, uint64_t offset, uint32_t flags)
{
    (void)handle, (void)flags;
    return transfer("write", OPAL_WRITE_DMA, NULL, from, count, offset);
}

static int opal_plugin_flush(void *handle, uint32_t flags)
{
    (void)handle, (void)flags;
    return transfer("flush", OPAL_FLUSH, NULL, NULL, 0, 0);
}

static struct nbdkit_plugin plugin = {
    .name = "opal",
    .longname = "a self-locking drive (TCG Opal)",
    .config = opal_plugin_config,
    .config_help = "sectors=N, shadow=N, msid=TEXT, range=N,START,LENGTH,RLE,WLE,RL,WL, profile=base|field, drive=FILE, control=SOCKET",
    .after_fork = opal_plugin_after_fork,
    .unload = opal_plugin_unload,
    .open = opal_plugin_open,
    .get_size = opal_plugin_get_size,
    .block_size = opal_plugin_block_size,
    .pread = opal_plugin_pread,
    .pwrite = opal_plugin_pwrite,
    .flush = opal_plugin_flush,
};
NBDKIT_REGISTER_PLUGIN(plugin)
