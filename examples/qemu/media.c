/* A drive of an image, an image of a drive, and the whole drive in a file. The image is written by a host of the bridge's own,
   before the guest: by WRITE DMA EXT, as any driver would. An image that is saved is what the media hold, whatever is locked or
   shadowed; no cell of a table, no PIN and no byte of the shadow MBR. The whole drive has all of these (opal_save). */
#define _GNU_SOURCE
#include "bridge.h"

#include <errno.h>
#include <fcntl.h>
#include <stdio.h>
#include <stdlib.h>
#include <string.h>
#include <sys/stat.h>
#include <unistd.h>

enum { LIST_AT = 0x1000, RECEIVED_AT = 0x1400, TABLE_AT = 0x2000, DATA_AT = 0x10000, MOST = 0x10000, ROOM = DATA_AT + MOST, LONGEST = 4096 };
enum { ENABLE = (int)0x80000000, FRE_ST = 0x11, FIS_WORDS = 5, WRITES = 1 << 6, ONE_ENTRY = 1 << 16, ENTRIES_AT = TABLE_AT + 0x80 };

uint64_t image_sectors(const char *path)
{
    int fd = open(path, O_RDONLY | O_CLOEXEC);
    off_t size = fd < 0 ? -1 : lseek(fd, 0, SEEK_END);
    if (size < 0)
        stop("%s: %s", path, strerror(errno));
    close(fd);
    return ((uint64_t)size + OPAL_SECTOR_BYTES - 1) / OPAL_SECTOR_BYTES;
}

static void host_starts(void)
{
    controller_write(GHC, (uint32_t)ENABLE);
    controller_write(PxCLB, LIST_AT);
    controller_write(PxFB, RECEIVED_AT);
    controller_write(PxCMD, FRE_ST);
    controller_work();
}

/* Writes the sectors that stand at DATA_AT. */
static void host_writes(uint64_t lba, uint32_t sectors)
{
    const uint32_t header[] = { FIS_WORDS | WRITES | ONE_ENTRY, 0, TABLE_AT, 0 };
    const uint32_t entry[] = { DATA_AT, 0, 0, sectors * OPAL_SECTOR_BYTES - 1 };
    opal_count told = opal_command_fis(OPAL_WRITE_DMA, lba, sectors, 0, memory_at(TABLE_AT), OPAL_FIS_BYTES);
    memcpy(memory_at(LIST_AT), header, sizeof header);
    memcpy(memory_at(ENTRIES_AT), entry, sizeof entry);
    controller_write(PxCI, 1);
    controller_work();
    if (told.code != OPAL_DONE || controller_read(PxCI) != 0 || (controller_read(PxTFD) & 1) != 0)
        stop("the image: sector %llu is not written", (unsigned long long)lba);
}

static bool is_zero(const uint8_t *bytes, size_t length)
{
    return length == 0 || (bytes[0] == 0 && memcmp(bytes, bytes + 1, length - 1) == 0);
}

/* Fills a buffer as far as the file goes. */
static size_t filled(const char *path, int fd, uint8_t *into)
{
    size_t length = 0;
    for (ssize_t part = 1; part > 0 && length < MOST; length += (size_t)(part > 0 ? part : 0)) {
        part = read(fd, into + length, MOST - length);
        if (part < 0)
            stop("%s: %s", path, strerror(errno));
    }
    return length;
}

void image_load(const char *path, uint64_t sectors)
{
    int fd = open(path, O_RDONLY | O_CLOEXEC);
    if (fd < 0)
        stop("%s: %s", path, strerror(errno));
    memory_own(0, ROOM);
    host_starts();
    for (uint64_t lba = 0; lba < sectors; lba += MOST / OPAL_SECTOR_BYTES) {
        memset(memory_at(DATA_AT), 0, MOST);
        size_t length = filled(path, fd, memory_at(DATA_AT));
        if (!is_zero(memory_at(DATA_AT), length)) /* a new drive has zeros */
            host_writes(lba, (uint32_t)(length + OPAL_SECTOR_BYTES - 1) / OPAL_SECTOR_BYTES);
    }
    close(fd);
    memory_none();
}

/* Writes the sectors of a drive to a file; zeros are holes of it. False with errno where that fails. */
static bool is_written(int fd, uint64_t sectors)
{
    static uint8_t bytes[MOST];
    enum { SECTORS = MOST / OPAL_SECTOR_BYTES };
    for (uint64_t first = 0; first < sectors; first += SECTORS) {
        size_t length = 0;
        for (uint64_t lba = first; lba < sectors && lba < first + SECTORS; lba++, length += OPAL_SECTOR_BYTES)
            if (controller_sector(lba, bytes + length) != OPAL_DONE)
                return errno = EIO, false;
        errno = ENOSPC;
        if (!is_zero(bytes, length) && pwrite(fd, bytes, length, (off_t)(first * OPAL_SECTOR_BYTES)) != (ssize_t)length)
            return false;
    }
    return ftruncate(fd, (off_t)(sectors * OPAL_SECTOR_BYTES)) == 0 && fsync(fd) == 0;
}

/* The file is another one until it is whole: so one that is there stays as it is where anything fails. */
static int opens_beside(const char *path, char *beside, size_t room)
{
    if (snprintf(beside, room, "%s.new", path) >= (int)room)
        return errno = ENAMETOOLONG, -1;
    return open(beside, O_WRONLY | O_CREAT | O_TRUNC | O_CLOEXEC, S_IRUSR | S_IWUSR);
}

void file_tried(const char *path)
{
    char beside[LONGEST];
    int fd = opens_beside(path, beside, sizeof beside);
    if (fd < 0)
        stop("%s cannot be written: %s", path, strerror(errno));
    close(fd);
    unlink(beside);
}

/* Tells whether the file beside it has become the one that is asked for. */
static bool is_kept(const char *path, const char *beside, int fd, bool is_done, const char *what)
{
    is_done = is_done && rename(beside, path) == 0;
    if (!is_done)
        tell("%s is not saved: %s", path, strerror(errno));
    else
        tell("%s has %s", path, what);
    if (fd >= 0)
        close(fd);
    return is_done;
}

bool media_saved(const char *path, uint64_t sectors)
{
    char beside[LONGEST];
    int fd = opens_beside(path, beside, sizeof beside);
    return is_kept(path, beside, fd, fd >= 0 && is_written(fd, sectors), "the media of the drive");
}

/* The whole drive */

void drive_load(const char *path, bool explains)
{
    struct stat about;
    FILE *file = fopen(path, "re");
    uint8_t *bytes = file && fstat(fileno(file), &about) == 0 ? malloc((size_t)about.st_size + 1) : NULL;
    if (!bytes || fread(bytes, 1, (size_t)about.st_size + 1, file) != (size_t)about.st_size)
        stop("%s: %s", path, errno != 0 ? strerror(errno) : "it changes");
    fclose(file);
    controller_load(bytes, (size_t)about.st_size, explains);
    free(bytes);
}

bool drive_saved(const char *path)
{
    char beside[LONGEST];
    size_t length = 0;
    uint8_t *bytes = controller_saved(&length);
    int fd = opens_beside(path, beside, sizeof beside);
    errno = bytes ? errno : ENOMEM;
    bool is_done = bytes && fd >= 0;
    for (size_t at = 0; is_done && at < length;) {
        ssize_t part = write(fd, bytes + at, length - at);
        is_done = part > 0;
        at += is_done ? (size_t)part : 0;
    }
    free(bytes);
    return is_kept(path, beside, fd, is_done && fsync(fd) == 0, "the whole drive");
}
