/* The kernel's own Opal client, by its ioctls (linux/sed-opal.h), in the guest.

       sedop DEVICE PIN own | activate | revert | mbr 0 (on) or 1 (off) | done 0 or 1
       sedop DEVICE PIN setup RANGE START LENGTH | state RANGE 1 (read alone), 2 (read and write) or 4 (locked) */
#include <fcntl.h>
#include <linux/sed-opal.h>
#include <stdint.h>
#include <stdio.h>
#include <stdlib.h>
#include <string.h>
#include <sys/ioctl.h>

static const char *pin;
static long numbers[3];

static struct opal_key key_of(long range)
{
    struct opal_key key = { .lr = (uint8_t)range, .key_len = (uint8_t)strlen(pin) };
    memcpy(key.key, pin, key.key_len);
    return key;
}

static struct opal_session_info session_of(long range)
{
    return (struct opal_session_info){ .who = OPAL_ADMIN1, .opal_key = key_of(range) };
}

static int of_the_drive(int fd, const char *step)
{
    struct opal_key key = key_of(0);
    struct opal_lr_act active = { .key = key, .num_lrs = 1, .lr = { 0 } };
    if (strcmp(step, "own") == 0)
        return ioctl(fd, IOC_OPAL_TAKE_OWNERSHIP, &key);
    if (strcmp(step, "activate") == 0)
        return ioctl(fd, IOC_OPAL_ACTIVATE_LSP, &active);
    return strcmp(step, "revert") == 0 ? ioctl(fd, IOC_OPAL_REVERT_TPR, &key) : -1;
}

static int of_a_range(int fd, const char *step)
{
    struct opal_user_lr_setup place = { .range_start = (uint64_t)numbers[1], .range_length = (uint64_t)numbers[2], .RLE = 1, .WLE = 1,
                                        .session = session_of(numbers[0]) };
    struct opal_lock_unlock state = { .session = session_of(numbers[0]), .l_state = (uint32_t)numbers[1] };
    return strcmp(step, "setup") == 0 ? ioctl(fd, IOC_OPAL_LR_SETUP, &place) : ioctl(fd, IOC_OPAL_LOCK_UNLOCK, &state);
}

static int of_the_shadow(int fd, const char *step)
{
    struct opal_mbr_data enable = { .key = key_of(0), .enable_disable = (uint8_t)numbers[0] };
    struct opal_mbr_done done = { .key = key_of(0), .done_flag = (uint8_t)numbers[0] };
    return strcmp(step, "mbr") == 0 ? ioctl(fd, IOC_OPAL_ENABLE_DISABLE_MBR, &enable) : ioctl(fd, IOC_OPAL_MBR_DONE, &done);
}

int main(int count, char **words)
{
    if (count < 4)
        return 2;
    const char *step = words[3];
    int fd = open(words[1], O_RDWR), status;
    pin = words[2];
    for (int i = 0; i < 3 && i + 4 < count; i++)
        numbers[i] = atol(words[i + 4]);
    if (fd < 0) {
        perror(words[1]);
        return 1;
    }
    if (strcmp(step, "setup") == 0 || strcmp(step, "state") == 0)
        status = of_a_range(fd, step);
    else
        status = strcmp(step, "mbr") == 0 || strcmp(step, "done") == 0 ? of_the_shadow(fd, step) : of_the_drive(fd, step);
    printf("%s: %d\n", step, status);
    return status != 0;
}
