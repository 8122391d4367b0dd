/* What the parts of the bridge know of one another. bridge.c tells what it is. */
#ifndef BRIDGE_H
#define BRIDGE_H

#include <opalport.h>
#include <stdbool.h>
#include <stddef.h>
#include <stdint.h>
#include <sys/types.h>

#define QEMU_VERSION "7.2" /* with which it was tried */

/* bridge.c: lines on standard error. `stop` ends the bridge with status 1, `whisper` tells with --verbose alone. */
_Noreturn void stop(const char *form, ...) __attribute__((format(printf, 1, 2)));
void tell(const char *form, ...) __attribute__((format(printf, 1, 2)));
void whisper(const char *form, ...) __attribute__((format(printf, 1, 2)));

/* memory.c: the guest's memory below 4 GiB, and with 64-bit addresses that above it, in a window that begins at its address 0. */
#define WINDOW_END 0xffff0000u /* a PC has its firmware from here on up to 4 GiB, and no memory */
#define FOUR_GIB (1ull << 32)
#define WIDE_END (1ull << 36)  /* 64 GiB */
void memory_widen(void);       /* the controller has 64-bit addresses; before memory_none */
bool memory_is_wide(void);
uint64_t memory_end(void);     /* of the window */
void memory_none(void);
void memory_add(uint64_t address, uint64_t size, int fd, int64_t offset);
void memory_own(uint32_t address, uint32_t size); /* memory of the bridge, of zeros */
const opal_region *memory_regions(size_t *number); /* what of the window is memory */
uint8_t *memory_at(uint32_t address);

/* controller.c: the controller, by its registers and its works. */
enum { GHC = 0x4, PxCLB = 0x100, PxFB = 0x108, PxCMD = 0x118, PxTFD = 0x120, PxSIG = 0x124, PxSACT = 0x134, PxCI = 0x138 };
void controller_make(const opal_config *config, bool explains);
void controller_load(const void *saved, size_t length, bool explains);
uint8_t *controller_saved(size_t *length); /* the drive as bytes, which are to be freed; null where it is not saved */
uint64_t controller_sectors(void);
uint32_t controller_read(uint32_t offset);
void controller_write(uint32_t offset, uint32_t value);
bool controller_interrupts(void);
void controller_power_cycle(void);
void controller_work(void);        /* all works that are ready */
void controller_fetch(void);       /* all but completions of queued commands */
bool controller_completes(void);   /* the completion of a queued command, another one each time; false where none is ready */
opal_code controller_sector(uint64_t lba, uint8_t *into);
/* How many commands were fetched, and how many queued ones were held at once at most. */
extern struct counts { unsigned long commands, held; } controller_counts;

/* media.c: a drive of an image, an image of a drive, and the whole drive in a file. */
uint64_t image_sectors(const char *path);
void image_load(const char *path, uint64_t sectors);
void file_tried(const char *path); /* stops where nothing can be saved there */
bool media_saved(const char *path, uint64_t sectors);
void drive_load(const char *path, bool explains);
bool drive_saved(const char *path);

/* device.c: the PCI function that the guest sees. */
void device_power_on(void);
void device_reset(void);
uint64_t device_config_read(uint32_t at, int length);
void device_config_write(uint32_t at, uint32_t value, int length);
uint64_t device_read(uint64_t address, uint32_t length);
void device_write(uint64_t address, uint64_t value, uint32_t length);
bool device_masters(void);  /* whether the guest lets it reach memory */
bool device_line(void);     /* INTA, high or low */

/* power.c: a power-on of the drive, by QEMU's messages on a socket, until QEMU closes that. */
struct line {
    const char *name;
    int slot;        /* of the device on QEMU's PCI bus */
    const char *pin; /* that INTA leads to, as QEMU's test socket names it; null with KVM */
    int socket;      /* the test socket, or -1 */
};
/* With a time to hold queued commands, in milliseconds, or 0. Signals come while it waits. False where QEMU sent no message. */
bool power_on(int socket, const struct line *line, int hold);

/* qemu.c: the start of QEMU, with sockets to its device and to its test server; and its end. */
bool qemu_is_known(char *program);
pid_t qemu_started(char **words, struct line *line, int *socket);
int qemu_ended(pid_t child);

#endif
