/* The PCI function: an AHCI controller with its registers behind BAR 5, and the interrupt pin INTA. It has no capabilities, and so
   no MSI: QEMU's proxy carries none. */
#include "bridge.h"

#include <string.h>

enum { CONFIG = 256, REGISTERS = 0x1000 };
enum { COMMAND = 0x4, STATUS = 0x6, CLASS = 0x8, CACHE_LINE = 0xc, BAR5 = 0x24, SUBSYSTEM = 0x2c, LINE_AND_PIN = 0x3c };
enum { MASTER = 0x4, COMMAND_BITS = 0x406, INTX_OFF = 0x4, STATUS_INTX = 0x8 }; /* INTX_OFF is bit 10, of the second byte */
/* Of no vendor that could be mistaken for one: QEMU's number for devices that there are in QEMU alone. */
static const uint32_t IDENTITY = 0x4f501234, AHCI_CLASS = 0x01060100;

static uint8_t config[CONFIG], writable[CONFIG];

static void put(uint32_t at, uint32_t value, int length, uint32_t mask)
{
    for (int i = 0; i < length; i++) {
        config[at + (uint32_t)i] = (uint8_t)(value >> 8 * i);
        writable[at + (uint32_t)i] = (uint8_t)(mask >> 8 * i);
    }
}

void device_power_on(void)
{
    memset(config, 0, sizeof config);
    memset(writable, 0, sizeof writable);
    put(0, IDENTITY, 4, 0);
    put(COMMAND, 0, 2, COMMAND_BITS);
    put(CLASS, AHCI_CLASS, 4, 0);
    put(CACHE_LINE, 0, 2, 0xffff);
    put(BAR5, 0, 4, ~(uint32_t)(REGISTERS - 1));
    put(SUBSYSTEM, IDENTITY, 4, 0);
    put(LINE_AND_PIN, 0x0100, 2, 0xff); /* pin A */
}

/* A reset of the machine is a hardware reset of the drive: a COMRESET. */
void device_reset(void)
{
    device_power_on();
    controller_write(GHC, 1);
}

bool device_masters(void)
{
    return (config[COMMAND] & MASTER) != 0;
}

bool device_line(void)
{
    bool asks = controller_interrupts();
    config[STATUS] = asks ? STATUS_INTX : 0;
    return asks && (config[COMMAND + 1] & INTX_OFF) == 0;
}

uint64_t device_config_read(uint32_t at, int length)
{
    uint64_t value = 0;
    for (uint32_t i = 0; i < 4 && (int)i < length; i++)
        value |= (uint64_t)(at < CONFIG - i ? config[at + i] : 0xff) << 8 * i;
    return value;
}

void device_config_write(uint32_t at, uint32_t value, int length)
{
    for (uint32_t i = 0; i < 4 && (int)i < length && at < CONFIG - i; i++, value >>= 8)
        config[at + i] = (uint8_t)((config[at + i] & ~writable[at + i]) | (value & writable[at + i]));
}

/* QEMU gives the guest's address, of 1, 2, 4 or 8 bytes. */
uint64_t device_read(uint64_t address, uint32_t length)
{
    uint32_t at = (uint32_t)(address % REGISTERS);
    uint64_t value = controller_read(at & ~3u);
    if (length == 8)
        return value | (uint64_t)controller_read(at + 4) << 32;
    return length == 4 ? value : value >> 8 * (at & 3) & ((1u << 8 * length) - 1);
}

/* The controller's registers are written 32 bits at a time (AHCI 1.3.1, 3). */
void device_write(uint64_t address, uint64_t value, uint32_t length)
{
    uint32_t at = (uint32_t)(address % REGISTERS);
    if (length < 4 || at % 4 != 0) {
        tell("a write of %u bytes at %03x is dropped", length, at);
        return;
    }
    controller_write(at, (uint32_t)value);
    if (length == 8)
        controller_write(at + 4, (uint32_t)(value >> 32));
}
