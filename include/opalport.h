/* opalport.h: a self-locking drive (TCG Opal SSC 2.01, TCG Core 2.01) with native command queuing, in your process.

   You hold a handle where other libraries have a pointer:

       opal_handle drive = OPAL_NONE;
       opal_config config = OPAL_CONFIG_INIT;
       config.sectors = 20480;
       if (opal_drive_new(&drive, &config) != OPAL_DONE) ...
       opal_answer answer = opal_drive_accept(&drive, fis, 20, NULL, 0);
       opal_free(&drive);

   opal_port_new makes in its place one AHCI port with 32 command slots, the drive behind it, and the clients that share it;
   opal_hba_new an AHCI controller with one port and the drive behind it, for a driver: registers, and your memory.

   Each call gives a code: OPAL_DONE, or why it was refused, and then nothing was done. opal_error_text tells it in
   words. A call never ends the process and never prints. It waits for no other call, but for the moment in which that looks up
   its handle. It takes memory from malloc, and up to 16 KiB of stack, opal_clone and opal_save up to 30. A text that is given has a length, and
   no zero behind it.

   A handle is a number. The library looks it up in its table, and follows no address in it. A number is never given twice. So a
   handle may be copied and moved in memory; each copy leads to the same object, and to none once that is freed by one of them.

   What a call sees for itself, and refuses with a code:
   - a null pointer (a buffer of 0 bytes may be null), and a pointer to a struct that is not aligned;
   - a buffer that it writes and that has a byte in common with another buffer of the call, or with the handle;
   - a handle at which nothing was made, one that was freed, by itself or by a copy, a second free, bytes of an old handle, and
     bytes that never were one: OPAL_NO_HANDLE;
   - a handle on which another thread is in a call: OPAL_BUSY. Two objects may be used in two threads at once;
   - a handle of another kind, as a drive's for a port's: OPAL_OTHER_KIND;
   - a length that is not right, a tag above 31, and each number that the call does not take.

   What no C function can see, and you owe:
   - a pointer that is not null leads to as many bytes as its length says, or to a handle, for as long as the call takes;
   - no call from a signal handler, or in the child of a fork of a process with threads. */
#ifndef OPALPORT_H
#define OPALPORT_H

#include <stdbool.h>
#include <stddef.h>
#include <stdint.h>

#define OPAL_VERSION_MAJOR 0
#define OPAL_VERSION_MINOR 2
#define OPAL_VERSION_PATCH 0
#define OPAL_VERSION_TEXT "0.2.0"
/* The three in one number, a byte each: what opal_version gives. */
#define OPAL_VERSION ((uint32_t)OPAL_VERSION_MAJOR << 16 | (uint32_t)OPAL_VERSION_MINOR << 8 | (uint32_t)OPAL_VERSION_PATCH)

/* A compiler that can warns where what a call gives is not looked at. */
#if defined(__cplusplus) && __cplusplus >= 201703L
#define OPAL_MUST_USE [[nodiscard]]
#elif defined(__STDC_VERSION__) && __STDC_VERSION__ >= 202311L
#define OPAL_MUST_USE [[nodiscard]]
#elif defined(__GNUC__)
#define OPAL_MUST_USE __attribute__((warn_unused_result))
#else
#define OPAL_MUST_USE
#endif

#ifdef __cplusplus
extern "C" {
#endif

/* Why a call was refused. The numbers do not change; 11 is no longer given. */
typedef enum opal_code {
    OPAL_DONE = 0,          /* done */
    OPAL_OUT_OF_MEMORY = 1, /* an allocation was refused */
    OPAL_NOT_OPEN = 2,      /* the handle has nothing: OPAL_NO_HANDLE is the same */
    OPAL_OTHER_KIND = 3,    /* what it has is of another kind */
    OPAL_NULL = 4,          /* a pointer is null */
    OPAL_LENGTH = 5,        /* a FIS has not 20 bytes, or a payload not as many as its command brings */
    OPAL_TAG = 6,           /* a tag is above 31 */
    OPAL_NUMBER = 7,        /* a number is none of those that the call takes */
    OPAL_NOT_HELD = 8,      /* no command is held under the tag */
    OPAL_ROOM = 9,          /* the buffer is too short; the number says how many bytes there are */
    OPAL_IN_USE = 10,       /* the handle has something already */
    OPAL_NO_RANGE = 12,     /* there is no such range */
    OPAL_OVERLAP = 13,      /* two ranges have a sector in common */
    OPAL_BEYOND = 14,       /* a range ends beyond the drive, or the global range has a place */
    OPAL_MALFORMED = 15,    /* bytes are not what they are to be */

    /* What of a configuration no drive has: the first, in the order RANGE_TWICE, PROFILE, SECTORS, SHADOW and on. */
    OPAL_SECTORS = 16,         /* a drive has 1 to 2^48 sectors */
    OPAL_SHADOW = 17,          /* a shadow MBR has at most 262,144 sectors, with the profile opal just so many, and at most all of the drive */
    OPAL_MSID = 18,            /* an MSID has 1 to 32 bytes */
    OPAL_PROFILE = 19,         /* there is no such profile */
    OPAL_SERIAL = 20,          /* a serial number has at most 20 characters of printable ASCII, and only with the profile field or opal */
    OPAL_MODEL = 21,           /* a model number has at most 40 characters of printable ASCII, and only with the profile field or opal */
    OPAL_PSID = 22,            /* a PSID has at most 32 bytes, and only with the profile field or opal */
    OPAL_DATASTORE = 23,       /* a DataStore has at most 16,777,216 bytes, with the profile opal at least 10,485,760, and base has none */
    OPAL_SEED = 29,            /* with the profile base or field a seed is 0 */
    OPAL_RANGE_TWICE = 24,     /* two rows are of one range */
    OPAL_VERSION_DIFFERS = 25, /* header and library are of versions that do not fit, or a configuration lacks its size */

    /* What no caller of Rattle can do. */
    OPAL_SHARED = 26,     /* a buffer that is written has a byte in common with another one, or with the handle */
    OPAL_MISALIGNED = 27, /* a pointer to a struct is no multiple of 8 */
    OPAL_BUSY = 28,       /* another call is at work on the object of the handle */

    /* Why a step of a port was refused: the first reason that applies, in the order of each call. */
    OPAL_PORT_SLOT_BUSY = 101,    /* the slot is not free */
    OPAL_PORT_NOT_PREPARED = 102, /* the slot has no prepared command */
    OPAL_PORT_QUEUE = 103,        /* queued and other commands would mix */
    OPAL_PORT_NOT_ISSUED = 104,   /* the slot has no issued command */
    OPAL_PORT_NOT_ACCEPTED = 105, /* the slot has no accepted command */
    OPAL_PORT_NOT_FAILED = 106,   /* the port has not failed */
    OPAL_PORT_FAILED = 107,       /* the port has failed, and waits for opal_port_recover or opal_port_reset */
    OPAL_PORT_NOT_ANSWERED = 108, /* the slot has no answer */
    OPAL_PORT_NOT_YOURS = 109,    /* the answer is another client's */
    OPAL_PORT_SIZE = 110,         /* a transfer is empty, above 256 blocks, no whole blocks, or at no address of 48 bits */
    OPAL_PORT_HISTORY_FULL = 111, /* no port is refused so any more: it keeps no history */

    OPAL_NO_HANDLE = OPAL_NOT_OPEN
} opal_code;

/* A code has four bytes, as the library gives it. */
typedef char opal_raw_code_has_four_bytes[sizeof(opal_code) == 4 ? 1 : -1];

/* The Status register of an answer (ACS-3), and its Error register. */
typedef enum opal_status { OPAL_STATUS_DONE = 0x50, OPAL_STATUS_FAILED = 0x51 } opal_status;

typedef enum opal_error {
    OPAL_ERROR_NONE = 0x00,
    OPAL_ERROR_ABORTED = 0x04,     /* aborted or denied */
    OPAL_ERROR_ID_NOT_FOUND = 0x10 /* beyond the drive */
} opal_error;

/* A reset. */
typedef enum opal_reset { OPAL_POWER_CYCLE = 0, OPAL_HARDWARE_RESET = 1 } opal_reset;

/* A profile of a drive. */
typedef enum opal_profile {
    OPAL_BASE = 0, /* what the standards ask for */
    OPAL_FIELD = 1, /* and what unmodified drivers ask for */
    OPAL_OPAL = 2   /* and the sizes that Opal SSC 2.01 wants */
} opal_profile;

/* Security protocols (SPC-4, SECURITY PROTOCOL IN; TCG Core 2.01, 3.3), and the ComIDs of this drive. */
enum opal_protocol {
    OPAL_PROTOCOL_LIST = 0x00, /* what protocols there are: of the profiles field and opal */
    OPAL_PROTOCOL_TCG = 0x01,  /* discovery, sessions and methods */
    OPAL_PROTOCOL_TPER = 0x02  /* TPER_RESET, Block SID */
};

enum opal_com_id {
    OPAL_COM_ID_DISCOVERY = 0x0001,  /* by OPAL_PROTOCOL_TCG: Level 0 discovery */
    OPAL_COM_ID_TPER_RESET = 0x0004, /* by OPAL_PROTOCOL_TPER */
    OPAL_COM_ID_BLOCK_SID = 0x0005,  /* by OPAL_PROTOCOL_TPER: of the profiles field and opal */
    OPAL_COM_ID = 0x1000             /* by OPAL_PROTOCOL_TCG: the first ComID of sessions; the drive has 4 */
};

enum opal_size {
    OPAL_SECTOR_BYTES = 512,
    OPAL_FIS_BYTES = 20,    /* of the FIS of a command */
    OPAL_MOST_DENIALS = 64  /* so many lines of its audit log has a port, the latest */
};

/* What you hold in place of an object: a number, which no other object of this process has, also when it was freed. Its
   fields are the library's. */
typedef struct opal_handle {
    uint64_t mark;
    uint64_t place;
} opal_handle;

#define OPAL_NONE { 0, 0 }

/* The cells of a locking range; range 0 is the global one. Of the last four, 0 is false and any other number true. */
typedef struct opal_range {
    uint64_t start;
    uint64_t length;
    uint8_t range;
    uint8_t read_lock_enabled;
    uint8_t write_lock_enabled;
    uint8_t read_locked;
    uint8_t write_locked;
} opal_range;

/* The drive that you ask for. Begin with OPAL_CONFIG_INIT, or with { .size = sizeof(opal_config), .. }: a configuration
   without its size is refused. With ranges the drive's Locking SP is active, and Admin1 has the MSID as its PIN; with none it
   is as it leaves the factory. */
typedef struct opal_config {
    size_t size;             /* sizeof(opal_config) */
    uint64_t sectors;        /* 1 to 2^48, of 512 bytes; 0 is refused */
    uint64_t shadow;         /* how many of them the shadow MBR can have: at most 262,144, and at most all; 0 is none. With opal 262,144 */
    const void *msid;        /* the PIN that SID has at first: 1 to 32 bytes; null is refused */
    size_t msid_length;
    const opal_range *ranges; /* each of another range; null is none */
    size_t range_count;
    uint32_t profile;        /* enum opal_profile. With base what follows is 0 and null */
    const char *serial;      /* at most 20 characters of printable ASCII; none stand for "0000000001" */
    size_t serial_length;
    const char *model;       /* at most 40; none stand for "Opalport" */
    size_t model_length;
    const void *psid;        /* the PIN on the label: at most 32 bytes; none stand for "the PSID of the label" */
    size_t psid_length;
    uint8_t has_datastore;   /* whether (0 is not) the next field says the size of DataStore; else it has 4,096 bytes, with opal 10,485,760 */
    uint64_t datastore;      /* at most 16,777,216 bytes; 0 is a DataStore of no byte. With opal at least 10,485,760 */
    uint64_t seed;           /* of the random bytes: any number; 0 unless the profile is opal */
    uint8_t wide_addresses;  /* of a controller whether (0 is not) CAP.S64A is 1: its addresses have 64 bits, and else are below 4 GiB */
} opal_config;

/* A drive of the profile base with 1,000 sectors, of which 8 can be shadowed, and the MSID "OPALMSID". */
#define OPAL_CONFIG_INIT \
    { sizeof(opal_config), 1000, 8, "OPALMSID", 8, NULL, 0, OPAL_BASE, NULL, 0, NULL, 0, NULL, 0, 0, 0, 0, 0 }

/* A drive of the profile opal with 524,288 sectors, of which 262,144 can be shadowed, a DataStore of 10,485,760 bytes, the
   MSID "OPALMSID", and the seed 0. What nothing has written takes no memory. */
#define OPAL_CONFIG_INIT_OPAL \
    { sizeof(opal_config), 524288, 262144, "OPALMSID", 8, NULL, 0, OPAL_OPAL, NULL, 0, NULL, 0, NULL, 0, 0, 0, 0, 0 }

/* What a handle has, where code is OPAL_DONE. */
typedef struct opal_about {
    opal_code code;
    uint8_t kind;     /* enum opal_object */
    uint8_t profile;  /* enum opal_profile */
    uint64_t sectors; /* of the drive, or of the drive behind it */
    uint64_t shadow;  /* those of them that the shadow MBR can have */
} opal_about;

typedef enum opal_object { OPAL_DRIVE = 1, OPAL_PORT = 2, OPAL_HBA = 3 } opal_object;

/* What a drive answers to a command, or to a completion. */
typedef struct opal_answer {
    opal_code code;
    uint8_t status; /* enum opal_status */
    uint8_t error;  /* enum opal_error */
    bool held;      /* the command is held until it is completed */
    bool denied;    /* the command, or what it sent, was denied: opal_drive_denial tells by what */
    size_t length;  /* how many bytes of data there are: opal_drive_data gives them */
} opal_answer;

/* What denied an act, as a number. */
typedef enum opal_reason {
    OPAL_REASON_NONE = 0,         /* nothing was denied */
    OPAL_REASON_READ_LOCKED = 1,  /* a read over a range whose read lock is enabled and set */
    OPAL_REASON_WRITE_LOCKED = 2, /* a write over a range whose write lock is enabled and set */
    OPAL_REASON_READ_SHADOW = 3,  /* a read of sectors of which the shadow MBR covers some */
    OPAL_REASON_WRITE_SHADOW = 4, /* a write to sectors that the shadow MBR covers */
    OPAL_REASON_NO_ACE = 5,       /* a method for which no access control element holds */
    OPAL_REASON_NO_ACCESS = 6,    /* a method that the access list does not offer on the object */
    OPAL_REASON_WRONG_PIN = 7,    /* an attempt to authenticate: the PIN is another one, */
    OPAL_REASON_LOCKED_OUT = 8,   /* the authority's tries are used up, */
    OPAL_REASON_DISABLED = 9,     /* it is not enabled, */
    OPAL_REASON_BLOCKED = 10,     /* SID is blocked, */
    OPAL_REASON_UNKNOWN = 11      /* the authority is unknown, or a class of others */
} opal_reason;

/* A denial in numbers, where code is OPAL_DONE: whose act was denied, and by what. What a field is of is told at it; of another
   denial it is 0. */
typedef struct opal_denied {
    opal_code code;
    uint32_t client;  /* who: of a drive what the caller said, of a port the client, of a controller the tag */
    uint8_t reason;   /* enum opal_reason; 0 where there is no denial, and then all else is 0 */
    uint8_t sp;       /* of a method or an attempt: 1 the Admin SP, 2 the Locking SP */
    uint8_t range;    /* of a locked range: its number; 0 is the global one */
    bool has_column;  /* of a method that no element lets: whether it names columns */
    uint32_t count;   /* of a transfer: how many sectors */
    uint64_t step;    /* the number of the act; of a port, of the step */
    uint64_t lba;     /* of a transfer: the first sector */
    uint64_t object;  /* of a method: the UID of the object; of an attempt: of the authority */
    uint64_t method;  /* of a method: its UID */
    uint64_t column;  /* of a method that names columns: the first that is denied */
} opal_denied;

/* A number, where code is OPAL_DONE. */
typedef struct opal_count {
    opal_code code;
    size_t number;
} opal_count;

/* How a queue has failed, if it has: what log page 10h tells. */
typedef struct opal_failed {
    opal_code code;
    bool failed;
    bool queued; /* else the tag is 0 */
    uint8_t tag;
    uint8_t error; /* enum opal_error */
    uint8_t device;
    uint16_t count;
    uint64_t lba;
} opal_failed;

/* The work of a controller's turn, and how it went. */
enum opal_work {
    OPAL_WORK_NONE = 0,      /* nothing was ready */
    OPAL_WORK_SIGNATURE = 1, /* the device told its signature */
    OPAL_WORK_FETCH = 2,     /* a command was fetched, and given to the drive */
    OPAL_WORK_COMPLETE = 3   /* a command that the drive held was completed */
};

enum opal_went {
    OPAL_WENT_POSTED = 0,   /* the signature was posted */
    OPAL_WENT_SERVED = 1,   /* the drive took the command, or completed it; it may have failed or denied it */
    OPAL_WENT_CONTROL = 2,  /* the FIS was no command */
    OPAL_WENT_NO_LIST = 3,  /* these were not in the memory: a command header, */
    OPAL_WENT_NO_TABLE = 4, /* a command table or a descriptor, */
    OPAL_WENT_NO_DATA = 5,  /* a block of data, */
    OPAL_WENT_NO_FIS = 6    /* the place of a received FIS */
};

typedef struct opal_worked {
    opal_code code;
    uint8_t work; /* enum opal_work */
    uint8_t tag;  /* of the command; 0 of the signature */
    uint8_t went; /* enum opal_went */
    bool denied;  /* the command that was fetched, or what it sent, was denied: opal_hba_denial tells by what */
} opal_worked;

/* A region of a host's memory: the address of its first byte, and how many bytes it has. */
typedef struct opal_region {
    uint64_t begin;
    uint64_t length;
} opal_region;

/* What a frame carries, and for whom; the payload stands in the bytes that were opened. */
typedef struct opal_carried {
    opal_code code;
    uint32_t tsn; /* the session's numbers, at the TPer and at the host: both 0 for the session manager */
    uint32_t hsn;
    uint16_t com_id;
    size_t at;
    size_t length;
} opal_carried;

/* A command. opal_command_fis makes the FIS of the first seven; opal_port_put takes all but OPAL_READ_QUEUE_ERROR. */
enum opal_command {
    OPAL_READ_QUEUED = 0,      /* READ FPDMA QUEUED */
    OPAL_WRITE_QUEUED = 1,     /* WRITE FPDMA QUEUED */
    OPAL_READ_DMA = 2,         /* READ DMA EXT */
    OPAL_WRITE_DMA = 3,        /* WRITE DMA EXT */
    OPAL_IDENTIFY = 4,         /* IDENTIFY DEVICE */
    OPAL_READ_QUEUE_ERROR = 5, /* READ LOG DMA EXT of log 10h */
    OPAL_FLUSH = 6,            /* FLUSH CACHE EXT */
    OPAL_TRUSTED_SEND = 7,     /* TRUSTED SEND DMA */
    OPAL_TRUSTED_RECEIVE = 8   /* TRUSTED RECEIVE DMA */
};

/* What a client asks of a port. A write and a send move their payload. A field that is for nothing is not looked at. */
typedef struct opal_request {
    uint64_t lba;
    uint32_t command; /* enum opal_command */
    uint32_t count;   /* of a read or a receive: 1 to 256 blocks of 512 bytes */
    uint16_t com_id;  /* of a send or a receive: its SP Specific */
    uint8_t protocol; /* of a send or a receive: its security protocol */
} opal_request;

/* How a command ended that a client takes. */
enum opal_ending {
    OPAL_TAKEN_DONE = 0,   /* done: opal_port_data gives its data */
    OPAL_TAKEN_FAILED = 1, /* the drive failed or denied it */
    OPAL_TAKEN_RESET = 2   /* a reset stopped it */
};

/* What a client took. */
typedef struct opal_taken {
    opal_code code;
    uint8_t ending; /* enum opal_ending */
    uint8_t status; /* enum opal_status, of a command that failed; else 0 */
    uint8_t error;  /* enum opal_error, of a command that failed; else 0 */
    size_t number;  /* the number of the step */
    size_t length;  /* how many bytes of data there are */
} opal_taken;

/* A step that the engine of a port may do. */
enum opal_engine_step { OPAL_STEP_ISSUE = 0, OPAL_STEP_ACCEPT = 1, OPAL_STEP_COMPLETE = 2, OPAL_STEP_RECOVER = 3 };

typedef struct opal_ready {
    uint8_t step; /* enum opal_engine_step */
    uint8_t tag;  /* 0 of a recovery */
} opal_ready;

/* What a port shows: registers (AHCI 1.3.1, 3.3), and how many denials there were. */
typedef struct opal_shown {
    opal_code code;
    uint32_t interrupts; /* PxIS */
    uint32_t task;       /* PxTFD: status, and error from bit 8 on */
    uint32_t active;     /* PxSACT: the queued tags that are issued or accepted */
    uint32_t issued;     /* PxCI: the tags that are issued, and the one that failed */
    size_t denials;
} opal_shown;

/* What bytes are, for opal_decoded_text. */
enum opal_kind {
    OPAL_LEVEL0 = 0,        /* Level 0 discovery */
    OPAL_COM_PACKET = 1,    /* a ComPacket */
    OPAL_FIS = 2,           /* a FIS */
    OPAL_IDENTIFY_DATA = 3, /* the answer to IDENTIFY DEVICE */
    OPAL_LOG_DIRECTORY = 4, /* log 00h */
    OPAL_QUEUE_ERROR = 5,   /* log 10h */
    OPAL_DATA_PAGE = 6      /* a page of log 30h */
};

/* The functions of the archive. They look for no null pointer, and take an object itself in place of its handle: call those
   below them. A bool is 0 or 1. An object of zeros is none. */
typedef struct opal_raw_object {
    uint64_t mark;
    void *place;
} opal_raw_object;

/* Gives a handle a number that no other one had, whose object is lent. Refused: OPAL_OUT_OF_MEMORY. */
opal_code opal_raw_number(opal_handle *handle);
/* Lends the object of a handle. Refused: OPAL_NOT_OPEN, OPAL_BUSY. */
opal_code opal_raw_lend(const opal_handle *handle, opal_raw_object *object);
/* Takes an object back that was lent; where it is none, the number of the handle is that of no object from now on. */
void opal_raw_give_back(const opal_handle *handle, const opal_raw_object *object);

typedef struct opal_raw_size {
    uint64_t sectors;
    uint64_t shadow;
    uint64_t datastore; /* UINT64_MAX stands for the size that a drive has where none is asked for */
    uint64_t seed;
    uint32_t profile;
    bool wide;
} opal_raw_size;

uint32_t opal_raw_version(void);
opal_count opal_raw_version_text(uint8_t *into, size_t length);
opal_about opal_raw_about(opal_raw_object *object);
opal_count opal_raw_media(opal_raw_object *object, uint64_t lba, uint8_t *into, size_t length);
opal_count opal_raw_remedy(opal_raw_object *object, size_t place, uint8_t *into, size_t length);

opal_code opal_raw_drive_new(opal_raw_object *object, opal_raw_size size, const uint8_t *msid, size_t msid_length,
                             const uint8_t *serial, size_t serial_length, const uint8_t *model, size_t model_length,
                             const uint8_t *psid, size_t psid_length, const opal_range *ranges, size_t range_count);
opal_code opal_raw_clone(opal_raw_object *object, opal_raw_object *from);
opal_count opal_raw_save(opal_raw_object *object, uint8_t *into, size_t length);
opal_code opal_raw_drive_load(opal_raw_object *object, const uint8_t *saved, size_t length);
opal_code opal_raw_hba_load(opal_raw_object *object, const uint8_t *saved, size_t length, bool wide);
opal_code opal_raw_free(opal_raw_object *object);
opal_answer opal_raw_drive_accept(opal_raw_object *object, const uint8_t *fis, size_t fis_length, const uint8_t *payload,
                                  size_t payload_length);
opal_answer opal_raw_drive_complete(opal_raw_object *object, uint8_t tag, const uint8_t *payload, size_t payload_length);
opal_answer opal_raw_drive_accept_into(opal_raw_object *object, const uint8_t *fis, size_t fis_length, const uint8_t *payload,
                                       size_t payload_length, uint8_t *into, size_t length);
opal_answer opal_raw_drive_complete_into(opal_raw_object *object, uint8_t tag, const uint8_t *payload, size_t payload_length,
                                         uint8_t *into, size_t length);
opal_code opal_raw_drive_reset(opal_raw_object *object, uint32_t kind);
opal_count opal_raw_drive_payload(opal_raw_object *object, const uint8_t *fis, size_t fis_length);
opal_count opal_raw_drive_expects(opal_raw_object *object, uint8_t tag);
opal_failed opal_raw_drive_failure(opal_raw_object *object);
opal_count opal_raw_drive_data(opal_raw_object *object, uint8_t *into, size_t length);
opal_count opal_raw_drive_denial(opal_raw_object *object, uint32_t client, uint8_t *into, size_t length);
opal_denied opal_raw_drive_denied(opal_raw_object *object, uint32_t client);

opal_code opal_raw_port_new(opal_raw_object *object, opal_raw_size size, const uint8_t *msid, size_t msid_length,
                            const uint8_t *serial, size_t serial_length, const uint8_t *model, size_t model_length,
                            const uint8_t *psid, size_t psid_length, const opal_range *ranges, size_t range_count);
opal_count opal_raw_port_put(opal_raw_object *object, uint32_t client, uint8_t tag, opal_request request,
                             const uint8_t *payload, size_t payload_length);
opal_count opal_raw_port_issue(opal_raw_object *object, uint8_t tag);
opal_count opal_raw_port_accept(opal_raw_object *object, uint8_t tag);
opal_count opal_raw_port_complete(opal_raw_object *object, uint8_t tag);
opal_count opal_raw_port_recover(opal_raw_object *object);
opal_count opal_raw_port_reset(opal_raw_object *object, uint32_t client, uint32_t kind);
opal_taken opal_raw_port_take(opal_raw_object *object, uint32_t client, uint8_t tag);
opal_count opal_raw_port_turn(opal_raw_object *object, size_t choice);
opal_count opal_raw_port_ready(opal_raw_object *object, opal_ready *into, size_t length);
opal_count opal_raw_port_data(opal_raw_object *object, uint8_t *into, size_t length);
opal_shown opal_raw_port_shown(opal_raw_object *object);
opal_count opal_raw_port_denial(opal_raw_object *object, size_t place, uint8_t *into, size_t length);
opal_denied opal_raw_port_denied(opal_raw_object *object, size_t place);

opal_code opal_raw_hba_new(opal_raw_object *object, opal_raw_size size, const uint8_t *msid, size_t msid_length,
                           const uint8_t *serial, size_t serial_length, const uint8_t *model, size_t model_length,
                           const uint8_t *psid, size_t psid_length, const opal_range *ranges, size_t range_count);
opal_count opal_raw_hba_read(opal_raw_object *object, uint32_t offset);
opal_code opal_raw_hba_write(opal_raw_object *object, uint32_t offset, uint32_t value);
opal_count opal_raw_hba_interrupt(opal_raw_object *object);
opal_code opal_raw_hba_power_cycle(opal_raw_object *object);
opal_worked opal_raw_hba_turn(opal_raw_object *object, size_t choice, uint64_t base, uint8_t *memory, size_t length);
opal_worked opal_raw_hba_turn_within(opal_raw_object *object, size_t choice, uint64_t base, uint8_t *memory, size_t length,
                                     const opal_region *regions, size_t region_count);
opal_count opal_raw_hba_denial(opal_raw_object *object, uint8_t *into, size_t length);
opal_denied opal_raw_hba_denied(opal_raw_object *object);

opal_count opal_raw_tokens(bool by_name, const uint8_t *bytes, size_t bytes_length, uint8_t *into, size_t length);
opal_count opal_raw_decoded(uint32_t kind, const uint8_t *bytes, size_t bytes_length, uint8_t *into, size_t length);
opal_count opal_raw_call_named(const uint8_t *line, size_t line_length, uint8_t *into, size_t length);
opal_count opal_raw_frame(uint16_t com_id, uint32_t tsn, uint32_t hsn, const uint8_t *payload, size_t payload_length,
                          uint8_t *into, size_t length);
opal_carried opal_raw_opened(const uint8_t *bytes, size_t length);
opal_count opal_raw_command_fis(uint32_t command, uint64_t lba, uint32_t count, uint8_t tag, uint8_t *into,
                                size_t length);
opal_count opal_raw_trusted_fis(bool is_send, uint8_t protocol, uint16_t sp_specific, uint16_t blocks, uint8_t *into,
                                size_t length);

/* What stands for a buffer of no bytes whose pointer is null. */
static inline uint8_t *opal_raw_empty(void)
{
    static uint64_t nothing;
    return (uint8_t *)&nothing;
}

static inline uint8_t *opal_raw_at(const void *bytes)
{
    return bytes != NULL ? (uint8_t *)bytes : opal_raw_empty();
}

/* What is wrong with a handle, as far as its pointer tells. */
static inline opal_code opal_raw_of(const opal_handle *handle)
{
    if (handle == NULL)
        return OPAL_NULL;
    return (uintptr_t)handle % sizeof(uint64_t) != 0 ? OPAL_MISALIGNED : OPAL_DONE;
}

/* What is wrong with a buffer: it has bytes and its pointer is null, or more bytes than there can be. */
static inline opal_code opal_raw_buffer(const void *bytes, size_t length)
{
    if (length != 0 && bytes == NULL)
        return OPAL_NULL;
    return length > SIZE_MAX / 2 ? OPAL_LENGTH : OPAL_DONE;
}

/* Whether two buffers have a byte in common. */
static inline bool opal_raw_meet(const void *one, size_t one_length, const void *other, size_t other_length)
{
    uintptr_t at = (uintptr_t)one, from = (uintptr_t)other;
    return one_length != 0 && other_length != 0 && (at < from ? from - at < one_length : at - from < other_length);
}

/* What is wrong with a handle, or with a buffer that is read. */
static inline opal_code opal_raw_from(const opal_handle *handle, const void *bytes, size_t length)
{
    opal_code fault = opal_raw_of(handle);
    return fault != OPAL_DONE ? fault : opal_raw_buffer(bytes, length);
}

/* What is wrong with a handle, or with a buffer that is written. */
static inline opal_code opal_raw_into(const opal_handle *handle, const void *into, size_t length)
{
    opal_code fault = opal_raw_from(handle, into, length);
    return fault == OPAL_DONE && opal_raw_meet(handle, sizeof *handle, into, length) ? OPAL_SHARED : fault;
}

/* What is wrong with a buffer that is read, or with one that is written. */
static inline opal_code opal_raw_between(const void *bytes, size_t bytes_length, const void *into, size_t length)
{
    opal_code fault = opal_raw_buffer(bytes, bytes_length);
    if (fault == OPAL_DONE)
        fault = opal_raw_buffer(into, length);
    return fault == OPAL_DONE && opal_raw_meet(bytes, bytes_length, into, length) ? OPAL_SHARED : fault;
}

/* What is wrong with the pointers and lengths of a configuration, or with its version. */
static inline opal_code opal_raw_asked(const opal_config *config)
{
    if (config == NULL)
        return OPAL_NULL;
    if ((uintptr_t)config % sizeof(uint64_t) != 0)
        return OPAL_MISALIGNED;
    if (config->size != sizeof *config || opal_raw_version() >> 8 != OPAL_VERSION >> 8)
        return OPAL_VERSION_DIFFERS;
    if (config->range_count > SIZE_MAX / 2 / sizeof(opal_range))
        return OPAL_LENGTH;
    if ((uintptr_t)config->ranges % sizeof(uint64_t) != 0)
        return OPAL_MISALIGNED;
    opal_code fault = opal_raw_buffer(config->msid, config->msid_length);
    if (fault == OPAL_DONE)
        fault = opal_raw_buffer(config->serial, config->serial_length);
    if (fault == OPAL_DONE)
        fault = opal_raw_buffer(config->model, config->model_length);
    if (fault == OPAL_DONE)
        fault = opal_raw_buffer(config->psid, config->psid_length);
    return fault != OPAL_DONE ? fault : opal_raw_buffer(config->ranges, config->range_count);
}

/* A call at work: the object that is lent to it, and the handle that it is to be given back to. */
typedef struct opal_raw_call {
    opal_raw_object object;
    opal_handle handle;
} opal_raw_call;

/* Begins a call, where nothing is wrong so far; and ends it. */
static inline opal_code opal_raw_begin(opal_raw_call *call, const opal_handle *handle, opal_code fault)
{
    if (fault != OPAL_DONE)
        return fault;
    call->handle = *handle;
    return opal_raw_lend(&call->handle, &call->object);
}

static inline void opal_raw_end(const opal_raw_call *call)
{
    opal_raw_give_back(&call->handle, &call->object);
}

/* How the archive makes a drive, a port or a controller. */
typedef opal_code opal_raw_make(opal_raw_object *object, opal_raw_size size, const uint8_t *msid, size_t msid_length,
                                const uint8_t *serial, size_t serial_length, const uint8_t *model, size_t model_length,
                                const uint8_t *psid, size_t psid_length, const opal_range *ranges, size_t range_count);

/* Whether a handle has nothing. */
static inline bool opal_raw_is_free(const opal_handle *handle)
{
    opal_raw_object object;
    opal_code fault = opal_raw_lend(handle, &object);
    if (fault == OPAL_DONE)
        opal_raw_give_back(handle, &object);
    return fault == OPAL_NOT_OPEN;
}

/* Gives a new object, where it was made, to a handle with nothing. */
static inline opal_code opal_raw_made(opal_raw_call *call, opal_handle *handle, opal_code fault)
{
    if (fault != OPAL_DONE)
        return fault;
    fault = opal_raw_number(&call->handle);
    if (fault != OPAL_DONE) {
        opal_raw_free(&call->object);
        return fault;
    }
    opal_raw_end(call);
    *handle = call->handle;
    return OPAL_DONE;
}

/* Makes it as it is asked for, where nothing is wrong with what was given. */
static inline opal_code opal_raw_new(opal_raw_make *make, opal_handle *handle, const opal_config *config)
{
    opal_code fault = opal_raw_of(handle);
    if (fault == OPAL_DONE)
        fault = opal_raw_asked(config);
    if (fault != OPAL_DONE)
        return fault;
    opal_raw_size size = { config->sectors, config->shadow, UINT64_MAX, config->seed, config->profile,
                           config->wide_addresses != 0 };
    if (config->has_datastore != 0) /* the largest number stands for none that is asked for, and no drive has the one below it */
        size.datastore = config->datastore == UINT64_MAX ? UINT64_MAX - 1 : config->datastore;
    opal_raw_call call = { { 0, NULL }, OPAL_NONE };
    if (!opal_raw_is_free(handle))
        return OPAL_IN_USE;
    fault = make(&call.object, size, opal_raw_at(config->msid), config->msid_length, opal_raw_at(config->serial),
                 config->serial_length, opal_raw_at(config->model), config->model_length, opal_raw_at(config->psid),
                 config->psid_length, (const opal_range *)(const void *)opal_raw_at(config->ranges), config->range_count);
    return opal_raw_made(&call, handle, fault);
}

/* The version of the library, a byte each of major, minor and patch: OPAL_VERSION of the header that it was made with. A
   header fits a library of the same major and minor; opal_drive_new and its like refuse another with OPAL_VERSION_DIFFERS. */
static inline uint32_t opal_version(void)
{
    return opal_raw_version();
}

/* Copies the version of the library as a text, as `0.2.0`, or `0.2.0 unproved` of one that was built without proofs. It has
   no zero behind it. Refused: OPAL_NULL, OPAL_LENGTH, OPAL_ROOM. */
OPAL_MUST_USE static inline opal_count opal_version_text(char *into, size_t length)
{
    opal_count refused = { opal_raw_buffer(into, length), 0 };
    return refused.code != OPAL_DONE ? refused : opal_raw_version_text(opal_raw_at(into), length);
}

/* Makes the drive that is asked for, at a handle with nothing. Refused: OPAL_NULL, OPAL_MISALIGNED, OPAL_LENGTH,
   OPAL_VERSION_DIFFERS, OPAL_IN_USE; of a setting that no drive has OPAL_RANGE_TWICE, OPAL_PROFILE, OPAL_SECTORS, OPAL_SHADOW,
   OPAL_MSID, OPAL_SERIAL, OPAL_MODEL, OPAL_PSID, OPAL_DATASTORE, OPAL_SEED; of the first row that does not fit OPAL_NO_RANGE,
   OPAL_OVERLAP, OPAL_BEYOND; OPAL_OUT_OF_MEMORY. */
OPAL_MUST_USE static inline opal_code opal_drive_new(opal_handle *drive, const opal_config *config)
{
    return opal_raw_new(opal_raw_drive_new, drive, config);
}

/* Frees what a handle has, of any kind. Refused: OPAL_NULL, OPAL_MISALIGNED, OPAL_NOT_OPEN, OPAL_BUSY. */
static inline opal_code opal_free(opal_handle *handle)
{
    opal_raw_call call;
    opal_code told = opal_raw_begin(&call, handle, opal_raw_of(handle));
    if (told != OPAL_DONE)
        return told;
    told = opal_raw_free(&call.object);
    opal_raw_end(&call);
    handle->mark = handle->place = 0;
    return told;
}

/* Makes what another handle has once more, at a handle with nothing: a drive, a port or a controller. Rows, sessions, open
   transactions, held commands, waiting responses, registers and the bytes of the media are the same, in memory of their own. Both
   answer the same from then on, and what is done with one changes nothing of the other. The copy goes on with the numbers of acts and
   steps; it has no data of a last answer. Refused: OPAL_NULL, OPAL_MISALIGNED, OPAL_IN_USE; of the other handle OPAL_NOT_OPEN,
   OPAL_BUSY; OPAL_OUT_OF_MEMORY. */
OPAL_MUST_USE static inline opal_code opal_clone(opal_handle *handle, const opal_handle *from)
{
    opal_code fault = opal_raw_of(handle);
    if (fault == OPAL_DONE)
        fault = opal_raw_of(from);
    if (fault != OPAL_DONE)
        return fault;
    if (!opal_raw_is_free(handle))
        return OPAL_IN_USE;
    opal_raw_call call = { { 0, NULL }, OPAL_NONE }, other;
    fault = opal_raw_begin(&other, from, OPAL_DONE);
    if (fault != OPAL_DONE)
        return fault;
    fault = opal_raw_clone(&call.object, &other.object);
    opal_raw_end(&other);
    return opal_raw_made(&call, handle, fault);
}

/* Copies the drive of a handle of any kind as bytes: what a power cycle leaves of it, rows, PINs and sectors. They are what
   opal_drive_load and opal_hba_load take, and may be kept in a file; nothing in them is encrypted. What the handle has goes on as it was. A
   buffer without room is as before, and the number tells how many bytes there are. Refused: OPAL_NULL, OPAL_MISALIGNED,
   OPAL_SHARED, OPAL_LENGTH, OPAL_NOT_OPEN, OPAL_BUSY, OPAL_ROOM, OPAL_OUT_OF_MEMORY; OPAL_MALFORMED of a drive with a cell of
   2^24 bytes or more, which none has that calls have made. */
OPAL_MUST_USE static inline opal_count opal_save(const opal_handle *handle, void *into, size_t length)
{
    opal_raw_call call;
    opal_count told = { opal_raw_begin(&call, handle, opal_raw_into(handle, into, length)), 0 };
    if (told.code != OPAL_DONE)
        return told;
    told = opal_raw_save(&call.object, opal_raw_at(into), length);
    opal_raw_end(&call);
    return told;
}

/* Why a handle can't be given what is loaded from these bytes. */
static inline opal_code opal_raw_unloadable(const opal_handle *handle, const void *saved, size_t length)
{
    opal_code fault = opal_raw_of(handle);
    if (fault == OPAL_DONE)
        fault = opal_raw_buffer(saved, length);
    if (fault != OPAL_DONE)
        return fault;
    if (opal_raw_version() >> 8 != OPAL_VERSION >> 8)
        return OPAL_VERSION_DIFFERS;
    return opal_raw_is_free(handle) ? OPAL_DONE : OPAL_IN_USE;
}

/* Makes the drive that was saved as these bytes, at a handle with nothing. It is as a power cycle leaves it: each answer is the one
   that the saved drive gives behind a power cycle. Refused: OPAL_NULL, OPAL_MISALIGNED, OPAL_LENGTH, OPAL_IN_USE,
   OPAL_VERSION_DIFFERS, OPAL_OUT_OF_MEMORY; OPAL_MALFORMED of bytes that are no saved drive, of another version of its form, or
   damaged. */
OPAL_MUST_USE static inline opal_code opal_drive_load(opal_handle *drive, const void *saved, size_t length)
{
    opal_code fault = opal_raw_unloadable(drive, saved, length);
    if (fault != OPAL_DONE)
        return fault;
    opal_raw_call call = { { 0, NULL }, OPAL_NONE };
    return opal_raw_made(&call, drive, opal_raw_drive_load(&call.object, opal_raw_at(saved), length));
}

static inline opal_code opal_raw_hba_loaded(opal_handle *hba, const void *saved, size_t length, bool wide)
{
    opal_code fault = opal_raw_unloadable(hba, saved, length);
    if (fault != OPAL_DONE)
        return fault;
    opal_raw_call call = { { 0, NULL }, OPAL_NONE };
    return opal_raw_made(&call, hba, opal_raw_hba_load(&call.object, opal_raw_at(saved), length, wide));
}

/* Makes a controller over the drive that was saved as these bytes, at a handle with nothing. Its registers are as after its reset,
   its addresses are below 4 GiB, and it counts the acts of its drive from then on. Refused: as opal_drive_load. */
OPAL_MUST_USE static inline opal_code opal_hba_load(opal_handle *hba, const void *saved, size_t length)
{
    return opal_raw_hba_loaded(hba, saved, length, false);
}

/* The same, but CAP.S64A is 1: the controller's addresses have 64 bits. */
OPAL_MUST_USE static inline opal_code opal_hba_load_wide(opal_handle *hba, const void *saved, size_t length)
{
    return opal_raw_hba_loaded(hba, saved, length, true);
}

/* What a handle has: its kind, and of the drive the profile and the sectors. Refused: OPAL_NULL, OPAL_MISALIGNED,
   OPAL_NOT_OPEN, OPAL_BUSY. */
OPAL_MUST_USE static inline opal_about opal_about_handle(const opal_handle *handle)
{
    opal_raw_call call;
    opal_about told = { opal_raw_begin(&call, handle, opal_raw_of(handle)), 0, 0, 0, 0 };
    if (told.code != OPAL_DONE)
        return told;
    told = opal_raw_about(&call.object);
    opal_raw_end(&call);
    return told;
}

/* Copies the 512 bytes of a sector as the media of the drive hold them, whatever is locked or shadowed: a look for a test, and no
   act of the drive. It takes a handle of any kind. Refused: OPAL_NULL, OPAL_MISALIGNED, OPAL_SHARED, OPAL_LENGTH, OPAL_NOT_OPEN,
   OPAL_BUSY, OPAL_NUMBER beyond the drive, OPAL_ROOM. */
OPAL_MUST_USE static inline opal_count opal_media(const opal_handle *handle, uint64_t lba, void *into, size_t length)
{
    opal_raw_call call;
    opal_count told = { opal_raw_begin(&call, handle, opal_raw_into(handle, into, length)), 0 };
    if (told.code != OPAL_DONE)
        return told;
    told = opal_raw_media(&call.object, lba, opal_raw_at(into), length);
    opal_raw_end(&call);
    return told;
}

/* Copies what would lift a denial, by the rows in force now, as `lifted by: Set of Locking_Range1 ReadLocked = 0 by Admins
   (ACE_Locking_Range1_Set_RdLocked)`; no bytes, where nothing was denied. Of a drive it is the denial of its last command, of a
   port the line at a place of its audit log, of a controller the command of its last turn; the place is looked at for a port alone.
   It has no zero behind it. Refused: OPAL_NULL, OPAL_MISALIGNED, OPAL_SHARED, OPAL_LENGTH, OPAL_NOT_OPEN, OPAL_BUSY,
   OPAL_ROOM, OPAL_OUT_OF_MEMORY. */
OPAL_MUST_USE static inline opal_count opal_remedy(const opal_handle *handle, size_t place, char *into, size_t length)
{
    opal_raw_call call;
    opal_count told = { opal_raw_begin(&call, handle, opal_raw_into(handle, into, length)), 0 };
    if (told.code != OPAL_DONE)
        return told;
    told = opal_raw_remedy(&call.object, place, opal_raw_at(into), length);
    opal_raw_end(&call);
    return told;
}

/* What follows are the calls of a drive. All can be refused with OPAL_NULL, OPAL_MISALIGNED, OPAL_NOT_OPEN, OPAL_BUSY and
   OPAL_OTHER_KIND;
   those with a buffer with OPAL_LENGTH, and those that write one with OPAL_SHARED. */

/* Gives the drive the FIS of a command (Serial ATA, "Register Host to Device FIS": 20 bytes), with the payload that the
   command brings: opal_drive_payload tells how many bytes. A queued read or write is held (`held`) until it is completed;
   any other command is executed whole. A command that fails, or is denied, was done: the code is OPAL_DONE, and status and
   error say it. Refused: OPAL_LENGTH, OPAL_OUT_OF_MEMORY. The drive is then as before; the data of the last answer may be
   gone. */
OPAL_MUST_USE static inline opal_answer opal_drive_accept(opal_handle *drive, const uint8_t *fis, size_t fis_length,
                                                          const void *payload, size_t payload_length)
{
    opal_raw_call call;
    opal_answer told = { opal_raw_from(drive, fis, fis_length), 0, 0, false, false, 0 };
    if (told.code == OPAL_DONE)
        told.code = opal_raw_buffer(payload, payload_length);
    told.code = opal_raw_begin(&call, drive, told.code);
    if (told.code != OPAL_DONE)
        return told;
    told = opal_raw_drive_accept(&call.object, opal_raw_at(fis), fis_length, opal_raw_at(payload), payload_length);
    opal_raw_end(&call);
    return told;
}

/* Moves the data of the command that is held under a tag, and lets it go. A write brings its payload:
   opal_drive_expects tells how many bytes. Refused: OPAL_TAG, OPAL_NOT_HELD, OPAL_LENGTH, OPAL_OUT_OF_MEMORY. */
OPAL_MUST_USE static inline opal_answer opal_drive_complete(opal_handle *drive, uint8_t tag, const void *payload,
                                                            size_t payload_length)
{
    opal_raw_call call;
    opal_answer told = { opal_raw_begin(&call, drive, opal_raw_from(drive, payload, payload_length)), 0, 0, false, false, 0 };
    if (told.code != OPAL_DONE)
        return told;
    told = opal_raw_drive_complete(&call.object, tag, opal_raw_at(payload), payload_length);
    opal_raw_end(&call);
    return told;
}

/* As opal_drive_accept, with the data of the answer at the front of a buffer: one call in place of two. Where the buffer is shorter
   than the data are long (`length` of the answer), it is as before, and opal_drive_data gives them. */
OPAL_MUST_USE static inline opal_answer opal_drive_accept_into(opal_handle *drive, const uint8_t *fis, size_t fis_length,
                                                               const void *payload, size_t payload_length, void *into,
                                                               size_t length)
{
    opal_raw_call call;
    opal_answer told = { opal_raw_from(drive, fis, fis_length), 0, 0, false, false, 0 };
    if (told.code == OPAL_DONE)
        told.code = opal_raw_between(payload, payload_length, into, length);
    if (told.code == OPAL_DONE && opal_raw_meet(fis, fis_length, into, length))
        told.code = OPAL_SHARED;
    if (told.code == OPAL_DONE)
        told.code = opal_raw_into(drive, into, length);
    told.code = opal_raw_begin(&call, drive, told.code);
    if (told.code != OPAL_DONE)
        return told;
    told = opal_raw_drive_accept_into(&call.object, opal_raw_at(fis), fis_length, opal_raw_at(payload), payload_length,
                                      opal_raw_at(into), length);
    opal_raw_end(&call);
    return told;
}

/* As opal_drive_complete, with the data of the answer in a buffer, as opal_drive_accept_into has it. */
OPAL_MUST_USE static inline opal_answer opal_drive_complete_into(opal_handle *drive, uint8_t tag, const void *payload,
                                                                 size_t payload_length, void *into, size_t length)
{
    opal_raw_call call;
    opal_answer told = { opal_raw_from(drive, payload, payload_length), 0, 0, false, false, 0 };
    if (told.code == OPAL_DONE)
        told.code = opal_raw_between(payload, payload_length, into, length);
    if (told.code == OPAL_DONE)
        told.code = opal_raw_into(drive, into, length);
    told.code = opal_raw_begin(&call, drive, told.code);
    if (told.code != OPAL_DONE)
        return told;
    told = opal_raw_drive_complete_into(&call.object, tag, opal_raw_at(payload), payload_length, opal_raw_at(into), length);
    opal_raw_end(&call);
    return told;
}

/* Resets the drive (enum opal_reset). Refused: OPAL_NUMBER. */
static inline opal_code opal_drive_reset(opal_handle *drive, uint32_t kind)
{
    opal_raw_call call;
    opal_code told = opal_raw_begin(&call, drive, opal_raw_of(drive));
    if (told != OPAL_DONE)
        return told;
    told = opal_raw_drive_reset(&call.object, kind);
    opal_raw_end(&call);
    return told;
}

/* How many bytes of payload a command brings. Refused: OPAL_LENGTH. */
OPAL_MUST_USE static inline opal_count opal_drive_payload(const opal_handle *drive, const uint8_t *fis, size_t fis_length)
{
    opal_raw_call call;
    opal_count told = { opal_raw_begin(&call, drive, opal_raw_from(drive, fis, fis_length)), 0 };
    if (told.code != OPAL_DONE)
        return told;
    told = opal_raw_drive_payload(&call.object, opal_raw_at(fis), fis_length);
    opal_raw_end(&call);
    return told;
}

/* How many bytes of payload a completion under a tag brings. Refused: OPAL_TAG, OPAL_NOT_HELD. */
OPAL_MUST_USE static inline opal_count opal_drive_expects(const opal_handle *drive, uint8_t tag)
{
    opal_raw_call call;
    opal_count told = { opal_raw_begin(&call, drive, opal_raw_of(drive)), 0 };
    if (told.code != OPAL_DONE)
        return told;
    told = opal_raw_drive_expects(&call.object, tag);
    opal_raw_end(&call);
    return told;
}

/* How the queue has failed, if it has. */
OPAL_MUST_USE static inline opal_failed opal_drive_failure(const opal_handle *drive)
{
    opal_raw_call call;
    opal_failed told = { opal_raw_begin(&call, drive, opal_raw_of(drive)), false, false, 0, 0, 0, 0, 0 };
    if (told.code != OPAL_DONE)
        return told;
    told = opal_raw_drive_failure(&call.object);
    opal_raw_end(&call);
    return told;
}

/* Copies the data of the last answer, and tells how many bytes they are. Refused: OPAL_ROOM. */
OPAL_MUST_USE static inline opal_count opal_drive_data(const opal_handle *drive, void *into, size_t length)
{
    opal_raw_call call;
    opal_count told = { opal_raw_begin(&call, drive, opal_raw_into(drive, into, length)), 0 };
    if (told.code != OPAL_DONE)
        return told;
    told = opal_raw_drive_data(&call.object, opal_raw_at(into), length);
    opal_raw_end(&call);
    return told;
}

/* Copies the line of the audit log that tells what denied the last command, as `3 7 deny read 95+6 range 1 ReadLocked`:
   the number of the act, the client, which is yours to say, and the reason. It has no end of line and no zero behind it,
   and is empty where nothing was denied. Refused: OPAL_ROOM, OPAL_OUT_OF_MEMORY. */
OPAL_MUST_USE static inline opal_count opal_drive_denial(const opal_handle *drive, uint32_t client, char *into,
                                                         size_t length)
{
    opal_raw_call call;
    opal_count told = { opal_raw_begin(&call, drive, opal_raw_into(drive, into, length)), 0 };
    if (told.code != OPAL_DONE)
        return told;
    told = opal_raw_drive_denial(&call.object, client, opal_raw_at(into), length);
    opal_raw_end(&call);
    return told;
}

/* What opal_drive_denial tells, in numbers. */
OPAL_MUST_USE static inline opal_denied opal_drive_denied(const opal_handle *drive, uint32_t client)
{
    opal_raw_call call;
    opal_denied told = { opal_raw_begin(&call, drive, opal_raw_of(drive)), 0, 0, 0, 0, false, 0, 0, 0, 0, 0, 0 };
    if (told.code != OPAL_DONE)
        return told;
    told = opal_raw_drive_denied(&call.object, client);
    opal_raw_end(&call);
    return told;
}

/* Makes a port over the drive that is asked for, at a handle with nothing: one AHCI port with 32 command slots, on which
   nothing was done. Refused as opal_drive_new. */
OPAL_MUST_USE static inline opal_code opal_port_new(opal_handle *port, const opal_config *config)
{
    return opal_raw_new(opal_raw_port_new, port, config);
}

/* What follows are the steps of a port. Each that is done has the next number, from 1, and tells it; one that is refused
   has none, and the port is as before. A port keeps no history of them: it takes as much memory after any number of steps.
   All can be refused with OPAL_NULL, OPAL_MISALIGNED, OPAL_NOT_OPEN, OPAL_BUSY, OPAL_OTHER_KIND and OPAL_OUT_OF_MEMORY. The
   engine's are Issue, Accept, Complete and Recover. */

/* A client puts a request in the slot of a tag, with a copy of the payload. Clients have numbers of your choice. Refused:
   OPAL_TAG, OPAL_NUMBER, OPAL_LENGTH (a command that brings no bytes has a payload), OPAL_PORT_SIZE, OPAL_PORT_SLOT_BUSY. */
OPAL_MUST_USE static inline opal_count opal_port_put(opal_handle *port, uint32_t client, uint8_t tag,
                                                     const opal_request *request, const void *payload,
                                                     size_t payload_length)
{
    opal_raw_call call;
    opal_count told = { opal_raw_from(port, payload, payload_length), 0 };
    if (told.code == OPAL_DONE && request == NULL)
        told.code = OPAL_NULL;
    if (told.code == OPAL_DONE && (uintptr_t)request % sizeof(uint64_t) != 0)
        told.code = OPAL_MISALIGNED;
    told.code = opal_raw_begin(&call, port, told.code);
    if (told.code != OPAL_DONE)
        return told;
    told = opal_raw_port_put(&call.object, client, tag, *request, opal_raw_at(payload), payload_length);
    opal_raw_end(&call);
    return told;
}

/* The port issues the prepared command of a tag: its bit of PxCI is set, and of PxSACT where it is queued. Refused:
   OPAL_TAG, OPAL_PORT_FAILED, OPAL_PORT_NOT_PREPARED, OPAL_PORT_QUEUE. */
OPAL_MUST_USE static inline opal_count opal_port_issue(opal_handle *port, uint8_t tag)
{
    opal_raw_call call;
    opal_count told = { opal_raw_begin(&call, port, opal_raw_of(port)), 0 };
    if (told.code != OPAL_DONE)
        return told;
    told = opal_raw_port_issue(&call.object, tag);
    opal_raw_end(&call);
    return told;
}

/* The drive takes the issued command of a tag: a queued read or write is held, any other command is executed whole. A
   command that the drive fails or denies was done. A queued one that fails stops the port. Refused: OPAL_TAG,
   OPAL_PORT_FAILED, OPAL_PORT_NOT_ISSUED. */
OPAL_MUST_USE static inline opal_count opal_port_accept(opal_handle *port, uint8_t tag)
{
    opal_raw_call call;
    opal_count told = { opal_raw_begin(&call, port, opal_raw_of(port)), 0 };
    if (told.code != OPAL_DONE)
        return told;
    told = opal_raw_port_accept(&call.object, tag);
    opal_raw_end(&call);
    return told;
}

/* The drive moves the data of the command that it holds under a tag, and ends it. Refused: OPAL_TAG, OPAL_PORT_FAILED,
   OPAL_PORT_NOT_ACCEPTED. */
OPAL_MUST_USE static inline opal_count opal_port_complete(opal_handle *port, uint8_t tag)
{
    opal_raw_call call;
    opal_count told = { opal_raw_begin(&call, port, opal_raw_of(port)), 0 };
    if (told.code != OPAL_DONE)
        return told;
    told = opal_raw_port_complete(&call.object, tag);
    opal_raw_end(&call);
    return told;
}

/* The port recovers from a queued command that failed: it is answered by log page 10h, and the others that were out are
   prepared again. Refused: OPAL_PORT_NOT_FAILED. */
OPAL_MUST_USE static inline opal_count opal_port_recover(opal_handle *port)
{
    opal_raw_call call;
    opal_count told = { opal_raw_begin(&call, port, opal_raw_of(port)), 0 };
    if (told.code != OPAL_DONE)
        return told;
    told = opal_raw_port_recover(&call.object);
    opal_raw_end(&call);
    return told;
}

/* A client resets the port and the drive (enum opal_reset). What waits is answered as stopped. Refused: OPAL_NUMBER. */
OPAL_MUST_USE static inline opal_count opal_port_reset(opal_handle *port, uint32_t client, uint32_t kind)
{
    opal_raw_call call;
    opal_count told = { opal_raw_begin(&call, port, opal_raw_of(port)), 0 };
    if (told.code != OPAL_DONE)
        return told;
    told = opal_raw_port_reset(&call.object, client, kind);
    opal_raw_end(&call);
    return told;
}

/* A client takes its answer, and the slot is free. Refused: OPAL_TAG, OPAL_PORT_NOT_ANSWERED, OPAL_PORT_NOT_YOURS. */
OPAL_MUST_USE static inline opal_taken opal_port_take(opal_handle *port, uint32_t client, uint8_t tag)
{
    opal_raw_call call;
    opal_taken told = { opal_raw_begin(&call, port, opal_raw_of(port)), 0, 0, 0, 0, 0 };
    if (told.code != OPAL_DONE)
        return told;
    told = opal_raw_port_take(&call.object, client, tag);
    opal_raw_end(&call);
    return told;
}

/* The engine does a step of those that opal_port_ready lists: the one at `choice`, modulo their number. The number is 0
   where there is none. */
OPAL_MUST_USE static inline opal_count opal_port_turn(opal_handle *port, size_t choice)
{
    opal_raw_call call;
    opal_count told = { opal_raw_begin(&call, port, opal_raw_of(port)), 0 };
    if (told.code != OPAL_DONE)
        return told;
    told = opal_raw_port_turn(&call.object, choice);
    opal_raw_end(&call);
    return told;
}

/* What follows are no steps: the port is as before. All can be refused with OPAL_NULL, OPAL_MISALIGNED, OPAL_NOT_OPEN, OPAL_BUSY
   and OPAL_OTHER_KIND; those with a buffer with OPAL_LENGTH and OPAL_SHARED. */

/* Lists the steps that the engine may do, at most 32, by their kind, then by their tag, and tells how many they are.
   Refused: OPAL_ROOM. */
OPAL_MUST_USE static inline opal_count opal_port_ready(const opal_handle *port, opal_ready *into, size_t length)
{
    opal_raw_call call;
    opal_code fault = length > SIZE_MAX / 2 / sizeof *into ? OPAL_LENGTH : opal_raw_into(port, into, length * sizeof *into);
    opal_count told = { opal_raw_begin(&call, port, fault), 0 };
    if (told.code != OPAL_DONE)
        return told;
    told = opal_raw_port_ready(&call.object, (opal_ready *)(void *)opal_raw_at(into), length);
    opal_raw_end(&call);
    return told;
}

/* Copies the data of what was taken last, and tells how many bytes they are. Refused: OPAL_ROOM. */
OPAL_MUST_USE static inline opal_count opal_port_data(const opal_handle *port, void *into, size_t length)
{
    opal_raw_call call;
    opal_count told = { opal_raw_begin(&call, port, opal_raw_into(port, into, length)), 0 };
    if (told.code != OPAL_DONE)
        return told;
    told = opal_raw_port_data(&call.object, opal_raw_at(into), length);
    opal_raw_end(&call);
    return told;
}

/* What the port shows: its registers, and how many denials there were. */
OPAL_MUST_USE static inline opal_shown opal_port_shown(const opal_handle *port)
{
    opal_raw_call call;
    opal_shown told = { opal_raw_begin(&call, port, opal_raw_of(port)), 0, 0, 0, 0, 0 };
    if (told.code != OPAL_DONE)
        return told;
    told = opal_raw_port_shown(&call.object);
    opal_raw_end(&call);
    return told;
}

/* Copies the line of the audit log at a place, as `6 1 deny read 100+1 range 1 ReadLocked`: the number of the step, the
   client and the reason. Place 0 is the oldest, and as many lines as opal_port_shown tells denials have places; the port keeps
   the 64 latest. Where it has no line there are no bytes. It has no zero behind it. Refused: OPAL_ROOM, OPAL_OUT_OF_MEMORY. */
OPAL_MUST_USE static inline opal_count opal_port_denial(const opal_handle *port, size_t place, char *into, size_t length)
{
    opal_raw_call call;
    opal_count told = { opal_raw_begin(&call, port, opal_raw_into(port, into, length)), 0 };
    if (told.code != OPAL_DONE)
        return told;
    told = opal_raw_port_denial(&call.object, place, opal_raw_at(into), length);
    opal_raw_end(&call);
    return told;
}

/* What opal_port_denial tells, in numbers: of a place where the port has no line it tells none. */
OPAL_MUST_USE static inline opal_denied opal_port_denied(const opal_handle *port, size_t place)
{
    opal_raw_call call;
    opal_denied told = { opal_raw_begin(&call, port, opal_raw_of(port)), 0, 0, 0, 0, false, 0, 0, 0, 0, 0, 0 };
    if (told.code != OPAL_DONE)
        return told;
    told = opal_raw_port_denied(&call.object, place);
    opal_raw_end(&call);
    return told;
}

/* Copies the denials from a place on, the oldest first, as many as there is room for, and tells how many they are. The place is
   moved behind the last of them: so the next call lists those since. It begins as 0; a place whose line the port keeps no more
   is left out. Refused, and then the place is as before: also OPAL_NULL and OPAL_MISALIGNED of the two pointers. */
OPAL_MUST_USE static inline opal_count opal_port_denials(const opal_handle *port, size_t *place, opal_denied *into, size_t length)
{
    opal_count told = { opal_raw_from(port, into, length > SIZE_MAX / 2 / sizeof *into ? SIZE_MAX : length * sizeof *into), 0 };
    if (told.code == OPAL_DONE && place == NULL)
        told.code = OPAL_NULL;
    if (told.code == OPAL_DONE && ((uintptr_t)place % sizeof(size_t) != 0 || (uintptr_t)into % sizeof(uint64_t) != 0))
        told.code = OPAL_MISALIGNED;
    if (told.code != OPAL_DONE)
        return told;
    opal_shown shown = opal_port_shown(port);
    told.code = shown.code;
    size_t at = *place;
    if (shown.denials >= OPAL_MOST_DENIALS && at < shown.denials - OPAL_MOST_DENIALS)
        at = shown.denials - OPAL_MOST_DENIALS;
    for (; told.code == OPAL_DONE && told.number < length && at < shown.denials; at++) {
        into[told.number] = opal_port_denied(port, at);
        told.code = into[told.number].code;
        told.number += into[told.number].reason != OPAL_REASON_NONE;
    }
    if (told.code == OPAL_DONE)
        *place = at;
    else
        told.number = 0;
    return told;
}

/* Makes a controller over the drive that is asked for, at a handle with nothing: an AHCI host bus adapter with one port, as
   it is after its reset, with CAP.S64A as wide_addresses says. Refused as opal_drive_new. */
OPAL_MUST_USE static inline opal_code opal_hba_new(opal_handle *hba, const opal_config *config)
{
    return opal_raw_new(opal_raw_hba_new, hba, config);
}

/* What follows are the calls of a controller. All can be refused with OPAL_NULL, OPAL_MISALIGNED, OPAL_NOT_OPEN, OPAL_BUSY and
   OPAL_OTHER_KIND; those with a buffer with OPAL_LENGTH and OPAL_SHARED. */

/* The 32 bits at an offset of the registers: the generic ones from 0h, the port's from 100h; 0 where no register is. Nothing
   changes. */
OPAL_MUST_USE static inline opal_count opal_hba_read(const opal_handle *hba, uint32_t offset)
{
    opal_raw_call call;
    opal_count told = { opal_raw_begin(&call, hba, opal_raw_of(hba)), 0 };
    if (told.code != OPAL_DONE)
        return told;
    told = opal_raw_hba_read(&call.object, offset);
    opal_raw_end(&call);
    return told;
}

/* Writes 32 bits of the registers; nothing where no register is. No memory moves. */
static inline opal_code opal_hba_write(opal_handle *hba, uint32_t offset, uint32_t value)
{
    opal_raw_call call;
    opal_code told = opal_raw_begin(&call, hba, opal_raw_of(hba));
    if (told != OPAL_DONE)
        return told;
    told = opal_raw_hba_write(&call.object, offset, value);
    opal_raw_end(&call);
    return told;
}

/* The interrupt line: 0 or 1. */
OPAL_MUST_USE static inline opal_count opal_hba_interrupt(const opal_handle *hba)
{
    opal_raw_call call;
    opal_count told = { opal_raw_begin(&call, hba, opal_raw_of(hba)), 0 };
    if (told.code != OPAL_DONE)
        return told;
    told = opal_raw_hba_interrupt(&call.object);
    opal_raw_end(&call);
    return told;
}

/* The controller and its drive lose power, and have it again: the drive is reset by it, and the registers are those of a new
   controller. */
static inline opal_code opal_hba_power_cycle(opal_handle *hba)
{
    opal_raw_call call;
    opal_code told = opal_raw_begin(&call, hba, opal_raw_of(hba));
    if (told != OPAL_DONE)
        return told;
    told = opal_raw_hba_power_cycle(&call.object);
    opal_raw_end(&call);
    return told;
}

/* The controller does a work of those that are ready, the one of the number `choice`, modulo how many they are: the
   signature of the device, fetches, completions, the least tag first. The host's memory is `memory`, from the address `base`
   on; there is no other. What of it lies past 4 GiB is reached where CAP.S64A is 1. It is read and written in this call alone.
   Refused: OPAL_OUT_OF_MEMORY; the memory is then as it was. */
OPAL_MUST_USE static inline opal_worked opal_hba_turn(opal_handle *hba, size_t choice, uint64_t base, void *memory,
                                                      size_t length)
{
    opal_raw_call call;
    opal_worked told = { opal_raw_begin(&call, hba, opal_raw_into(hba, memory, length)), 0, 0, 0, false };
    if (told.code != OPAL_DONE)
        return told;
    told = opal_raw_hba_turn(&call.object, choice, base, opal_raw_at(memory), length);
    opal_raw_end(&call);
    return told;
}

/* The same, where of those bytes the ones that lie in the regions alone are memory: what the host's memory is where it has
   holes, mapped at their places in one window. An access is answered where all its bytes lie in one region, so regions that
   touch are to be told as one; any other access finds no memory, as one outside the window. Without a region there is none.
   Refused also: OPAL_NULL, OPAL_MISALIGNED and OPAL_LENGTH of the regions, OPAL_SHARED where they stand in the memory. */
OPAL_MUST_USE static inline opal_worked opal_hba_turn_within(opal_handle *hba, size_t choice, uint64_t base, void *memory,
                                                             size_t length, const opal_region *regions, size_t region_count)
{
    opal_raw_call call;
    size_t size = region_count > SIZE_MAX / 2 / sizeof *regions ? SIZE_MAX : region_count * sizeof *regions;
    opal_code fault = opal_raw_into(hba, memory, length);
    if (fault == OPAL_DONE)
        fault = opal_raw_between(regions, size, memory, length);
    if (fault == OPAL_DONE && (uintptr_t)regions % sizeof(uint64_t) != 0)
        fault = OPAL_MISALIGNED;
    opal_worked told = { opal_raw_begin(&call, hba, fault), 0, 0, 0, false };
    if (told.code != OPAL_DONE)
        return told;
    told = opal_raw_hba_turn_within(&call.object, choice, base, opal_raw_at(memory), length,
                                    (const opal_region *)(const void *)opal_raw_at(regions), region_count);
    opal_raw_end(&call);
    return told;
}

/* Copies the line of the audit log that tells what denied the command of the last turn, as
   `1 0 deny read 100+1 range 1 ReadLocked`: the number of the drive's act, the tag and the reason; no bytes, where nothing
   did. It has no zero behind it. Refused: OPAL_ROOM, OPAL_OUT_OF_MEMORY. */
OPAL_MUST_USE static inline opal_count opal_hba_denial(const opal_handle *hba, char *into, size_t length)
{
    opal_raw_call call;
    opal_count told = { opal_raw_begin(&call, hba, opal_raw_into(hba, into, length)), 0 };
    if (told.code != OPAL_DONE)
        return told;
    told = opal_raw_hba_denial(&call.object, opal_raw_at(into), length);
    opal_raw_end(&call);
    return told;
}

/* What opal_hba_denial tells, in numbers. */
OPAL_MUST_USE static inline opal_denied opal_hba_denied(const opal_handle *hba)
{
    opal_raw_call call;
    opal_denied told = { opal_raw_begin(&call, hba, opal_raw_of(hba)), 0, 0, 0, 0, false, 0, 0, 0, 0, 0, 0 };
    if (told.code != OPAL_DONE)
        return told;
    told = opal_raw_hba_denied(&call.object);
    opal_raw_end(&call);
    return told;
}

/* What follows are calls of bytes alone. All can be refused with OPAL_NULL, OPAL_LENGTH and OPAL_SHARED. */

/* The item that a token stream spells, with the names that the standards give to objects, methods and columns, or with
   their numbers; or `malformed N NAME`. It has no zero behind it. Refused: OPAL_ROOM, OPAL_OUT_OF_MEMORY. */
OPAL_MUST_USE static inline opal_count opal_tokens_text(int by_name, const void *bytes, size_t bytes_length, char *into,
                                                        size_t length)
{
    opal_count refused = { opal_raw_between(bytes, bytes_length, into, length), 0 };
    if (refused.code != OPAL_DONE)
        return refused;
    return opal_raw_tokens(by_name != 0, opal_raw_at(bytes), bytes_length, opal_raw_at(into), length);
}

/* The fields of bytes of a kind (enum opal_kind), a line for each: its name, a blank, its value. Refused: OPAL_NUMBER,
   OPAL_MALFORMED, OPAL_ROOM, OPAL_OUT_OF_MEMORY. */
OPAL_MUST_USE static inline opal_count opal_decoded_text(uint32_t kind, const void *bytes, size_t bytes_length, char *into,
                                                         size_t length)
{
    opal_count refused = { opal_raw_between(bytes, bytes_length, into, length), 0 };
    if (refused.code != OPAL_DONE)
        return refused;
    return opal_raw_decoded(kind, opal_raw_at(bytes), bytes_length, opal_raw_at(into), length);
}

/* The tokens of the call that a line writes by name, as a script has it: `start 1 4096 LockingSP Admin1 "secret"`,
   `set 1 Locking_Range1 ReadLocked=0`, `end 1`. The client's number stands in it, and at `start` the ComID; no token tells them.
   opal_frame makes the ComPacket of the session. Refused: OPAL_MALFORMED where the line writes no call, OPAL_ROOM,
   OPAL_OUT_OF_MEMORY. */
OPAL_MUST_USE static inline opal_count opal_call_named(const char *line, size_t line_length, void *into, size_t length)
{
    opal_count refused = { opal_raw_between(line, line_length, into, length), 0 };
    if (refused.code != OPAL_DONE)
        return refused;
    return opal_raw_call_named(opal_raw_at(line), line_length, opal_raw_at(into), length);
}

/* The frame of a payload of 1 to 65,480 bytes: a ComPacket of one packet of a session with one data subpacket (TCG Core
   2.01, 3.2.3). It has at most 59 bytes more than the payload. Refused: OPAL_LENGTH, OPAL_ROOM, OPAL_OUT_OF_MEMORY. */
OPAL_MUST_USE static inline opal_count opal_frame(uint16_t com_id, uint32_t tsn, uint32_t hsn, const void *payload,
                                                  size_t payload_length, void *into, size_t length)
{
    opal_count refused = { opal_raw_between(payload, payload_length, into, length), 0 };
    if (refused.code != OPAL_DONE)
        return refused;
    return opal_raw_frame(com_id, tsn, hsn, opal_raw_at(payload), payload_length, opal_raw_at(into), length);
}

/* What the frame carries that the bytes begin with. Refused: OPAL_MALFORMED. */
OPAL_MUST_USE static inline opal_carried opal_opened(const void *bytes, size_t length)
{
    opal_carried refused = { opal_raw_buffer(bytes, length), 0, 0, 0, 0, 0 };
    return refused.code != OPAL_DONE ? refused : opal_raw_opened(opal_raw_at(bytes), length);
}

/* The 20 bytes of the FIS of a command (enum opal_command), of 1 to 65,536 sectors where it is a transfer. Only a queued
   one has a tag. Refused: OPAL_TAG, OPAL_NUMBER, OPAL_ROOM. */
OPAL_MUST_USE static inline opal_count opal_command_fis(uint32_t command, uint64_t lba, uint32_t count, uint8_t tag,
                                                        uint8_t *into, size_t length)
{
    opal_count refused = { opal_raw_buffer(into, length), 0 };
    return refused.code != OPAL_DONE ? refused : opal_raw_command_fis(command, lba, count, tag, opal_raw_at(into), length);
}

/* The 20 bytes of the FIS of TRUSTED SEND DMA, or of TRUSTED RECEIVE DMA where `is_send` is 0, of so many blocks of 512 bytes:
   by a security protocol (enum opal_protocol), with a ComID (enum opal_com_id) as its SP Specific. Refused: OPAL_ROOM. */
OPAL_MUST_USE static inline opal_count opal_trusted_fis(int is_send, uint8_t protocol, uint16_t sp_specific, uint16_t blocks,
                                                        uint8_t *into, size_t length)
{
    opal_count refused = { opal_raw_buffer(into, length), 0 };
    if (refused.code != OPAL_DONE)
        return refused;
    return opal_raw_trusted_fis(is_send != 0, protocol, sp_specific, blocks, opal_raw_at(into), length);
}

/* A code in words. */
static inline const char *opal_error_text(uint32_t code)
{
    switch ((opal_code)code) {
    case OPAL_DONE: return "done";
    case OPAL_OUT_OF_MEMORY: return "an allocation was refused";
    case OPAL_NOT_OPEN: return "the handle has nothing";
    case OPAL_OTHER_KIND: return "what the handle has is of another kind";
    case OPAL_NULL: return "a pointer is null";
    case OPAL_LENGTH: return "a FIS has not 20 bytes, or a payload not as many as its command brings";
    case OPAL_TAG: return "a tag is above 31";
    case OPAL_NUMBER: return "a number is none of those that the call takes";
    case OPAL_NOT_HELD: return "no command is held under the tag";
    case OPAL_ROOM: return "the buffer is too short";
    case OPAL_IN_USE: return "the handle has something already";
    case OPAL_NO_RANGE: return "there is no such range";
    case OPAL_OVERLAP: return "two ranges have a sector in common";
    case OPAL_BEYOND: return "a range ends beyond the drive, or the global range has a place";
    case OPAL_MALFORMED: return "bytes are not what they are to be";
    case OPAL_SECTORS: return "a drive has 1 to 2^48 sectors";
    case OPAL_SHADOW: return "a shadow MBR has at most 262,144 sectors, with the profile opal just so many, and at most all of the drive";
    case OPAL_MSID: return "an MSID has 1 to 32 bytes";
    case OPAL_PROFILE: return "there is no such profile";
    case OPAL_SERIAL: return "a serial number has at most 20 characters of printable ASCII, and only with the profile field or opal";
    case OPAL_MODEL: return "a model number has at most 40 characters of printable ASCII, and only with the profile field or opal";
    case OPAL_PSID: return "a PSID has at most 32 bytes, and only with the profile field or opal";
    case OPAL_DATASTORE: return "a DataStore has at most 16,777,216 bytes, with the profile opal at least 10,485,760, and base has none";
    case OPAL_SEED: return "with the profile base or field a seed is 0";
    case OPAL_RANGE_TWICE: return "two rows are of one range";
    case OPAL_VERSION_DIFFERS:
        return "header and library are of versions that do not fit, or a configuration lacks its size";
    case OPAL_SHARED: return "a buffer that is written has a byte in common with another one, or with the handle";
    case OPAL_MISALIGNED: return "a pointer to a struct is no multiple of 8";
    case OPAL_BUSY: return "another call is at work on the object of the handle";
    case OPAL_PORT_SLOT_BUSY: return "the slot is not free";
    case OPAL_PORT_NOT_PREPARED: return "the slot has no prepared command";
    case OPAL_PORT_QUEUE: return "queued and other commands would mix";
    case OPAL_PORT_NOT_ISSUED: return "the slot has no issued command";
    case OPAL_PORT_NOT_ACCEPTED: return "the slot has no accepted command";
    case OPAL_PORT_NOT_FAILED: return "the port has not failed";
    case OPAL_PORT_FAILED: return "the port has failed";
    case OPAL_PORT_NOT_ANSWERED: return "the slot has no answer";
    case OPAL_PORT_NOT_YOURS: return "the answer is another client's";
    case OPAL_PORT_SIZE: return "a transfer has no size that the port takes";
    case OPAL_PORT_HISTORY_FULL: return "the history of the port is full";
    }
    return "no code of this library";
}

#ifdef __cplusplus
}
#endif

#endif
