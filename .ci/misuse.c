/* What is done to a handle that no caller should do: a copy is used or freed behind a free, bytes of an old handle are used,
   one of another kind, one of two threads. Each ends with a code, and touches no memory that was freed: .ci/library runs it under
   Valgrind, too. Where `many` objects are made, the table of their numbers grows. */
#include "opalport.h"

#include <pthread.h>
#include <stdio.h>
#include <stdlib.h>
#include <string.h>

enum { MANY = 100, ROUNDS = 2000 };

static opal_config config = OPAL_CONFIG_INIT;
static uint8_t fis[OPAL_FIS_BYTES], sector[OPAL_SECTOR_BYTES];
static int wrong;

static void is(const char *what, opal_code code, opal_code wanted)
{
    if (code != wanted) {
        fprintf(stderr, "misuse: %s: %s, and not: %s\n", what, opal_error_text(code), opal_error_text(wanted));
        wrong = 1;
    }
}

static opal_code reads(opal_handle *drive) { return opal_drive_accept(drive, fis, sizeof fis, NULL, 0).code; }

static opal_handle made(void)
{
    opal_handle drive = OPAL_NONE;
    is("a drive", opal_drive_new(&drive, &config), OPAL_DONE);
    return drive;
}

static void copies(void)
{
    opal_handle drive = made(), copy = drive, late = drive;
    is("a read by a copy", reads(&copy), OPAL_DONE);
    is("a new drive at a copy", opal_drive_new(&copy, &config), OPAL_IN_USE);
    is("a free of a copy", opal_free(&copy), OPAL_DONE);
    is("a second free of it", opal_free(&copy), OPAL_NO_HANDLE);
    is("a read behind a free", reads(&drive), OPAL_NO_HANDLE);
    is("a free behind a free", opal_free(&drive), OPAL_NO_HANDLE);
    opal_handle next = made();
    is("a read by a copy that is left, behind the next drive", reads(&late), OPAL_NO_HANDLE);
    is("a free of it", opal_free(&late), OPAL_NO_HANDLE);
    is("a read of the next drive", reads(&next), OPAL_DONE);
    is("a look by a port's call", opal_port_shown(&next).code, OPAL_OTHER_KIND);
    is("its free", opal_free(&next), OPAL_DONE);
    is("a new drive at bytes of an old one", opal_drive_new(&late, &config), OPAL_DONE);
    is("its free", opal_free(&late), OPAL_DONE);
}

static void clones(void)
{
    opal_handle drive = made(), twin = OPAL_NONE, next = OPAL_NONE, port = OPAL_NONE;
    is("a clone", opal_clone(&twin, &drive), OPAL_DONE);
    is("a clone where a drive is", opal_clone(&twin, &drive), OPAL_IN_USE);
    is("a clone of a drive at itself", opal_clone(&drive, &drive), OPAL_IN_USE);
    is("a clone of nothing", opal_clone(&next, &port), OPAL_NO_HANDLE);
    is("a clone of a null pointer", opal_clone(&next, NULL), OPAL_NULL);
    is("a clone at a null pointer", opal_clone(NULL, &drive), OPAL_NULL);
    is("a port", opal_port_new(&port, &config), OPAL_DONE);
    is("a clone of a port", opal_clone(&next, &port), OPAL_DONE);
    is("its free", opal_free(&port), OPAL_DONE);
    is("a drive's call of the clone of a port", reads(&next), OPAL_OTHER_KIND);
    is("its free", opal_free(&next), OPAL_DONE);
    is("a free of what was cloned", opal_free(&drive), OPAL_DONE);
    is("a read of the clone", reads(&twin), OPAL_DONE);
    is("a clone of a drive that was freed", opal_clone(&next, &drive), OPAL_NO_HANDLE);
    is("a clone of the clone", opal_clone(&next, &twin), OPAL_DONE);
    is("its free", opal_free(&next), OPAL_DONE);
    is("a free of the clone", opal_free(&twin), OPAL_DONE);
}

static void saves(void)
{
    static uint8_t text[1 << 20];
    opal_handle drive = made(), loaded = OPAL_NONE;
    opal_count told = opal_save(&drive, text, 10);
    is("a save without room", told.code, OPAL_ROOM);
    is("a save", opal_save(&drive, text, told.number).code, OPAL_DONE);
    is("a save into the handle", opal_save(&drive, &drive, sizeof drive).code, OPAL_SHARED);
    is("a save to a null pointer", opal_save(&drive, NULL, 10).code, OPAL_NULL);
    is("a save of nothing", opal_save(&loaded, text, sizeof text).code, OPAL_NO_HANDLE);
    is("a load where a drive is", opal_drive_load(&drive, text, told.number), OPAL_IN_USE);
    is("a load at a null pointer", opal_drive_load(NULL, text, told.number), OPAL_NULL);
    is("a load of a null pointer", opal_drive_load(&loaded, NULL, told.number), OPAL_NULL);
    is("a load of no bytes", opal_drive_load(&loaded, NULL, 0), OPAL_MALFORMED);
    is("a load of all but the last byte", opal_drive_load(&loaded, text, told.number - 1), OPAL_MALFORMED);
    is("a load of one byte more", opal_drive_load(&loaded, text, told.number + 1), OPAL_MALFORMED);
    for (size_t i = 0; i < told.number; i += 97) {
        text[i] ^= 0x80;
        if (opal_drive_load(&loaded, text, told.number) == OPAL_DONE)
            is("the free of a drive of other bytes", opal_free(&loaded), OPAL_DONE);
        text[i] ^= 0x80;
    }
    is("a load", opal_drive_load(&loaded, text, told.number), OPAL_DONE);
    is("its read", reads(&loaded), OPAL_DONE);
    is("a load of a controller where a drive is", opal_hba_load(&loaded, text, told.number), OPAL_IN_USE);
    is("its free", opal_free(&loaded), OPAL_DONE);
    is("a load of a controller at a null pointer", opal_hba_load(NULL, text, told.number), OPAL_NULL);
    is("a load of a controller of a null pointer", opal_hba_load(&loaded, NULL, told.number), OPAL_NULL);
    is("a load of a controller of no bytes", opal_hba_load(&loaded, NULL, 0), OPAL_MALFORMED);
    is("a load of a controller", opal_hba_load(&loaded, text, told.number), OPAL_DONE);
    is("a read of its registers", opal_hba_read(&loaded, 0).code, OPAL_DONE);
    is("its save", opal_save(&loaded, text, told.number).code, OPAL_DONE);
    is("its free", opal_free(&loaded), OPAL_DONE);
    is("a load of a controller with 64-bit addresses", opal_hba_load_wide(&loaded, text, told.number), OPAL_DONE);
    is("its word of them", (opal_code)(opal_hba_read(&loaded, 0).number >> 31), 1);
    is("its free", opal_free(&loaded), OPAL_DONE);
    is("the free of what was saved", opal_free(&drive), OPAL_DONE);
    is("a save of what was freed", opal_save(&drive, text, sizeof text).code, OPAL_NO_HANDLE);
}

static void bytes(void)
{
    static const uint64_t forged[][2] = { { 0, 0 }, { 1, 0 }, { 0x6f70616c00000001, 99999 }, { 0x6f70616c706f7274, 8 },
                                          { 0x6f70616c00000000, 0 }, { ~0u, ~0u }, { 0x6f70616bffffffff, 0 } };
    opal_handle handle;
    for (size_t i = 0; i < sizeof forged / sizeof *forged; i++) {
        memcpy(&handle, forged[i], sizeof handle);
        is("a read by bytes that are no handle", reads(&handle), OPAL_NO_HANDLE);
        is("a free of them", opal_free(&handle), OPAL_NO_HANDLE);
    }
    is("data into the handle", opal_drive_data(&handle, &handle, sizeof handle).code, OPAL_SHARED);
}

/* Handles are moved in memory, and freed in another order than they were made in. */
static void moves(void)
{
    opal_handle *all = calloc(1, sizeof *all), old[MANY];
    for (size_t i = 0; i < MANY; i++) {
        opal_handle *more = realloc(all, (i + 1) * sizeof *all);
        if (more == NULL)
            exit(2);
        all = more;
        all[i] = made();
    }
    memcpy(old, all, sizeof old);
    for (size_t i = 0; i < MANY; i++) {
        is("a read of one of many", reads(&all[i]), OPAL_DONE);
        is("a free of one of many", opal_free(&all[i * 37 % MANY]), OPAL_DONE);
        all[i * 37 % MANY] = made();
    }
    for (size_t i = 0; i < MANY; i++) {
        is("a read of one of many that was freed", reads(&old[i]), OPAL_NO_HANDLE);
        is("a free of one of many", opal_free(&all[i]), OPAL_DONE);
    }
    free(all);
}

static opal_handle shared;

static void *reader(void *it)
{
    size_t *done = it;
    for (*done = 0; *done < ROUNDS;) {
        opal_code code = reads(&shared);
        *done += code == OPAL_DONE;
        if (code != OPAL_DONE && code != OPAL_BUSY)
            break;
    }
    return NULL;
}

static void threads(void)
{
    pthread_t each[4];
    size_t done[4];
    shared = made();
    for (int i = 0; i < 4; i++)
        if (pthread_create(&each[i], NULL, reader, &done[i]) != 0)
            exit(2);
    for (int i = 0; i < 4; i++) {
        pthread_join(each[i], NULL);
        is("calls of two threads", done[i] == ROUNDS ? OPAL_DONE : OPAL_BUSY, OPAL_DONE);
    }
    is("a free behind the threads", opal_free(&shared), OPAL_DONE);
}

int main(void)
{
    if (opal_command_fis(OPAL_READ_DMA, 5, 1, 0, fis, sizeof fis).code != OPAL_DONE || opal_free(NULL) != OPAL_NULL)
        return 2;
    memset(sector, 7, sizeof sector);
    copies(), clones(), saves(), bytes(), moves(), threads();
    return wrong;
}
