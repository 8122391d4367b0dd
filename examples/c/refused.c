/* What the library refuses, each by a code of its own: versions that do not fit, settings that no drive has, rows that do not
   fit, pointers and buffers that a call can't take. Each line is a call, and why it was refused. */
#include "opalport.h"

#include <stdio.h>
#include <stdlib.h>
#include <string.h>

static opal_handle drive = OPAL_NONE;

static void must(bool holds, const char *what)
{
    if (!holds) {
        fprintf(stderr, "refused: %s\n", what);
        exit(1);
    }
}

static void tell(const char *what, opal_code code)
{
    printf("%s: %s\n", what, opal_error_text(code));
}

/* Asks for a drive, which is not made. */
static void ask(const char *what, const opal_config *config)
{
    opal_code code = opal_drive_new(&drive, config);
    must(code != OPAL_DONE, what);
    tell(what, code);
}

static void settings(void)
{
    static const char long_name[41] = "........................................";
    opal_config config = OPAL_CONFIG_INIT, empty = { 0 };
    ask("a configuration without its size", &empty);
    config.size--;
    ask("a configuration of another size", &config);
    config.size++;
    config.profile = 3;
    ask("profile 3", &config);
    config.profile = OPAL_BASE;
    config.sectors = 0;
    ask("no sector", &config);
    config.sectors = 1000;
    config.shadow = 1001;
    ask("a shadow of 1,001 sectors of 1,000", &config);
    config.shadow = 8;
    config.msid_length = 0;
    ask("an MSID of no byte", &config);
    config.msid = long_name;
    config.msid_length = 33;
    ask("an MSID of 33 bytes", &config);
    config.msid_length = 32;
    config.serial = long_name;
    config.serial_length = 1;
    ask("a serial number of the profile base", &config);
    config.profile = OPAL_FIELD;
    config.serial_length = 21;
    ask("a serial number of 21 characters", &config);
    config.serial_length = 20;
    config.model = long_name;
    config.model_length = 41; /* the last is 0, and not printable */
    ask("a model number of 41 characters", &config);
    config.model_length = 40;
    config.psid = long_name;
    config.psid_length = 33;
    ask("a PSID of 33 bytes", &config);
    config.psid_length = 32;
    config.has_datastore = true;
    config.datastore = 16777217;
    ask("a DataStore of 16,777,217 bytes", &config);
    config.datastore = UINT64_MAX;
    must(opal_drive_new(&drive, &config) == OPAL_DATASTORE, "the largest number is a DataStore");
    config.datastore = 0;
    config.seed = 1;
    ask("a seed of the profile field", &config);
    config.seed = 0;
    must(opal_drive_new(&drive, &config) == OPAL_DONE && opal_free(&drive) == OPAL_DONE, "the largest names do not fit");
}

static void opal_sizes(void)
{
    opal_config config = OPAL_CONFIG_INIT_OPAL;
    must(opal_drive_new(&drive, &config) == OPAL_DONE, "no opal drive");
    opal_about about = opal_about_handle(&drive);
    must(about.profile == OPAL_OPAL && about.sectors == 524288 && about.shadow == 262144, "the opal drive is told otherwise");
    must(opal_free(&drive) == OPAL_DONE, "the opal drive is not freed");
    config.shadow = 262143;
    ask("an opal drive with a shadow of 262,143 sectors", &config);
    config.shadow = 262144;
    config.has_datastore = true;
    config.datastore = 10485759;
    ask("an opal drive with a DataStore of 10,485,759 bytes", &config);
    config.datastore = 16777216;
    config.seed = UINT64_MAX;
    must(opal_drive_new(&drive, &config) == OPAL_DONE && opal_free(&drive) == OPAL_DONE, "the largest numbers do not fit");
}

static void rows(void)
{
    opal_range two[] = { { 100, 10, 1, 1, 1, 1, 1 }, { 200, 10, 1, 0, 0, 0, 0 } };
    opal_config config = OPAL_CONFIG_INIT;
    config.ranges = two;
    config.range_count = 2;
    ask("range 1 twice", &config);
    two[1].range = 17;
    ask("range 17", &config);
    two[1].range = 2;
    two[1].start = 109;
    ask("two ranges with sector 109", &config);
    two[1].start = 1000;
    ask("a range behind the last sector", &config);
    two[1].start = 200;
    must(opal_drive_new(&drive, &config) == OPAL_DONE, "two rows do not fit");
}

static void pointers(void)
{
    opal_handle two[2] = { OPAL_NONE, OPAL_NONE };
    opal_config config = OPAL_CONFIG_INIT;
    uint8_t bytes[600] = { 0xf0, 0xf1 };
    tell("a null configuration", opal_drive_new(&two[0], NULL));
    tell("a handle that is not aligned", opal_drive_new((opal_handle *)(void *)((uint8_t *)two + 1), &config));
    config.ranges = (const opal_range *)(const void *)(bytes + 1 - (uintptr_t)bytes % 2);
    config.range_count = 1;
    tell("rows that are not aligned", opal_drive_new(&two[0], &config));
    config.ranges = NULL;
    tell("null rows", opal_drive_new(&two[0], &config));
    tell("data into the handle", opal_drive_data(&drive, &drive, sizeof drive).code);
    tell("data where the FIS stands", opal_drive_accept_into(&drive, bytes, 20, NULL, 0, bytes + 19, 512).code);
    tell("data where the payload stands", opal_drive_complete_into(&drive, 0, bytes, 512, bytes + 511, 64).code);
    tell("a frame where its payload stands", opal_frame(OPAL_COM_ID, 1, 2, bytes, 2, bytes, sizeof bytes).code);
    tell("a text where its bytes stand", opal_tokens_text(0, bytes, 2, (char *)bytes + 1, 64).code);
    tell("a line that writes no call", opal_call_named("set 1 Locking_Range1 ReadLocked", 31, bytes, sizeof bytes).code);
    tell("a buffer of SIZE_MAX bytes", opal_drive_data(&drive, bytes, SIZE_MAX).code);
    tell("a null buffer", opal_drive_data(&drive, NULL, 1).code);
    must(opal_frame(OPAL_COM_ID, 1, 2, bytes, 2, bytes + 2, sizeof bytes - 2).code == OPAL_DONE, "a frame beside its payload");
    must(opal_drive_data(&drive, NULL, 0).code == OPAL_DONE, "a null buffer of no byte");
    must(opal_media(&drive, 999, bytes, sizeof bytes).number == OPAL_SECTOR_BYTES && bytes[0] == 0, "no look at sector 999");
    tell("a look at sector 1000", opal_media(&drive, 1000, bytes, sizeof bytes).code);
    tell("a look with room for 511 bytes", opal_media(&drive, 0, bytes, 511).code);
}

int main(void)
{
    char text[64];
    opal_count told = opal_version_text(text, sizeof text);
    must(opal_version() == OPAL_VERSION && told.code == OPAL_DONE, "another version");
    must(told.number >= strlen(OPAL_VERSION_TEXT) && memcmp(text, OPAL_VERSION_TEXT, strlen(OPAL_VERSION_TEXT)) == 0,
         "another text of the version");
    settings();
    opal_sizes();
    rows();
    pointers();
    opal_about about = opal_about_handle(&drive);
    must(about.code == OPAL_DONE && about.kind == OPAL_DRIVE && about.profile == OPAL_BASE && about.sectors == 1000
             && about.shadow == 8, "the drive is told otherwise");
    must(opal_free(&drive) == OPAL_DONE, "the drive is not freed");
    tell("what a freed handle has", opal_about_handle(&drive).code);
    return 0;
}
