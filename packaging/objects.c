/* The objects of a process, by the numbers that handles have. Which number is given, is of an object or is lent is decided by
   proved code, opal_raw_number_.. of the crate opalport_c. Here stand what that cannot have: the one table of a process, more
   memory for it, and the lock that lets one call in at a time, for as long as it looks up a number.

   It includes no header, as the toolchain's clang has none. include/opalport.h declares the functions that are seen. */
typedef __SIZE_TYPE__ size;
typedef __UINT64_TYPE__ number;
typedef __UINT32_TYPE__ code;

enum { DONE = 0, OUT_OF_MEMORY = 1, ROOM = 9, FIRST = 16 };

/* The mark of a handle is this and the generation of its number. */
static const number MARK = 0x6f70616c00000000;

typedef struct handle { number mark, place; } handle;
typedef struct object { number mark; void *at; } object;
typedef struct entry { number generation; _Bool is_live, is_lent; } entry;
typedef struct given { code told; size place; number generation; } given;

given opal_raw_number_give(entry *entries, size count);
code opal_raw_number_lend(entry *entries, size count, size place, number generation);
code opal_raw_number_take_back(entry *entries, size count, size place, number generation, _Bool is_there);
void *realloc(void *at, size bytes);
int sched_yield(void);

static entry first_entries[FIRST];
static object first_objects[FIRST];
static entry *entries = first_entries;
static object *objects = first_objects;
static size count = FIRST;
static unsigned char is_locked;

static void lock(void)
{
    while (__atomic_test_and_set(&is_locked, __ATOMIC_ACQUIRE))
        sched_yield();
}

static void unlock(void) { __atomic_clear(&is_locked, __ATOMIC_RELEASE); }

/* Memory with twice as many bytes, and zeros behind those that were there; none is taken from `first`. */
static void *twice(void *old, const void *first, size bytes)
{
    unsigned char *more = realloc(old == first ? 0 : old, 2 * bytes);
    if (more == 0)
        return 0;
    if (old == first)
        __builtin_memcpy(more, first, bytes);
    __builtin_memset(more + bytes, 0, bytes);
    return more;
}

/* Makes room for twice as many numbers. What was made of it by a refusal is used the next time. */
static _Bool grow(void)
{
    static size room = FIRST;
    if (room == count) {
        object *more = twice(objects, first_objects, count * sizeof *objects);
        if (more == 0)
            return 0;
        objects = more;
        room = 2 * count;
    }
    entry *more = twice(entries, first_entries, count * sizeof *entries);
    if (more == 0)
        return 0;
    entries = more;
    count = room;
    return 1;
}

code opal_raw_number(handle *into)
{
    lock();
    given it = opal_raw_number_give(entries, count);
    if (it.told == ROOM && grow())
        it = opal_raw_number_give(entries, count);
    unlock();
    if (it.told != DONE)
        return OUT_OF_MEMORY;
    into->mark = MARK + it.generation;
    into->place = it.place;
    return DONE;
}

code opal_raw_lend(const handle *of, object *into)
{
    lock();
    code told = opal_raw_number_lend(entries, count, of->place, of->mark - MARK);
    if (told == DONE)
        *into = objects[of->place];
    unlock();
    return told;
}

void opal_raw_give_back(const handle *to, const object *from)
{
    lock();
    if (opal_raw_number_take_back(entries, count, to->place, to->mark - MARK, from->mark != 0) == DONE)
        objects[to->place] = *from;
    unlock();
}
