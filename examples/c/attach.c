/* A driver's frame loop: it starts a controller as a program with two pipes, and is its host. Its memory is an array,
   and each line that asks for memory is answered from there. It issues READ DMA EXT of a sector that range 1 locks, and
   prints PxCI, PxTFD and the audit line. The words of the command line are the controller's program and its options.

   cc -o attach attach.c && ./attach opalport hba --range "1 100 10 1 1 1 1" */
#include <stdio.h>
#include <stdlib.h>
#include <string.h>
#include <sys/types.h>
#include <sys/wait.h>
#include <unistd.h>

enum { BASE = 0x100000, SIZE = 0x10000 };          /* the host's memory */
enum { LIST = 0x100000, RECEIVED = 0x101000, TABLE = 0x102000, DATA = 0x103000 };
enum { PxCLB = 0x100, PxFB = 0x108, PxCMD = 0x118, PxTFD = 0x120, PxSERR = 0x130, PxCI = 0x138 };
enum { LONGEST = 140000 };                         /* a line that moves 65,536 bytes, and its words */

static unsigned char memory[SIZE];
static char line[LONGEST];
static FILE *to, *from;

static void stop(const char *why)
{
    fprintf(stderr, "attach: %s\n", why);
    exit(1);
}

/* The next line of the controller, without its line feed. */
static void hear(void)
{
    if (!fgets(line, sizeof line, from))
        stop("the controller has ended");
    line[strcspn(line, "\n")] = 0;
}

static int is_memory(unsigned long at, unsigned long len)
{
    return at >= BASE && len <= SIZE && at - BASE <= SIZE - len;
}

/* m ADDRESS LENGTH: the bytes there, or none. */
static void give(unsigned long at, unsigned long len)
{
    if (!is_memory(at, len))
        fprintf(to, "none");
    for (unsigned long i = 0; is_memory(at, len) && i < len; i++)
        fprintf(to, "%02x", memory[at - BASE + i]);
    fprintf(to, "\n");
}

/* p ADDRESS HEX: the bytes go there, or none does. */
static void take(unsigned long at, const char *hex)
{
    unsigned long len = strlen(hex) / 2;
    for (unsigned long i = 0; is_memory(at, len) && i < len; i++) {
        unsigned byte;
        if (sscanf(hex + 2 * i, "%2x", &byte) != 1)
            stop("an odd digit");
        memory[at - BASE + i] = byte;
    }
    fprintf(to, is_memory(at, len) ? "ok\n" : "none\n");
}

/* Sends a request. Lines that ask for memory are answered; the answer to the request is left in `line`. */
static const char *ask(const char *request)
{
    fprintf(to, "%s\n", request);
    for (;;) {
        unsigned long at, len;
        int hex;
        fflush(to);
        hear();
        if (sscanf(line, "m %lx %lx", &at, &len) == 2)
            give(at, len);
        else if (sscanf(line, "p %lx %n", &at, &hex) == 1)
            take(at, line + hex);
        else
            return line;
    }
}

static unsigned long read_register(unsigned offset)
{
    char request[32];
    snprintf(request, sizeof request, "r %x", offset);
    return strtoul(ask(request), 0, 16);
}

static void write_register(unsigned offset, unsigned long value)
{
    char request[32];
    snprintf(request, sizeof request, "w %x %lx", offset, value);
    if (strcmp(ask(request), "ok"))
        stop(line);
}

static void put_word(unsigned long at, unsigned long value)
{
    for (int i = 0; i < 4; i++)
        memory[at - BASE + i] = value >> 8 * i & 0xff;
}

/* READ DMA EXT of one sector, in slot 0. */
static void prepare(unsigned long sector)
{
    static const unsigned char fis[] = { 0x27, 0x80, 0x25, 0, 0, 0, 0, 0x40, 0, 0, 0, 0, 1 };
    put_word(LIST, 5 | 1 << 16);                   /* CFL, PRDTL */
    put_word(LIST + 8, TABLE);
    memcpy(memory + (TABLE - BASE), fis, sizeof fis);
    memory[TABLE - BASE + 4] = sector;
    put_word(TABLE + 0x80, DATA);
    put_word(TABLE + 0x8c, 511);
}

static void start(char **words)
{
    int down[2], up[2];
    if (pipe(down) || pipe(up))
        stop("no pipe");
    pid_t child = fork();
    if (child < 0)
        stop("no process");
    if (!child) {
        dup2(down[0], 0);
        dup2(up[1], 1);
        close(down[1]);
        close(up[0]);
        execvp(words[0], words);
        perror(words[0]);
        _exit(127);
    }
    close(down[0]);
    close(up[1]);
    to = fdopen(down[1], "w");
    from = fdopen(up[0], "r");
}

int main(int count, char **words)
{
    if (count < 2)
        stop("the words of the controller's command line are wanted");
    start(words + 1);
    write_register(PxCLB, LIST);
    write_register(PxFB, RECEIVED);
    write_register(PxSERR, 0xffffffff);            /* the exchange is seen */
    write_register(PxCMD, 0x11);                   /* FRE, ST */
    printf("%s\n", ask("turn"));
    prepare(100);
    write_register(PxCI, 1);
    printf("%s\n", ask("turn"));
    printf("PxCI %08lx\n", read_register(PxCI));
    printf("PxTFD %08lx\n", read_register(PxTFD));
    for (long lines = strtol(ask("why"), 0, 16); lines > 0; lines--) {
        hear();
        printf("%s\n", line);
    }
    fclose(to);
    int status;
    wait(&status);
    return WIFEXITED(status) ? WEXITSTATUS(status) : 1;
}
