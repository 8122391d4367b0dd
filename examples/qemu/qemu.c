/* The start of QEMU: its version, and its words for the device. The device is at descriptor 3 of QEMU, its test socket, by which
   interrupts come without KVM, at descriptor 4. */
#define _GNU_SOURCE
#include "bridge.h"

#include <errno.h>
#include <fcntl.h>
#include <signal.h>
#include <stdio.h>
#include <stdlib.h>
#include <string.h>
#include <sys/prctl.h>
#include <sys/socket.h>
#include <sys/wait.h>
#include <unistd.h>

enum { DEVICE = 3, TEST = 4, MOST_WORDS = 16, CANNOT_RUN = 127 };

/* What `QEMU --version` prints, as far as it has room. */
static void asks_version(char *program, char *text, size_t room)
{
    int ends[2];
    if (pipe2(ends, O_CLOEXEC) != 0)
        stop("a pipe: %s", strerror(errno));
    pid_t child = fork();
    if (child == 0) {
        char *words[] = { program, "--version", NULL };
        dup2(ends[1], STDOUT_FILENO);
        execvp(program, words);
        _exit(CANNOT_RUN);
    }
    close(ends[1]);
    size_t length = 0;
    for (ssize_t part = 1; child > 0 && part > 0 && length + 1 < room; length += (size_t)(part > 0 ? part : 0))
        part = read(ends[0], text + length, room - 1 - length);
    text[length] = 0;
    close(ends[0]);
    int status = CANNOT_RUN << 8;
    waitpid(child, &status, 0);
    if (!WIFEXITED(status) || WEXITSTATUS(status) == CANNOT_RUN)
        stop("%s does not run", program);
}

bool qemu_is_known(char *program)
{
    static const char before[] = "QEMU emulator version ", known[] = QEMU_VERSION ".";
    char text[256];
    asks_version(program, text, sizeof text);
    text[strcspn(text, "\n")] = 0;
    const char *version = strncmp(text, before, strlen(before)) == 0 ? text + strlen(before) : "";
    if (strncmp(version, known, strlen(known)) == 0)
        return true;
    tell("%s says `%s`; the bridge was tried with QEMU %s alone, and another may send other messages (--any-version goes on)",
         program, text, QEMU_VERSION);
    return false;
}

/* With a second processor QEMU drops accesses of the device: commands are lost. */
static void refuses_processors(char **given)
{
    for (size_t i = 0; given[i]; i++)
        if (strcmp(given[i], "-smp") == 0 && given[i + 1] && strcmp(given[i + 1], "1") != 0)
            stop("-smp %s: a guest of the bridge has one processor", given[i + 1]);
}

/* QEMU's words: its name, those of the device, and what the caller gave. */
static char **words_of(char **given, const struct line *line)
{
    static char device[64];
    static char *const test[] = { "-chardev", "socket,id=qtest,fd=4", "-qtest", "chardev:qtest", "-qtest-log", "/dev/null" };
    size_t count = 0, at = 0;
    refuses_processors(given);
    while (given[count])
        count++;
    char **words = calloc(count + MOST_WORDS, sizeof *words);
    if (!words)
        stop("%s", strerror(errno));
    snprintf(device, sizeof device, "x-pci-proxy-dev,id=opal,fd=3,addr=%d", line->slot);
    words[at++] = given[0];
    words[at++] = "-device";
    words[at++] = device;
    for (size_t i = 0; line->pin && i < sizeof test / sizeof *test; i++)
        words[at++] = test[i];
    memcpy(words + at, given + 1, count * sizeof *words);
    return words;
}

/* In the child: descriptors 3 and 4, and QEMU. */
static _Noreturn void runs(char **words, int device, int test, pid_t parent)
{
    sigset_t none;
    sigemptyset(&none);
    sigprocmask(SIG_SETMASK, &none, NULL);
    prctl(PR_SET_PDEATHSIG, SIGTERM);
    /* Above both, so that no dup2 closes the other; the copies stay open in QEMU. */
    int high_device = fcntl(device, F_DUPFD_CLOEXEC, TEST + 1), high_test = fcntl(test, F_DUPFD_CLOEXEC, TEST + 1);
    if (getppid() == parent && dup2(high_device, DEVICE) >= 0 && dup2(high_test, TEST) >= 0)
        execvp(words[0], words);
    fprintf(stderr, "bridge: %s: %s\n", words[0], strerror(errno));
    _exit(CANNOT_RUN);
}

static void makes_pair(int ends[2])
{
    if (socketpair(AF_UNIX, SOCK_STREAM | SOCK_CLOEXEC, 0, ends) != 0)
        stop("a socket: %s", strerror(errno));
}

pid_t qemu_started(char **given, struct line *line, int *socket)
{
    int device[2], test[2];
    char **words = words_of(given, line);
    makes_pair(device);
    makes_pair(test);
    pid_t parent = getpid(), child = fork();
    if (child < 0)
        stop("%s does not run: %s", given[0], strerror(errno));
    if (child == 0)
        runs(words, device[1], test[1], parent);
    free(words);
    close(device[1]);
    close(test[1]);
    *socket = device[0];
    line->socket = test[0];
    return child;
}

/* The status of QEMU once it has ended, or 128 and the signal that ended it. Signals come meanwhile. */
int qemu_ended(pid_t child)
{
    int status = 0;
    sigset_t none, before;
    sigemptyset(&none);
    sigprocmask(SIG_SETMASK, &none, &before);
    while (waitpid(child, &status, 0) < 0 && errno == EINTR)
        ;
    sigprocmask(SIG_SETMASK, &before, NULL);
    return WIFEXITED(status) ? WEXITSTATUS(status) : 128 + WTERMSIG(status);
}
