// Makes standard input and standard output of a program those that fail, as a pipe, a disk or a terminal may. It is loaded before the C
// library, by LD_PRELOAD, and counts the calls of `read` on descriptor 0 and of `write` on descriptors 1 and 2, each from 1.
// FAIL=NAME:N:ERRNO lets the Nth call of NAME fail by that error: `read`, `write` (of standard output) or `tell` (of standard error).
// Where ERRNO is 0 that call answers 0, with no byte moved. With a comma behind it, a call of another name fails too.
// INTERRUPT=K lets each call be interrupted K times before it does its work; these aren't counted.
// BYTES=B lets a call move B bytes at most.
// The file that FAILED names holds, in three numbers of eight bytes, how many calls of each name were made.
#include <errno.h>
#include <fcntl.h>
#include <stdint.h>
#include <stdio.h>
#include <stdlib.h>
#include <string.h>
#include <sys/mman.h>
#include <sys/syscall.h>
#include <unistd.h>

enum call { READ, WRITE, TELL, CALLS };
static const char *const names[CALLS] = {"read", "write", "tell"};

static uint64_t unseen[CALLS];
static uint64_t *calls = unseen;
static long interrupts;
static long interrupted;
static size_t most = SIZE_MAX;
static uint64_t failing_call[CALLS];
static int failing_by[CALLS];

// The counts in the file of this name. Without it nothing could be seen, so the program doesn't begin.
static uint64_t *counts_in(const char *name)
{
    int file = name == NULL ? -1 : open(name, O_RDWR | O_CREAT | O_TRUNC | O_CLOEXEC, 0600);
    if (file < 0 || ftruncate(file, sizeof unseen) != 0)
        abort();
    void *found = mmap(NULL, sizeof unseen, PROT_READ | PROT_WRITE, MAP_SHARED, file, 0);
    if (found == MAP_FAILED)
        abort();
    close(file);
    return found;
}

static long number_in(const char *variable, long otherwise)
{
    const char *word = getenv(variable);
    return word == NULL ? otherwise : strtol(word, NULL, 10);
}

// Notes a NAME:N:ERRNO. Returns what stands behind its comma, if it has one.
static const char *note(const char *word)
{
    char name[8];
    unsigned long number;
    int error, len;
    if (sscanf(word, "%7[a-z]:%lu:%d%n", name, &number, &error, &len) != 3)
        abort();
    for (int call = 0; call < CALLS; call++)
        if (strcmp(name, names[call]) == 0) {
            failing_call[call] = number;
            failing_by[call] = error;
        }
    return word[len] == ',' ? word + len + 1 : NULL;
}

__attribute__((constructor)) static void read_words(void)
{
    calls = counts_in(getenv("FAILED"));
    interrupts = number_in("INTERRUPT", 0);
    most = (size_t)number_in("BYTES", INT64_MAX);
    for (const char *fail = getenv("FAIL"); fail != NULL;)
        fail = note(fail);
}

// Whether a call ends before it does its work, with what it answers.
static int ends_early(enum call call, ssize_t *answer)
{
    if (interrupted < interrupts) {
        interrupted++;
        errno = EINTR;
        *answer = -1;
        return 1;
    }
    interrupted = 0;
    calls[call]++;
    if (calls[call] != failing_call[call])
        return 0;
    errno = failing_by[call];
    *answer = failing_by[call] == 0 ? 0 : -1;
    return 1;
}

static size_t part(size_t len)
{
    return len < most ? len : most;
}

ssize_t read(int file, void *room, size_t len)
{
    ssize_t answer;
    if (file != STDIN_FILENO)
        return syscall(SYS_read, file, room, len);
    return ends_early(READ, &answer) ? answer : syscall(SYS_read, file, room, part(len));
}

ssize_t write(int file, const void *text, size_t len)
{
    ssize_t answer;
    if (file != STDOUT_FILENO && file != STDERR_FILENO)
        return syscall(SYS_write, file, text, len);
    return ends_early(file == STDOUT_FILENO ? WRITE : TELL, &answer) ? answer : syscall(SYS_write, file, text, part(len));
}
