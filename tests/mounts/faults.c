// Makes calls of the program for mount sheets fail, as a bad disk would: tests/mounts/run preloads it. What is to happen to the calls of
// one name, on ordinary files alone, stands in the environment: FAULT_read, FAULT_write, FAULT_lseek, FAULT_ftruncate, FAULT_fsync and
// FAULT_close (of a file that is open for writing), words for the first, the second and each later call:
//     N      moves at most N bytes
//     -N     fails with errno N
//     wait   waits until there is the file FAULT_GO, and makes FAULT_GO.waits
//     grow   has somebody else add 16 bytes to the file first
//     kill   ends the program
//     *      as the word before, this time and from now on
// Behind the last word calls do what they always do.
#define _GNU_SOURCE
#include <errno.h>
#include <fcntl.h>
#include <limits.h>
#include <signal.h>
#include <stdio.h>
#include <stdlib.h>
#include <string.h>
#include <sys/stat.h>
#include <sys/syscall.h>
#include <unistd.h>

enum { CALLS = 6 };
static const char *const names[CALLS] = {"read", "write", "lseek", "ftruncate", "fsync", "close"};
enum call { READ, WRITE, LSEEK, FTRUNCATE, FSYNC, CLOSE };

static void wait_for_go(void)
{
    char waits[PATH_MAX];
    const char *go = getenv("FAULT_GO");
    snprintf(waits, sizeof waits, "%s.waits", go);
    syscall(SYS_close, open(waits, O_WRONLY | O_CREAT, 0666));
    for (int turn = 0; turn < 1000 && access(go, F_OK) != 0; turn++)
        usleep(10000);
}

static void grow(int fd)
{
    char path[64];
    snprintf(path, sizeof path, "/proc/self/fd/%d", fd);
    int other = open(path, O_WRONLY | O_APPEND);
    if (other < 0 || syscall(SYS_write, other, "somebody else's.", (size_t)16) != 16)
        abort();
    syscall(SYS_close, other);
}

// The word for this call, of which there are so many, or an empty one.
static void word_for(const char *words, int count, char *word, size_t size)
{
    char last[32] = "";
    word[0] = 0;
    for (int i = 0, used = 0; i <= count; i++) {
        char next[32] = "";
        if (sscanf(words, "%31s%n", next, &used) != 1)
            return;
        if (strcmp(next, "*") == 0) {
            snprintf(word, size, "%s", last);
            return;
        }
        words += used;
        memcpy(last, next, sizeof last);
        if (i == count)
            snprintf(word, size, "%s", next);
    }
}

// How many bytes this call may move: all, some, or -1 with errno where it fails.
static long most(enum call call, int fd)
{
    static int counts[CALLS];
    char variable[32], word[32];
    struct stat file;
    if (strcmp(program_invocation_short_name, "mount_sheets") != 0 || fstat(fd, &file) != 0 || !S_ISREG(file.st_mode))
        return LONG_MAX;
    if (call == CLOSE && (fcntl(fd, F_GETFL) & O_ACCMODE) == O_RDONLY)
        return LONG_MAX;
    snprintf(variable, sizeof variable, "FAULT_%s", names[call]);
    const char *words = getenv(variable);
    word_for(words ? words : "", counts[call]++, word, sizeof word);
    if (strcmp(word, "wait") == 0)
        wait_for_go();
    else if (strcmp(word, "grow") == 0)
        grow(fd);
    else if (strcmp(word, "kill") == 0)
        raise(SIGKILL);
    else if (word[0] == '-') {
        errno = atoi(word + 1);
        return -1;
    } else if (word[0] != 0)
        return atol(word);
    return LONG_MAX;
}

static size_t least(size_t count, long most)
{
    return count < (size_t)most ? count : (size_t)most;
}

ssize_t read(int fd, void *buffer, size_t count)
{
    long bytes = most(READ, fd);
    return bytes < 0 ? -1 : syscall(SYS_read, fd, buffer, least(count, bytes));
}

ssize_t write(int fd, const void *buffer, size_t count)
{
    long bytes = most(WRITE, fd);
    return bytes < 0 ? -1 : syscall(SYS_write, fd, buffer, least(count, bytes));
}

off_t lseek(int fd, off_t offset, int whence)
{
    return most(LSEEK, fd) < 0 ? -1 : syscall(SYS_lseek, fd, offset, whence);
}

int ftruncate(int fd, off_t length)
{
    return most(FTRUNCATE, fd) < 0 ? -1 : (int)syscall(SYS_ftruncate, fd, length);
}

int fsync(int fd)
{
    return most(FSYNC, fd) < 0 ? -1 : (int)syscall(SYS_fsync, fd);
}

int close(int fd)
{
    int failed = most(CLOSE, fd) < 0, error = errno, closed = (int)syscall(SYS_close, fd);
    if (failed)
        errno = error;
    return failed ? -1 : closed;
}
