/* files.h: a cartridge's files: opened, locked, mapped, made durable. Part of cartridge.c. A drive that has a cartridge
 * holds an exclusive lock on its files; here readers share one, and writers ask for it alone. */
#ifndef TOOLS_FILES_H
#define TOOLS_FILES_H

#include "image.h"
#include <fcntl.h>
#include <stdarg.h>
#include <stdio.h>
#include <stdlib.h>
#include <string.h>
#include <sys/file.h>
#include <sys/mman.h>
#include <sys/stat.h>

/* How the tool ends, as its --help says. */
enum ending { DONE = 0, NOT_THERE = 1, WRONG_USE = 2, SYSTEM_REFUSED = 3, DISAGREED = 4 };

static inline void begin_complaint(const char *name)
{
    end_work();
    fflush(stdout);
    fprintf(stderr, "cartridge: ");
    if (name != NULL)
        fprintf(stderr, "%s: ", name);
}

/* Says what is wrong, with a file if one is named, and gives the ending back. */
static inline enum ending complain(enum ending ending, const char *name, const char *format, ...)
{
    va_list rest;
    begin_complaint(name);
    va_start(rest, format);
    vfprintf(stderr, format, rest);
    va_end(rest);
    fprintf(stderr, "\n");
    return ending;
}

static inline enum ending system_refused(const char *name, const char *what, int error)
{
    return complain(SYSTEM_REFUSED, name, "%s: %s", what, strerror(error));
}

/* What was printed has reached its file, or that is told. */
static inline enum ending finish_output(enum ending ending)
{
    int failed = ferror(stdout);
    end_work();
    if (fflush(stdout) == 0 && !failed)
        return ending;
    return complain(SYSTEM_REFUSED, NULL, "not everything could be written to standard output: %s",
                    errno != 0 ? strerror(errno) : "write error");
}

/* ---- opening */

enum purpose { TO_READ, TO_CHANGE };

struct file {
    const char *name;
    int descriptor;
    uint8_t *bytes; /* mapped; NULL if the file is empty */
    size_t length;
    dev_t device;
    ino_t number; /* this and the device tell two names of one file */
};

static inline struct image image_of(const struct file *file)
{
    return (struct image){file->bytes, file->length};
}

static inline int is_same_file(const struct file *file, dev_t device, ino_t number)
{
    return file->device == device && file->number == number;
}

static inline enum ending lock_file(const struct file *file, enum purpose purpose)
{
    if (flock(file->descriptor, (purpose == TO_CHANGE ? LOCK_EX : LOCK_SH) | LOCK_NB) == 0)
        return DONE;
    if (errno != EWOULDBLOCK)
        return system_refused(file->name, "cannot be locked", errno);
    return complain(SYSTEM_REFUSED, file->name,
                    "is in use: a drive has this cartridge, or another program does; stop that first");
}

/* Nothing but a regular file can be a partition. */
static inline enum ending measure_file(struct file *file)
{
    struct stat status;
    if (fstat(file->descriptor, &status) != 0)
        return system_refused(file->name, "cannot be looked at", errno);
    if (!S_ISREG(status.st_mode))
        return complain(SYSTEM_REFUSED, file->name, "is %s, and no file that holds a partition",
                        S_ISDIR(status.st_mode) ? "a directory" : "a device or a pipe");
    file->length = (size_t)status.st_size;
    file->device = status.st_dev;
    file->number = status.st_ino;
    return DONE;
}

/* An empty file cannot be mapped, and is lent as no bytes. */
static inline enum ending map_file(struct file *file, enum purpose purpose)
{
    if (file->length == 0)
        return DONE;
    int access = purpose == TO_CHANGE ? PROT_READ | PROT_WRITE : PROT_READ;
    void *bytes = mmap(NULL, file->length, access, MAP_SHARED, file->descriptor, 0);
    if (bytes == MAP_FAILED)
        return system_refused(file->name, "cannot be mapped", errno);
    file->bytes = bytes;
    return DONE;
}

/* The length is taken under the lock. O_NONBLOCK, or a pipe without a writer would be waited for. */
static inline enum ending open_file(struct file *file, const char *name, enum purpose purpose)
{
    *file = (struct file){.name = name};
    file->descriptor = open(name, (purpose == TO_CHANGE ? O_RDWR : O_RDONLY) | O_NONBLOCK | O_CLOEXEC);
    if (file->descriptor < 0)
        return system_refused(name, "cannot be opened", errno);
    enum ending ending = lock_file(file, purpose);
    if (ending == DONE)
        ending = measure_file(file);
    return ending == DONE ? map_file(file, purpose) : ending;
}

/* ---- on disk */

/* The bytes of a mapped file, and its length, are on disk. */
static inline enum ending make_durable(const struct file *file)
{
    if (msync(file->bytes, file->length, MS_SYNC) != 0 || fsync(file->descriptor) != 0)
        return system_refused(file->name, "cannot be brought to disk", errno);
    return DONE;
}

/* The name of a new file is on disk when its directory is. EINVAL is how some systems say that they sync none. */
static inline enum ending make_name_durable(const char *name)
{
    const char *slash = strrchr(name, '/');
    size_t length = slash == NULL ? 0 : (size_t)(slash - name) + 1;
    char *directory = malloc(length + 2);
    if (directory == NULL)
        return system_refused(name, "its directory cannot be named", errno);
    memcpy(directory, name, length);
    memcpy(directory + length, ".", 2);
    int descriptor = open(directory, O_RDONLY | O_DIRECTORY | O_CLOEXEC);
    int failed = descriptor < 0 || (fsync(descriptor) != 0 && errno != EINVAL);
    int error = errno;
    free(directory);
    if (descriptor >= 0)
        close(descriptor);
    return failed ? system_refused(name, "its directory cannot be brought to disk", error) : DONE;
}

/* Space for all of a new file, in steps that each take less than the second after which a signal comes. */
enum { ALLOCATION_STEP = 16 * 1024 * 1024 };

static inline enum ending allocate_space(const struct file *file)
{
    int error = 0;
    for (size_t at = 0; at < file->length && error == 0; at += ALLOCATION_STEP) {
        size_t rest = file->length - at, step = rest < ALLOCATION_STEP ? rest : ALLOCATION_STEP;
        do
            error = posix_fallocate(file->descriptor, (off_t)at, (off_t)step);
        while (error == EINTR);
        work_done(at);
    }
    return error == 0 ? DONE : system_refused(file->name, "cannot have that much space", error);
}

/* ---- what may happen to a process that reads files */

static inline void tell_lost_page(int signal)
{
    struct line line = {"", 0};
    (void)signal;
    add_text(&line, "cartridge: a mapped file could not be read: its disk failed, or it was cut meanwhile\n");
    write_line(&line);
    _exit(SYSTEM_REFUSED);
}

/* Descriptors 0 to 2 are taken, so that no cartridge gets one of them and is written to as if it were the output.
 * Nothing can be written to what stands in for a closed one. */
static inline enum ending secure_descriptors(void)
{
    struct sigaction action = {.sa_handler = tell_lost_page};
    sigemptyset(&action.sa_mask);
    sigaction(SIGBUS, &action, NULL);
    for (int i = STDIN_FILENO; i <= STDERR_FILENO; i++)
        if (fcntl(i, F_GETFD) < 0 && open("/dev/null", O_RDONLY) != i)
            return SYSTEM_REFUSED;
    return DONE;
}

#endif
