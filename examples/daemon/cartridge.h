/* cartridge.h: a cartridge's partition in a file. The library is lent private pages of it; the file gets what they hold
 * when it is made final, in an order that leaves the file a sound image at every moment. Part of daemon.c.
 *
 * Pages that are shared with the file go to the disk when the kernel likes, and in any order: lost mains could leave a
 * trailer that counts entries which never came, or an old object with a new one's bytes. Private pages go nowhere. So
 * what changed is copied to the file in three steps, each on the disk (msync) before the next begins:
 *   1. where objects were cut that the file still has, a trailer that ends before the first of them;
 *   2. the data and the entries, of which the file's trailer then tells nothing yet;
 *   3. the trailer.
 * Lost mains leave what was final before, or that up to where it was cut, or what is final now: never less than what
 * stands below every change, and always sound, if the disk writes a sector whole or not at all. (The trailer lies in
 * one sector if the image's length is a multiple of 16. If it does not, it may be torn, and a mount then says so.) */
#ifndef CARTRIDGE_H
#define CARTRIDGE_H

#include "../codes.h"
#include "../decode.h"
#include "../layout.h"
#include "stormtoggle.h"
#include <errno.h>
#include <fcntl.h>
#include <stdio.h>
#include <string.h>
#include <sys/file.h>
#include <sys/mman.h>
#include <sys/stat.h>
#include <unistd.h>

struct range {
    size_t from, to;
};

struct cartridge {
    const char *name;
    int fd;
    size_t length;
    uint8_t *lent; /* private pages: what the library reads and writes */
    uint8_t *file; /* shared pages: what is final; NULL if the file may only be read */
    uint32_t told; /* the most objects that the trailer on the disk may tell of */

    /* What the library has changed since it was last made final. */
    int is_changed;
    uint32_t lowest; /* no object below this number */
    struct range data, entries;
};

/* ---- what an image that the library found sound says */

static inline uint32_t objects_in(const struct cartridge *c, const uint8_t *image)
{
    return number_at(image + c->length - IMAGE_N);
}

/* Where the entries of so many objects start. */
static inline size_t directory_of(const struct cartridge *c, uint32_t objects)
{
    return c->length - IMAGE_TRAILER - IMAGE_ENTRY * (size_t)objects;
}

/* Where the data of so many objects end. */
static inline size_t end_of(const struct cartridge *c, uint32_t objects)
{
    return objects == 0 ? 0 : number_at(c->lent + directory_of(c, objects)) & IMAGE_END;
}

/* ---- making it final */

static inline void widen(struct range *r, size_t from, size_t to)
{
    if (from >= to)
        return;
    if (r->from == r->to)
        *r = (struct range){from, to};
    r->from = from < r->from ? from : r->from;
    r->to = to > r->to ? to : r->to;
}

/* The library has put or cut objects from this number on; a long erase has zeroed what is free, too. */
static inline void note_change(struct cartridge *c, uint32_t from, int is_zeroed)
{
    uint32_t objects = objects_in(c, c->lent);
    c->lowest = c->is_changed && c->lowest < from ? c->lowest : from;
    c->is_changed = 1;
    widen(&c->data, end_of(c, from), is_zeroed ? directory_of(c, objects) : end_of(c, objects));
    widen(&c->entries, directory_of(c, objects), directory_of(c, from));
}

static inline size_t bytes_not_final(const struct cartridge *c)
{
    return c->data.to - c->data.from + (c->entries.to - c->entries.from);
}

/* A step ends when the disk has it. */
static inline int is_on_disk(const struct cartridge *c)
{
    return msync(c->file, c->length, MS_SYNC) == 0;
}

static inline void copy_to_file(struct cartridge *c, struct range r)
{
    memcpy(c->file + r.from, c->lent + r.from, r.to - r.from);
}

/* Puts a trailer on the disk that tells of so many objects. Until that is done, the disk may have the one before. */
static inline int tell_objects(struct cartridge *c, uint32_t objects)
{
    uint8_t trailer[IMAGE_TRAILER];
    memcpy(trailer, c->lent + c->length - IMAGE_TRAILER, IMAGE_TRAILER);
    memcpy(trailer + IMAGE_TRAILER - IMAGE_N, (uint8_t[]){FOUR_BYTES(objects)}, 4);
    memcpy(trailer + IMAGE_TRAILER - IMAGE_D, (uint8_t[]){FOUR_BYTES(directory_of(c, objects))}, 4);
    memcpy(c->file + c->length - IMAGE_TRAILER, trailer, IMAGE_TRAILER);
    c->told = objects > c->told ? objects : c->told;
    if (!is_on_disk(c))
        return 0;
    c->told = objects;
    return 1;
}

/* The private pages of a range are given back: the file's own have the same bytes now. */
static inline void give_back(struct cartridge *c, struct range r)
{
    size_t page = (size_t)sysconf(_SC_PAGESIZE), from = r.from / page * page;
    madvise(c->lent + from, r.to - from, MADV_DONTNEED);
}

/* A private page shows the file's bytes until something is stored into it, and a command that put just what stood there
 * may have stored nothing. The trailer's is made private before the file gets another. */
static inline void keep_trailer(struct cartridge *c)
{
    volatile uint8_t *trailer = c->lent + c->length - IMAGE_TRAILER;
    trailer[0] = trailer[0];
    trailer[IMAGE_TRAILER - 1] = trailer[IMAGE_TRAILER - 1];
}

/* False if the system could not: then what was changed is kept, and the next call tries again. */
static inline int make_final(struct cartridge *c)
{
    if (!c->is_changed)
        return 1;
    keep_trailer(c);
    if (c->told > c->lowest && !tell_objects(c, c->lowest))
        return 0;
    copy_to_file(c, c->data);
    copy_to_file(c, c->entries);
    if (!is_on_disk(c) || !tell_objects(c, objects_in(c, c->lent)))
        return 0;
    give_back(c, c->data);
    give_back(c, (struct range){c->entries.from, c->length});
    c->is_changed = 0;
    c->data = c->entries = (struct range){0, 0};
    return 1;
}

/* ---- opening */

static inline int say_failed(const char *name, const char *what)
{
    fprintf(stderr, "%s: %s: %s\n", name, what, strerror(errno));
    return 0;
}

/* For writing, or else for reading; and for nobody else. */
static inline int open_file(struct cartridge *c)
{
    struct stat about;
    int may_write = 1;
    c->fd = open(c->name, O_RDWR | O_CLOEXEC | O_NONBLOCK);
    if (c->fd < 0 && (errno == EACCES || errno == EROFS || errno == EPERM)) {
        may_write = 0;
        c->fd = open(c->name, O_RDONLY | O_CLOEXEC | O_NONBLOCK);
    }
    if (c->fd < 0)
        return say_failed(c->name, "cannot be opened");
    if (flock(c->fd, LOCK_EX | LOCK_NB) != 0)
        return say_failed(c->name, "is in use by another drive or tool");
    if (fstat(c->fd, &about) != 0)
        return say_failed(c->name, "cannot be looked at");
    if (!S_ISREG(about.st_mode) || about.st_size < STORMTOGGLE_SHORTEST_IMAGE ||
        about.st_size > STORMTOGGLE_LONGEST_IMAGE) {
        fprintf(stderr, "%s: is no file of %d to %d bytes\n", c->name, STORMTOGGLE_SHORTEST_IMAGE,
                STORMTOGGLE_LONGEST_IMAGE);
        return 0;
    }
    c->length = (size_t)about.st_size;
    /* A page that the disk has no room for could not be told later but by a signal. */
    errno = may_write ? posix_fallocate(c->fd, 0, about.st_size) : 0;
    if (errno != 0)
        return say_failed(c->name, "cannot be allocated whole");
    c->file = may_write ? mmap(NULL, c->length, PROT_READ | PROT_WRITE, MAP_SHARED, c->fd, 0) : NULL;
    return c->file != MAP_FAILED || say_failed(c->name, "cannot be mapped");
}

/* A partition whose file may only be read is lent protected, so that a host is told why it cannot write. (The image may
 * be unsound, and is then not protected: the mount refuses it.) */
static inline int open_cartridge(struct cartridge *c, const char *name)
{
    *c = (struct cartridge){.name = name};
    if (!open_file(c))
        return 0;
    c->lent = mmap(NULL, c->length, PROT_READ | PROT_WRITE, MAP_PRIVATE, c->fd, 0);
    if (c->lent == MAP_FAILED)
        return say_failed(name, "cannot be mapped");
    c->told = objects_in(c, c->lent);
    if (c->file == NULL) {
        stormtoggle_protect(c->lent, c->length, 1);
        fprintf(stderr, "%s: may only be read, and is offered as protected\n", name);
    }
    return 1;
}

#endif
