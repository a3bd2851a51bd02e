/* extract.h: the verb that writes a block to a file. Part of cartridge.c. */
#ifndef TOOLS_EXTRACT_H
#define TOOLS_EXTRACT_H

#include "verdict.h"
#include "words.h"
#include <inttypes.h>

/* Why a view is empty. */
static inline enum ending tell_no_block(const struct file *file, uint64_t number)
{
    enum ending ending = judge(file);
    if (ending != DONE)
        return ending;
    uint32_t objects = image_field(image_of(file), IMAGE_N);
    if (number < objects)
        return complain(NOT_THERE, file->name, "object %" PRIu64 " is a filemark, which has no bytes", number);
    return complain(NOT_THERE, file->name, "there is no object %" PRIu64 ": it has %" PRIu32 " objects, counted from 0",
                    number, objects);
}

/* The file to write to; not yet cut, since it may turn out to be one that must stay. A drive's cartridge must, whatever
 * is forced. Whether it is new goes to *is_new. */
static inline enum ending open_output(const struct file *source, struct file *output, int is_forced, int *is_new)
{
    struct stat status;
    output->descriptor = open(output->name, O_WRONLY | O_CREAT | O_EXCL | O_CLOEXEC, 0666);
    *is_new = output->descriptor >= 0;
    if (!*is_new && errno == EEXIST && !is_forced)
        return complain(SYSTEM_REFUSED, output->name, "exists already; --force overwrites it");
    if (!*is_new && errno == EEXIST)
        output->descriptor = open(output->name, O_WRONLY | O_CLOEXEC);
    if (output->descriptor < 0 || fstat(output->descriptor, &status) != 0)
        return system_refused(output->name, "cannot be written", errno);
    if (is_same_file(source, status.st_dev, status.st_ino))
        return complain(WRONG_USE, output->name, "is the cartridge itself");
    if (*is_new || !S_ISREG(status.st_mode))
        return DONE;
    enum ending ending = lock_file(output, TO_CHANGE);
    if (ending == DONE && ftruncate(output->descriptor, 0) != 0)
        return system_refused(output->name, "cannot be overwritten", errno);
    return ending;
}

static inline enum ending write_bytes(const struct file *output, const uint8_t *bytes, size_t length)
{
    for (size_t done = 0; done < length;) {
        ssize_t written = write(output->descriptor, bytes + done, length - done);
        if (written < 0 && errno == EINTR)
            continue;
        if (written < 0)
            return system_refused(output->name, "cannot be written", errno);
        done += (size_t)written;
    }
    return close(output->descriptor) == 0 ? DONE : system_refused(output->name, "cannot be written", errno);
}

static inline enum ending write_block(const struct file *source, uint64_t view, const char *name, int is_forced)
{
    const uint8_t *bytes = source->bytes + STORMTOGGLE_VIEW_START(view);
    size_t length = STORMTOGGLE_VIEW_LENGTH(view);
    struct file output = {.name = name};
    int is_new = 0;
    begin_work("writing", name, 0);
    if (strcmp(name, "-") == 0) {
        fwrite(bytes, 1, length, stdout);
        return DONE;
    }
    enum ending ending = open_output(source, &output, is_forced, &is_new);
    if (ending == DONE)
        ending = write_bytes(&output, bytes, length);
    if (ending != DONE && is_new)
        unlink(name);
    return ending;
}

static inline enum ending extract(const struct request *asked)
{
    struct file file;
    uint64_t number;
    if (!reads_number(asked->word[1], &number))
        return complain(WRONG_USE, NULL, "'%s' is no object number: digits alone, the first object is 0",
                        asked->word[1]);
    enum ending ending = open_file(&file, asked->word[0], TO_READ);
    if (ending != DONE)
        return ending;
    begin_work("judging", file.name, 0);
    uint64_t view = stormtoggle_view(file.bytes, file.length, NULL, 0, 0, number);
    if (STORMTOGGLE_VIEW_LENGTH(view) == 0)
        return tell_no_block(&file, number);
    return write_block(&file, view, asked->word[2], asked->is_forced);
}

#endif
