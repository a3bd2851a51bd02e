/* blank.h: the verb that makes blank partitions. Part of cartridge.c. */
#ifndef TOOLS_BLANK_H
#define TOOLS_BLANK_H

#include "words.h"

static inline enum ending fill_blank(struct file *file)
{
    enum ending ending = lock_file(file, TO_CHANGE);
    begin_work("making", file->name, file->length);
    if (ending == DONE)
        ending = allocate_space(file);
    if (ending == DONE)
        ending = map_file(file, TO_CHANGE);
    if (ending != DONE)
        return ending;
    unsigned refusal = STORMTOGGLE_REFUSAL(stormtoggle_blank(file->bytes, file->length));
    if (refusal != 0)
        return complain(DISAGREED, file->name, "the library makes no blank of it: %s", refusal_in_words(refusal));
    ending = make_durable(file);
    return ending == DONE ? make_name_durable(file->name) : ending;
}

static inline enum ending tell_exists(const char *name)
{
    return complain(SYSTEM_REFUSED, name, "exists already, and is not overwritten");
}

/* A file that could not be finished is taken away again: it is new, so nothing is lost. */
static inline enum ending make_blank(const char *name, size_t size)
{
    struct file file = {.name = name, .length = size};
    file.descriptor = open(name, O_RDWR | O_CREAT | O_EXCL | O_CLOEXEC, 0666);
    if (file.descriptor < 0)
        return errno == EEXIST ? tell_exists(name) : system_refused(name, "cannot be made", errno);
    enum ending ending = fill_blank(&file);
    end_work();
    if (ending != DONE)
        unlink(name);
    else
        printf("%s: blank, %zu bytes\n", name, size);
    if (file.bytes != NULL)
        munmap(file.bytes, size);
    close(file.descriptor);
    return ending;
}

/* Nothing is made if one of the names is taken. */
static inline enum ending names_are_free(const struct request *asked)
{
    struct stat status;
    for (int i = 1; i < asked->words; i++)
        if (lstat(asked->word[i], &status) == 0)
            return tell_exists(asked->word[i]);
    return DONE;
}

static inline enum ending blank(const struct request *asked)
{
    uint64_t size;
    if (!reads_size(asked->word[0], &size))
        return complain(WRONG_USE, NULL, "'%s' is no size: a number of bytes, or of K, M or G, such as 640M or 1.5K",
                        asked->word[0]);
    if (size < STORMTOGGLE_SHORTEST_IMAGE || size > STORMTOGGLE_LONGEST_IMAGE)
        return complain(WRONG_USE, NULL, "'%s' is no size of a partition: 64 bytes to 1G", asked->word[0]);
    enum ending ending = names_are_free(asked);
    if (ending == DONE && size % IMAGE_TRAILER != 0)
        fprintf(stderr, "cartridge: a multiple of 16 bytes is better: the trailer then lies in one disk sector, and is "
                "written whole or not at all\n");
    for (int i = 1; i < asked->words && ending == DONE; i++)
        ending = make_blank(asked->word[i], (size_t)size);
    return ending;
}

#endif
