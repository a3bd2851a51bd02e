/* verdict.h: the library's verdict on a file, and why it is what it is. Part of cartridge.c. */
#ifndef TOOLS_VERDICT_H
#define TOOLS_VERDICT_H

#include "files.h"

static inline unsigned refusal_of(const struct file *file)
{
    uint8_t record[STORMTOGGLE_RECORD_LENGTH];
    begin_work("judging", file->name, 0);
    stormtoggle_fresh(record, sizeof record);
    return STORMTOGGLE_REFUSAL(stormtoggle_mount(record, sizeof record, file->bytes, file->length, NULL, 0));
}

static inline struct survey survey_file(const struct file *file)
{
    struct image image = image_of(file);
    begin_work("looking over", file->name, image.length < IMAGE_TRAILER ? 0 : image_field(image, IMAGE_N));
    return survey_of(image);
}

static inline enum ending tell_disagreement(const struct file *file, unsigned refusal, struct survey survey)
{
    begin_complaint(file->name);
    fprintf(stderr, "the library %s it%s, and this tool finds: ", refusal == 0 ? "takes" : "refuses",
            refusal == STORMTOGGLE_BY_LENGTH ? " for its length" : "");
    print_broken_rule(stderr, image_of(file), survey);
    fprintf(stderr, ". One of them is wrong; keep the file, and report this\n");
    return DISAGREED;
}

/* For a partition that the library refused. */
static inline enum ending tell_unsound(const struct file *file, unsigned refusal)
{
    struct survey survey = survey_file(file);
    if (!is_verdict_on(refusal, survey.broken))
        return tell_disagreement(file, refusal, survey);
    begin_complaint(file->name);
    fprintf(stderr, "is unsound: ");
    print_broken_rule(stderr, image_of(file), survey);
    fprintf(stderr, "\n");
    return NOT_THERE;
}

static inline enum ending judge(const struct file *file)
{
    unsigned refusal = refusal_of(file);
    return refusal == 0 ? DONE : tell_unsound(file, refusal);
}

#endif
