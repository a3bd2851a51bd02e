/* make_image.c: writes a partition image to standard output.
 *
 *   make_image LENGTH [OBJECT...] [FIELD=NUMBER...]
 *
 * OBJECT is bK, a block of K bytes 01 02 03 .., or f, a filemark, or fK, K of them. Other bytes are 0. FIELD is n,
 * flags, d or l, and overrides what the trailer would say. A length that holds no trailer gives that many zeros.
 */
#include "../image.h"

struct laid {
    uint8_t *image;
    size_t length, objects, end;
};

static void fail(const char *word)
{
    fprintf(stderr, "make_image: %s\n", word);
    exit(2);
}

static size_t number(const char *digits)
{
    char *rest;
    unsigned long value = strtoul(digits, &rest, 0);
    if (*digits == '\0' || *rest != '\0')
        fail("a number is missing or ill-formed");
    return value;
}

/* Lays one entry and what it holds; both stay inside the image, and may meet there. */
static void lay_object(struct laid *laid, size_t data, uint32_t kind)
{
    if (laid->length < TRAILER + ENTRY * (laid->objects + 1) || data > laid->length - laid->end)
        fail("the image is too short for its objects");
    for (size_t i = 0; i < data; i++)
        laid->image[laid->end + i] = (uint8_t)(i + 1);
    laid->end += data;
    set_entry(laid->image, laid->length, laid->objects, kind | (uint32_t)laid->end);
    laid->objects++;
}

static void lay_word(struct laid *laid, const char *word)
{
    size_t count = word[0] == 'f' && word[1] == '\0' ? 1 : number(word + 1);
    if (word[0] == 'b')
        lay_object(laid, count, 0);
    else if (word[0] == 'f')
        for (size_t i = 0; i < count; i++)
            lay_object(laid, 0, ENTRY_FILEMARK);
    else
        fail(word);
}

static void override(struct laid *laid, const char *word)
{
    static const struct {
        const char *name;
        enum field field;
    } fields[] = {{"n=", TRAILER_N}, {"flags=", TRAILER_FLAGS}, {"d=", TRAILER_D}, {"l=", TRAILER_L}};
    if (laid->length < TRAILER)
        fail("the image is too short for a trailer");
    for (size_t i = 0; i < sizeof fields / sizeof *fields; i++) {
        size_t size = strlen(fields[i].name);
        if (strncmp(word, fields[i].name, size) == 0) {
            set_field(laid->image, laid->length, fields[i].field, (uint32_t)number(word + size));
            return;
        }
    }
    fail(word);
}

int main(int count, char **words)
{
    struct laid laid = {NULL, 0, 0, 0};
    if (count < 2)
        fail("no length");
    laid.length = number(words[1]);
    laid.image = calloc(laid.length + 1, 1);
    if (laid.image == NULL)
        fail("no memory");
    for (int i = 2; i < count; i++)
        if (strchr(words[i], '=') == NULL)
            lay_word(&laid, words[i]);
    if (laid.length >= TRAILER)
        lay_trailer(laid.image, laid.length, laid.objects, 0);
    for (int i = 2; i < count; i++)
        if (strchr(words[i], '=') != NULL)
            override(&laid, words[i]);
    if (fwrite(laid.image, 1, laid.length, stdout) != laid.length || fflush(stdout) != 0)
        fail("cannot write");
    free(laid.image);
    return 0;
}
