/* words.h: the words that cartridge.c is given: verbs, options, numbers, sizes; and what its --help says. */
#ifndef TOOLS_WORDS_H
#define TOOLS_WORDS_H

#include "files.h"

/* What is asked for: the words behind the verb, options taken out. */
struct request {
    int words;
    char **word;
    int is_forced, wants_help;
};

struct verb {
    const char *name, *takes;
    int least, most; /* words */
    enum ending (*act)(const struct request *asked);
    const char *help;
};

/* ---- numbers */

/* Digits from *at on, at most so many; how many there were. Eighteen always fit 64 bits. */
static inline int take_digits(const char **at, int most, uint64_t *number)
{
    int count = 0;
    for (*number = 0; count < most && **at >= '0' && **at <= '9'; count++)
        *number = *number * 10 + (uint64_t)(*(*at)++ - '0');
    return count;
}

static inline int reads_number(const char *word, uint64_t *number)
{
    return take_digits(&word, 18, number) > 0 && *word == '\0';
}

/* 1 for a size without a suffix, 0 for a suffix that is none. */
static inline uint64_t unit_of(const char *suffix)
{
    static const char *const suffixes[] = {"", "K", "M", "G"};
    for (unsigned i = 0; i < sizeof suffixes / sizeof *suffixes; i++)
        if (strcmp(suffix, suffixes[i]) == 0)
            return UINT64_C(1) << 10 * i;
    return 0;
}

/* Digits, perhaps a point and digits behind it, perhaps a suffix; a whole number of bytes. So few digits, times a unit,
 * fit 64 bits. */
static inline int reads_size(const char *word, uint64_t *size)
{
    uint64_t whole, part = 0, parts = 1;
    if (take_digits(&word, 10, &whole) == 0)
        return 0;
    if (*word == '.') {
        word++;
        int digits = take_digits(&word, 9, &part);
        if (digits == 0)
            return 0;
        while (digits-- > 0)
            parts *= 10;
    }
    uint64_t unit = unit_of(word);
    if (unit == 0 || part * unit % parts != 0)
        return 0;
    *size = whole * unit + part * unit / parts;
    return 1;
}

/* ---- options */

/* Takes one option; whether there is such a one. */
static inline int takes_option(struct request *asked, const char *word)
{
    if (strcmp(word, "--help") == 0)
        asked->wants_help = 1;
    else if (strcmp(word, "--force") == 0)
        asked->is_forced = 1;
    else
        return 0;
    return 1;
}

/* Takes the options out of the words, wherever they stand before a "--"; a lone "-" is a word. NULL, or the word that
 * is no option. */
static inline const char *take_options(struct request *asked, int count, char **words)
{
    int only_words = 0;
    asked->word = words;
    for (int i = 0; i < count; i++) {
        if (only_words || words[i][0] != '-' || words[i][1] == '\0')
            words[asked->words++] = words[i];
        else if (strcmp(words[i], "--") == 0)
            only_words = 1;
        else if (!takes_option(asked, words[i]))
            return words[i];
    }
    return NULL;
}

/* ---- help */

static const char help_head[] =
    "cartridge: what an operator does with cartridges that lie in files. A file holds\n"
    "one partition; a cartridge has one or two. A drive that has the cartridge keeps\n"
    "everybody else out, until it is stopped.\n\n";

static const char help_tail[] =
    "\n`cartridge VERB --help` says more of each. A word behind `--` is no option,\n"
    "whatever it begins with. Work that takes longer than a second says on standard\n"
    "error how far it is.\n\n"
    "Exit status:\n"
    "  0  done\n"
    "  1  a partition is unsound, or what is asked for is not there\n"
    "  2  wrong use: the words make no sense\n"
    "  3  the system refused: a file is missing, in use, there already or not\n"
    "     allowed, a disk is full, an output is closed, there is no memory\n"
    "  4  the library and this tool judge a partition differently: one is wrong\n";

static inline void print_usage(FILE *to, const struct verb *verb)
{
    fprintf(to, "  cartridge %s %s\n", verb->name, verb->takes);
}

#endif
