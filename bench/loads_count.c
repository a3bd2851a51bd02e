/* loads_count.c: how often each byte of some directories was loaded. Reads a trace of all loads, as valgrind's lackey
 * writes it, and from the file that is named where each directory lies and how many entries may be loaded again. Fails
 * if a byte was not loaded, or more was loaded than each byte once and those entries. */
#include "../tests/numbers.h"
#include <stdio.h>
#include <stdlib.h>

enum { DIRECTORIES = 64, NAME = 80 };

static struct directory {
    unsigned long at, bytes, again; /* bytes that may be loaded again */
    unsigned *loads;                /* of each byte */
    char name[NAME];
} directories[DIRECTORIES];
static int count;

static void read_places(const char *file)
{
    FILE *places = fopen(file, "r");
    struct directory *d = directories;
    unsigned long objects, again;
    if (places == NULL)
        exit(2);
    for (; count < DIRECTORIES && fscanf(places, "%lx %lu %lu %79[^\n]", &d->at, &objects, &again, d->name) == 4;
         count++, d++) {
        d->bytes = ENTRY * objects;
        d->again = ENTRY * again;
        d->loads = calloc(d->bytes, sizeof *d->loads);
        if (d->loads == NULL)
            exit(2);
    }
    fclose(places);
}

static void note_load(unsigned long at, unsigned long bytes)
{
    for (struct directory *d = directories; d < directories + count; d++)
        for (unsigned long byte = at; byte < at + bytes; byte++)
            if (byte >= d->at && byte - d->at < d->bytes)
                d->loads[byte - d->at]++;
}

/* Whether what a call loaded is what it should. */
static int tell(const struct directory *d)
{
    unsigned long all = 0, most = 0, least = ~0ul;
    for (unsigned long i = 0; i < d->bytes; i++) {
        all += d->loads[i];
        most = d->loads[i] > most ? d->loads[i] : most;
        least = d->loads[i] < least ? d->loads[i] : least;
    }
    printf("%-36s %8lu %8lu %8lu %8lu %8lu\n", d->name, d->bytes / ENTRY, d->bytes, all, least, most);
    return least >= 1 && all <= d->bytes + d->again;
}

int main(int arguments, char **argument)
{
    char line[256], kind;
    unsigned long at, bytes;
    int right = 1;
    if (arguments != 2)
        return 2;
    read_places(argument[1]);
    while (fgets(line, sizeof line, stdin) != NULL)
        if (sscanf(line, " %c %lx,%lu", &kind, &at, &bytes) == 3 && (kind == 'L' || kind == 'M'))
            note_load(at, bytes);
    printf("%-36s %8s %8s %8s %8s %8s\n", "", "", "bytes of", "bytes", "loads of", "one byte");
    printf("%-36s %8s %8s %8s %8s %8s\n", "call", "entries", "entries", "loaded", "fewest", "most");
    for (int i = 0; i < count; i++)
        right &= tell(directories + i);
    puts(right && count > 0 ? "one pass over each directory" : "NOT one pass over each directory");
    return right && count > 0 ? 0 : 1;
}
