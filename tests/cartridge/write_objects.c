/* write_objects.c: writes to standard output a partition with 200,000 objects, put by the drive itself: for each of the
 * lengths 1, 3, 40 and 7 in turn 37,500 blocks, and 12,500 filemarks behind them. The blocks of a length have the bytes
 * 0, 1, .. 250 again and again. */
#include "../check.h"

enum { IMAGE_BYTES = 3200016, EACH_BLOCKS = 37500, EACH_FILEMARKS = 12500, LONGEST_PUT = 40, BYTES_REPEAT = 251 };

static uint8_t record[RECORD_BYTES], image[IMAGE_BYTES], sent[EACH_BLOCKS * LONGEST_PUT];

static uint64_t command(const uint8_t *block, const uint8_t *data, size_t length)
{
    return stormtoggle_command(record, sizeof record, block, BYTES_6, image, sizeof image, NULL, 0, data, length, NULL,
                               0);
}

static void done(uint64_t answer)
{
    if (STORMTOGGLE_REFUSAL(answer) == 0 && STORMTOGGLE_STATUS(answer) == STORMTOGGLE_GOOD)
        return;
    fprintf(stderr, "write_objects: the drive answers %016" PRIx64 "h\n", answer);
    exit(2);
}

static void write_round(uint8_t length)
{
    const uint8_t list[MODE_BYTES] = {[AT_DESCRIPTOR] = MODE_DESCRIPTOR, [MODE_BYTES - 1] = length};
    const uint8_t select[BYTES_6] = {MODE_SELECT, PF, 0, 0, sizeof list};
    const uint8_t write[BYTES_6] = {WRITE, FIXED, 0, EACH_BLOCKS >> 8, EACH_BLOCKS & 0xff};
    const uint8_t mark[BYTES_6] = {WRITE_FILEMARKS, 0, 0, EACH_FILEMARKS >> 8, EACH_FILEMARKS & 0xff};
    done(command(select, list, sizeof list));
    done(command(write, sent, (size_t)EACH_BLOCKS * length));
    done(command(mark, NULL, 0));
}

int main(void)
{
    static const uint8_t lengths[] = {1, 3, LONGEST_PUT, 7}, ready[BYTES_6] = {TEST_UNIT_READY};
    for (size_t i = 0; i < sizeof sent; i++)
        sent[i] = (uint8_t)(i % BYTES_REPEAT);
    done(stormtoggle_blank(image, sizeof image));
    done(stormtoggle_fresh(record, sizeof record));
    done(stormtoggle_mount(record, sizeof record, image, sizeof image, NULL, 0));
    command(ready, NULL, 0); /* takes the attention */
    for (size_t i = 0; i < COUNT(lengths); i++)
        write_round(lengths[i]);
    return fwrite(image, 1, sizeof image, stdout) != sizeof image || fflush(stdout) != 0;
}
