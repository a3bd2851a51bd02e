/* stormtoggle.h: the drive's services as a C program calls them. Link with libstormtoggle.a (x86-64).
 *
 * A slice is a pointer and then its length in bytes. Of the slices of one call the caller sees to it that
 *   - they are disjoint, and stay where they are until the call returns;
 *   - a pointer is NULL only with length 0;
 *   - nothing else maps or writes their bytes meanwhile.
 * Beyond that, bytes, lengths and numbers may have any value: what is wrong is refused by number, and a refused call
 * changes no byte. A partition that a call only reads, that is not the current one, or whose call is refused or ends in
 * a test gets no store at all, so it may be mapped read-only. (A WRITE or an ERASE that finds just its bytes there
 * already may store them again.) A call that judges a partition, as all but fresh and blank do, goes over its directory
 * at most once, and so loads each byte of it once, four for an object; entries that it acts on are then read again.
 */
#ifndef STORMTOGGLE_H
#define STORMTOGGLE_H

#include <stddef.h>
#include <stdint.h>

#ifdef __cplusplus
extern "C" {
#endif

/* An answer is one number of four fields. Test a field and not the whole number: GOOD with nothing carried is 0 but for
 * bits 36 to 63, where a SPACE tells how far it went. */

/* Bits 0 to 31: bytes carried. */
#define STORMTOGGLE_CARRIED(answer) ((uint32_t)(answer))

/* Bits 32 to 34: the refusal, 0 for none. */
#define STORMTOGGLE_REFUSAL(answer) ((unsigned)((uint64_t)(answer) >> 32 & 7))
enum {
    STORMTOGGLE_BY_COMMAND = 1,  /* the command block is empty, or shorter than its operation code says */
    STORMTOGGLE_BY_SENT = 2,     /* fewer bytes are sent than the command takes */
    STORMTOGGLE_BY_RECEIVED = 3, /* the receiving buffer is shorter than the command may need */
    STORMTOGGLE_BY_DRIVE = 4,    /* the record is not 30 bytes, or ill-formed; for a command, also if it is loaded and a
                                  * partition lent is unsound, the number of partitions is not the record's, or the
                                  * position is above N */
    STORMTOGGLE_BY_LOADED = 5,   /* a cartridge is loaded already */
    STORMTOGGLE_BY_UNSOUND = 6,  /* an image is unsound */
    STORMTOGGLE_BY_LENGTH = 7    /* an image's length is outside 64 to 1,073,741,824 */
};

/* Bit 35: the SCSI status. */
#define STORMTOGGLE_STATUS(answer) ((unsigned)((uint64_t)(answer) >> 35 & 1) << 1)
enum { STORMTOGGLE_GOOD = 0x00, STORMTOGGLE_CHECK_CONDITION = 0x02 };

/* Bits 36 to 63: how many objects a SPACE, of either length and by any code, crossed, filemarks included: the distance
 * between the position before and after it, whatever its status. That is not what it counted: a filemark that ends a
 * SPACE over blocks is crossed, and not counted in its residue. 0 for every other call, and for a SPACE that is refused
 * or ends in a test. (When one SPACE may be sent in place of two, and what then becomes of this number, is said in
 * docs/SCHEDULING.md.) */
#define STORMTOGGLE_CROSSED(answer) ((uint32_t)((uint64_t)(answer) >> 36))

/* How long a partition's image, and a block in it, may be; and the block length that a mount sets. A READ without FIXED
 * asks for 16,777,215 bytes at most, so for any block whole; one with FIXED for as many blocks, of the block length
 * each, which can be more than 32 bits count: the buffer that is lent must have all of them, whatever stands there. */
enum {
    STORMTOGGLE_SHORTEST_IMAGE = 64,
    STORMTOGGLE_LONGEST_IMAGE = 1073741824,
    STORMTOGGLE_LARGEST_BLOCK = 1048576,
    STORMTOGGLE_MOUNTED_BLOCK_LENGTH = 32768
};

/* The drive record: how long it is, and where each field starts. The daemon keeps its bytes between calls and may show
 * them; only the services write them. Position and block length are big-endian. */
enum {
    STORMTOGGLE_RECORD_LENGTH = 30,
    STORMTOGGLE_RECORD_LOADED = 0,       /* 1 byte: 1 if a cartridge is loaded, else 0 */
    STORMTOGGLE_RECORD_PARTITIONS = 1,   /* 1 byte: 1 or 2; 0 while unloaded */
    STORMTOGGLE_RECORD_CURRENT = 2,      /* 1 byte: the current partition, 0 or 1; 0 while unloaded */
    STORMTOGGLE_RECORD_ATTENTION = 3,    /* 1 byte: what waits to be told, 28h or 29h; 00h if nothing does */
    STORMTOGGLE_RECORD_POSITION = 4,     /* 4 bytes: the object number; 0 while unloaded */
    STORMTOGGLE_RECORD_BLOCK_LENGTH = 8, /* 4 bytes: at most 1,048,576; 0 means variable */
    STORMTOGGLE_RECORD_SENSE = 12        /* 18 bytes, any: the kept sense; empty is 70h first, 0Ah in byte 7, else 0 */
};

/* The kept sense: how long it is, and where each field starts. A service makes its other bytes 0. REQUEST SENSE gives
 * these bytes as they are, or those of a waiting attention; with bit 0 of byte 1 it gives them in descriptor form. */
enum {
    STORMTOGGLE_SENSE_LENGTH = 18,
    STORMTOGGLE_SENSE_FIRST = 0,       /* 1 byte: F0h if the information is valid, else 70h */
    STORMTOGGLE_SENSE_KEY = 2,         /* 1 byte: FILEMARK, EOM and ILI in its high bits, the key in its low four */
    STORMTOGGLE_SENSE_INFORMATION = 3, /* 4 bytes, big-endian: the residue in two's complement; 0 if not valid, as where
                                        * SPACE (16) has one that 32 signed bits do not hold */
    STORMTOGGLE_SENSE_REST = 7,        /* 1 byte: 0Ah, the number of bytes behind it */
    STORMTOGGLE_SENSE_ASC = 12,        /* 1 byte */
    STORMTOGGLE_SENSE_ASCQ = 13        /* 1 byte */
};

/* The values of its first byte, and the parts of the byte that has the key. EOM comes with end of data (8/00/05), by
 * READ, SPACE and LOCATE, exactly where position N of the partition in which it is met, LOCATE's target, is in the
 * early-warning zone; with the end of the partition (00/02), by WRITE and WRITE FILEMARKS; and with the beginning
 * (0/00/04). */
enum { STORMTOGGLE_VALID = 0xf0, STORMTOGGLE_NOT_VALID = 0x70 };
enum { STORMTOGGLE_FILEMARK = 0x80, STORMTOGGLE_EOM = 0x40, STORMTOGGLE_ILI = 0x20, STORMTOGGLE_KEY = 0x0f };

/* What REQUEST SENSE with bit 0 of byte 1 gives, cut at its allocation: the same flags, key, codes and residue, in 24
 * bytes if the information is valid, else in 12. The record stays in fixed form, and each call has the form that its
 * own bit asks for; GOOD clears the attention and the kept sense in either. Bytes that are not named here are 0. (Of a
 * kept sense that no service made it has the same bits, and the rest of it is dropped.) */
enum {
    STORMTOGGLE_DESCRIPTORS_BOTH = 24,   /* its length with an information descriptor, which comes first, */
    STORMTOGGLE_DESCRIPTORS_STREAM = 12, /* and with the stream descriptor alone, which is always there */
    STORMTOGGLE_DESCRIPTORS_FIRST = 0,   /* 1 byte: 72h */
    STORMTOGGLE_DESCRIPTORS_KEY = 1,     /* 1 byte: the key */
    STORMTOGGLE_DESCRIPTORS_ASC = 2,     /* 1 byte */
    STORMTOGGLE_DESCRIPTORS_ASCQ = 3,    /* 1 byte */
    STORMTOGGLE_DESCRIPTORS_REST = 7,    /* 1 byte: the number of bytes behind it, 16 or 4 */
    STORMTOGGLE_DESCRIPTORS_START = 8    /* the descriptors */
};
enum { STORMTOGGLE_IN_DESCRIPTORS = 0x72 };

/* A descriptor: its type, the number of bytes behind its byte 1, and what the type says. */
enum {
    STORMTOGGLE_INFORMATION_TYPE = 0x00,
    STORMTOGGLE_INFORMATION_REST = 0x0a,
    STORMTOGGLE_INFORMATION_VALID = 2, /* 1 byte: 80h */
    STORMTOGGLE_INFORMATION_VALUE = 4, /* 8 bytes, big-endian: the residue in two's complement */
    STORMTOGGLE_STREAM_TYPE = 0x04,
    STORMTOGGLE_STREAM_REST = 0x02,
    STORMTOGGLE_STREAM_FLAGS = 3 /* 1 byte: FILEMARK, EOM and ILI, as above the key of a kept sense */
};

/* Makes a fresh drive record: attention 29h, the empty sense, every other byte 0. Refusal 4, for its length only. */
uint64_t stormtoggle_fresh(uint8_t *record, size_t record_len);

/* Mounts a cartridge: one partition if the second slice is empty, else two. The record is then loaded, at partition 0
 * and position 0, with attention 28h, block length 32,768 and the empty sense. The partitions are only read.
 * Refusals 4, then 5, then 7 for either partition, then 6 for either.
 *
 * A drive so starts in fixed blocks, whatever its block length was before: only MODE SELECT sets another. (A fresh
 * record has 0, which means variable; LOAD and an unload keep what is set.) Until it does
 *   - READ and WRITE with FIXED are served, in blocks of 32,768 bytes: FIXED is no field error;
 *   - a host that writes variable blocks is not stopped: WRITE without FIXED puts one block of the bytes that it asks
 *     for, of any length that a block may have;
 *   - SILI hides a block shorter than a READ asks for, and not one that is longer: ILI and a negative residue tell it;
 *   - MODE SENSE tells 32,768, so a host whose driver takes its block length from there, as Linux's st does, writes
 *     fixed blocks: GNU tar's default record of 10,240 bytes is then refused by that driver, until `mt setblk 0` or a
 *     blocking factor of 64 (32,768 bytes).
 * docs/BLOCK_LENGTH.md has more of it. */
uint64_t stormtoggle_mount(uint8_t *record, size_t record_len, const uint8_t *p0, size_t p0_len, const uint8_t *p1,
                           size_t p1_len);

/* Makes a blank partition: N = 0, flags 0, D and L by the length; every other byte stays. Refusal 7. */
uint64_t stormtoggle_blank(uint8_t *image, size_t image_len);

/* Clears the write protection if on is 0, and sets it if on is any other number: flag bit 0, and nothing else.
 * Refusals 7, then 6. */
uint64_t stormtoggle_protect(uint8_t *image, size_t image_len, uint64_t on);

/* Finds the block with this object number. The result is a view and no answer: nothing is refused, and it is 0 if the
 * partition is neither 0 nor 1, if its slice is unsound, or if there is no such object or it is a filemark.
 * The slice that partition does not name may be anything. */
uint64_t stormtoggle_view(const uint8_t *p0, size_t p0_len, const uint8_t *p1, size_t p1_len, uint64_t partition,
                          uint64_t object);

/* A view's low 32 bits: the block's length, 1 or more; 0 if the view is empty. */
#define STORMTOGGLE_VIEW_LENGTH(view) ((uint32_t)(view))

/* A view's high 32 bits: where the block starts, in bytes from the start of the partition's slice. */
#define STORMTOGGLE_VIEW_START(view) ((uint32_t)((uint64_t)(view) >> 32))

/* Carries out one SCSI command block; bytes behind its length are ignored. The partitions are those of the mount, and
 * are not looked at while nothing is loaded. Data goes from sent to the current partition, or into received, whose
 * bytes past those carried stay. Status 02h says that the record's kept sense tells why; GOOD leaves the empty sense.
 * Refusals 1, then 4, and, once the command's other tests have passed, 2 or 3. */
uint64_t stormtoggle_command(uint8_t *record, size_t record_len, const uint8_t *command, size_t command_len,
                             uint8_t *p0, size_t p0_len, uint8_t *p1, size_t p1_len, const uint8_t *sent,
                             size_t sent_len, uint8_t *received, size_t received_len);

#ifdef __cplusplus
}
#endif

#endif
