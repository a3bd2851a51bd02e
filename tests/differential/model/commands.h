/* commands.h: what each command does in plain C, written from documents 01 and 02 alone, and the whole command
 * call. */
#ifndef MODEL_COMMANDS_H
#define MODEL_COMMANDS_H

#include "crossed.h"

/* ---- READ */

/* Crosses the object at the position. A NULL says that none was, or that it was a filemark, and the end is told. */
static inline const struct object *next_block(struct session *s, int64_t residue)
{
    const struct tape *tape = &s->tape[s->current];
    if (s->position == tape->count) {
        tell_end_of_data(s, residue);
        return NULL;
    }
    s->position++;
    if (tape->objects[s->position - 1].is_filemark) {
        tell(s, TOLD_FILEMARK, residue);
        if (FAULT == 74 && in_zone(tape, s->position))
            s->sense[STORMTOGGLE_SENSE_KEY] |= STORMTOGGLE_EOM;
        return NULL;
    }
    return &tape->objects[s->position - 1];
}

/* The slip lays no more than the largest block that there was. */
static inline uint64_t laid_of(uint64_t bytes)
{
    return FAULT == 213 ? smaller(bytes, LARGEST_BEFORE) : bytes;
}

static inline void carry(struct session *s, const struct object *block, uint64_t bytes)
{
    lay_over(s->received + cut(s->carried, 221, 20), s->image[s->current] + block->start, laid_of(bytes));
    s->carried += bytes;
}

/* Whether a block is of the length that is set; the slip has a look at two bytes of each. */
static inline int is_of_length(const struct object *block, uint64_t length)
{
    return cut(block->end - block->start, 222, 16) == cut(length, 222, 16);
}

static inline void read_fixed(struct session *s, int64_t blocks)
{
    for (int64_t done = 0; done < blocks; done++) {
        const struct object *block = next_block(s, blocks - done);
        if (block == NULL)
            return;
        if (!is_of_length(block, s->block_length)) {
            tell(s, TOLD_LENGTH, blocks - done - (FAULT == 5));
            return;
        }
        carry(s, block, s->block_length);
    }
}

static inline void read_variable(struct session *s, int64_t request)
{
    const struct object *block = request == 0 ? NULL : next_block(s, request);
    int64_t size, difference;
    if (block == NULL)
        return;
    size = block->end - block->start;
    difference = FAULT == 2 ? size - request : request - size;
    carry(s, block, smaller((uint64_t)request, (uint64_t)size));
    if (size == request)
        return;
    /* SILI hides the length, except overlength with a nonzero block length. */
    if (s->block[1] & SILI && (size < request || s->block_length == 0 || FAULT == 9 || slips_as_mounted(s, 148)))
        return;
    tell(s, TOLD_LENGTH, difference < 0 ? difference : (int64_t)cut((uint64_t)difference, 216, 20));
}

/* ---- WRITE and WRITE FILEMARKS */

/* Puts an object at the position if it fits by the room there; all objects from there on are gone with it. */
static inline int put(struct session *s, int is_filemark, const uint8_t *data, uint64_t bytes)
{
    struct tape *tape = &s->tape[s->current];
    uint8_t *image = s->image[s->current];
    uint32_t start = (uint32_t)end_before(tape, s->position), end = (uint32_t)(start + bytes);
    uint64_t entry = FAULT == 150 && bytes == MOUNTED_LENGTH ? 0 : ENTRY;
    if (room_at(tape, s->position) < entry + bytes)
        return 0;
    lay_over(image + start, data, laid_of(bytes));
    put32(image + entry_at(tape->length, s->position), is_filemark ? ENTRY_FILEMARK | end : end);
    make_room_for(tape, s->position + 1);
    tape->objects[s->position] = (struct object){start, end, is_filemark};
    tape->count = ++s->position;
    lay_count(image, tape->length, tape->count);
    return 1;
}

/* Puts so many objects of so many bytes each, 0 for filemarks. Each that is not put adds the same to the residue: 1, or
 * for a variable WRITE the request. */
static inline void put_all(struct session *s, uint64_t objects, uint64_t bytes, int64_t residue_of_one)
{
    uint64_t done = 0;
    int is_filemark = bytes == 0;
    if (objects == 0)
        return;
    if (FAULT == 3)
        lay_count(s->image[s->current], s->tape[s->current].length, s->position);
    while (done < objects && put(s, is_filemark, is_filemark ? NULL : s->sent + cut(done * bytes, 220, 20), bytes))
        done++;
    s->carried = done * bytes;
    if (done < objects)
        tell(s, TOLD_OVERFLOW, (int64_t)(objects - done) * residue_of_one - (FAULT == 1 && is_filemark));
    else if (in_zone(&s->tape[s->current], s->position))
        tell(s, TOLD_ZONE, 0);
}

static inline void write_blocks(struct session *s)
{
    uint32_t count = count_of(s->block);
    if (is_fixed(s->block))
        put_all(s, fixed_count_of(s->block), s->block_length, 1);
    else if (count > 0)
        put_all(s, 1, count, (int64_t)cut(count, 217, 20));
}

/* ---- erasure, and the cartridge as a whole */

static inline void erase(struct session *s)
{
    const struct tape *tape = &s->tape[s->current];
    uint8_t *image = s->image[s->current];
    uint64_t from = end_before(tape, s->position), to = tape->length - TRAILER - ENTRY * s->position;
    if (FAULT == 8)
        to = tape->length - TRAILER - ENTRY * tape->count;
    lay_count(image, tape->length, s->position);
    if (s->block[1] & LONG && to > from)
        lay_zeros(image + from, capped(capped(capped(to - from, 22, 24), 23, 28), 32, 29));
}

static inline void load_unload(struct session *s)
{
    int loads = s->block[AT_LOAD] & LOAD;
    s->current = 0;
    s->position = 0;
    if (!loads)
        s->loaded = s->partitions = 0;
    if (FAULT == (loads ? 131 : 134))
        s->block_length = MOUNTED_LENGTH;
    if (FAULT == (loads ? 132 : 133))
        s->block_length = 0;
}

/* ---- what is handed over whole, or cut at the allocation */

static inline void hand_over(struct session *s, const uint8_t *data)
{
    s->carried = bytes_to_hand_over(s);
    if (s->carried > 0)
        memcpy(s->received, data, s->carried);
}

static inline void read_position(struct session *s)
{
    const struct tape *tape = &s->tape[s->current];
    uint8_t data[LONG_BYTES] = {0};
    data[0] = (uint8_t)((s->position == 0 ? POSITION_BOP : 0) | (in_zone(tape, s->position) ? POSITION_ZONE : 0));
    if (s->block[1] == FORM_LONG) {
        put32(data + LONG_PARTITION, s->current);
        put32(data + LONG_POSITION, (uint32_t)s->position);
        put32(data + LONG_FILEMARKS, (uint32_t)cut(filemarks_before(tape, s->position), 15, 16));
    } else {
        data[SHORT_PARTITION] = s->current;
        put32(data + SHORT_FIRST, (uint32_t)s->position);
        put32(data + SHORT_LAST, (uint32_t)s->position);
    }
    hand_over(s, data);
}

static inline void mode_sense(struct session *s)
{
    unsigned of = FAULT == 7 && s->partitions == 2 ? 1u - s->current : s->current;
    uint8_t wp = s->loaded && s->tape[of].is_protected ? MODE_WP : 0x00;
    /* As 01 prints them: "0B 00 wp 08" and "03 00 wp 00". */
    uint8_t with_descriptor[MODE_BYTES] = {0x0b, 0x00, wp, 0x08}, header[MODE_HEADER] = {0x03, 0x00, wp, 0x00};
    /* Three bytes of block length; the byte before them is 0, as a block length has no fourth. */
    put32(with_descriptor + AT_BLOCK_LENGTH - 1,
          slips_as_mounted(s, 147) ? 0 : (uint32_t)cut(s->block_length, 202, 16));
    hand_over(s, mode_bytes(s) == MODE_HEADER ? header : with_descriptor);
}

/* What MODE SELECT takes at most. */
static inline uint32_t largest_selected(void)
{
    return FAULT == 198 ? LARGEST_BEFORE : LARGEST_BLOCK + (uint32_t)(FAULT == 199);
}

static inline void mode_select(struct session *s)
{
    const uint8_t *list = s->sent;
    uint64_t length = s->block[AT_ALLOCATION];
    if (length == 0)
        return;
    if (list[1] != 0 || list[2] != 0 || list[AT_DESCRIPTOR] != (length == MODE_BYTES ? MODE_DESCRIPTOR : 0)) {
        tell(s, TOLD_LIST, 0);
        return;
    }
    if (length == MODE_BYTES) {
        /* The byte before the block length is ignored, and the four before that are zero. */
        uint32_t block_length = get32(list + AT_BLOCK_LENGTH - 1) & 0xffffff;
        if (get32(list + MODE_HEADER) != 0 || block_length > largest_selected()) {
            tell(s, TOLD_LIST, 0);
            return;
        }
        s->block_length = FAULT == 146 && block_length == 0 ? MOUNTED_LENGTH : block_length;
        s->block_length = cut(cut(s->block_length, 200, 16), 201, 20);
    }
    s->carried = length;
}

/* The slips of the descriptor form leave behind what GOOD clears. */
static inline void slip_in_clearing(struct session *s, uint8_t attention)
{
    int asks_for_none = s->block[AT_ALLOCATION] == 0;
    if ((s->block[1] & DESC) == 0)
        return;
    if (FAULT == 160)
        s->sense[STORMTOGGLE_SENSE_FIRST] = STORMTOGGLE_IN_DESCRIPTORS;
    if (FAULT == 161 || (FAULT == 176 && asks_for_none))
        memcpy(s->sense, s->kept, SENSE_BYTES);
    if (FAULT == 162 || (FAULT == 176 && asks_for_none))
        s->attention = attention;
}

/* "GOOD clears both": the attention, and the kept sense as every command that is GOOD does. */
static inline void request_sense(struct session *s)
{
    struct reply reply = sense_reply(s);
    uint8_t attention = s->attention;
    hand_over(s, reply.bytes);
    s->attention = ATTENTION_NONE;
    slip_in_clearing(s, attention);
    form_before = s->block[1] & DESC;
}

/* As 02 prints them; as 01 did; with two bytes exchanged. */
static inline const uint8_t *block_limits(void)
{
    static const uint8_t limits[LIMITS_BYTES] = {0x00, 0x10, 0x00, 0x00, 0x00, 0x01};
    static const uint8_t former[LIMITS_BYTES] = {0x00, 0x01, 0x00, 0x00, 0x00, 0x01};
    static const uint8_t exchanged[LIMITS_BYTES] = {0x00, 0x00, 0x10, 0x00, 0x00, 0x01};
    return FAULT == 206 ? former : FAULT == 207 ? exchanged : limits;
}

/* ---- a command */

static inline void act(struct session *s)
{
    switch (s->block[0]) {
    case REWIND: s->position = 0; break;
    case REQUEST_SENSE: request_sense(s); break;
    case READ_BLOCK_LIMITS: hand_over(s, block_limits()); break;
    case READ:
        if (is_fixed(s->block))
            read_fixed(s, (int64_t)fixed_count_of(s->block));
        else
            read_variable(s, count_of(s->block));
        break;
    case WRITE: write_blocks(s); break;
    case WRITE_FILEMARKS: put_all(s, count_of(s->block), 0, 1); break;
    case SPACE: space(s, signed_count_of(s->block)); break;
    case MODE_SELECT: mode_select(s); break;
    case ERASE: erase(s); break;
    case MODE_SENSE: mode_sense(s); break;
    case LOAD_UNLOAD: load_unload(s); break;
    case LOCATE: locate(s); break;
    case READ_POSITION: read_position(s); break;
    case SPACE_16: space(s, long_count_of(s->block)); break;
    case LOCATE_16: locate_16(s); break;
    default: break; /* TEST UNIT READY */
    }
}

/* Whether the cartridge lent is the one the record speaks of; only a loaded record does. */
static inline int cartridge_fits(struct session *s, const uint64_t length[2])
{
    if (!s->loaded)
        return 1;
    reader = COMMAND_READS;
    if (!decode(&s->tape[0], s->image[0], length[0]))
        return 0;
    if (s->partitions == 1 ? length[1] != 0 : !decode_second(&s->tape[1], s->image[1], length[1]))
        return 0;
    return s->position <= s->tape[s->current].count;
}

/* Whatever was told before is replaced, by nothing unless something is told. */
static inline void take_fields(struct session *s, const uint8_t *record)
{
    s->loaded = record[STORMTOGGLE_RECORD_LOADED];
    s->partitions = record[STORMTOGGLE_RECORD_PARTITIONS];
    s->current = record[STORMTOGGLE_RECORD_CURRENT];
    s->attention = record[STORMTOGGLE_RECORD_ATTENTION];
    s->position = cut(cut(get32(record + STORMTOGGLE_RECORD_POSITION), 13, 16), 14, 17);
    s->block_length = get32(record + STORMTOGGLE_RECORD_BLOCK_LENGTH);
    s->kept = record + STORMTOGGLE_RECORD_SENSE;
    memcpy(s->sense, nothing_told, SENSE_BYTES);
    s->check_condition = 0;
    s->carried = s->crossed = s->counted = s->filemarks_crossed = 0;
    s->asked = s->residue = 0;
    s->began_in = s->current;
    s->began_at = s->position;
}

static inline void lay_fields(const struct session *s, uint8_t *record)
{
    record[STORMTOGGLE_RECORD_LOADED] = s->loaded;
    record[STORMTOGGLE_RECORD_PARTITIONS] = s->partitions;
    record[STORMTOGGLE_RECORD_CURRENT] = s->current;
    record[STORMTOGGLE_RECORD_ATTENTION] = s->attention;
    put32(record + STORMTOGGLE_RECORD_POSITION, (uint32_t)s->position);
    put32(record + STORMTOGGLE_RECORD_BLOCK_LENGTH, (uint32_t)s->block_length);
    memcpy(record + STORMTOGGLE_RECORD_SENSE, s->sense, SENSE_BYTES);
}

/* By number 3. The slip clears all the same. */
static inline uint64_t refused_for_room(const struct session *s, uint8_t *record)
{
    if (FAULT == 182 && s->block[0] == REQUEST_SENSE && s->block[1] & DESC)
        memcpy(record + STORMTOGGLE_RECORD_SENSE, nothing_told, SENSE_BYTES);
    return refused_command(s, BY_RECEIVED);
}

static inline uint64_t model_command(uint8_t *record, size_t record_length, const uint8_t *block, size_t block_length,
                                     uint8_t *p0, size_t p0_length, uint8_t *p1, size_t p1_length, const uint8_t *sent,
                                     size_t sent_length, uint8_t *received, size_t received_length)
{
    static struct session session;
    struct session *s = &session;
    const uint64_t lengths[2] = {p0_length, p1_length};
    s->crossed_then = crossed_before;
    crossed_before = 0;
    block_length = (size_t)cut(cut(cut(block_length, 18, 8), 19, 16), 30, 32);
    s->block = block_length == 0 ? NULL : block;
    if (block_length == 0 || block_length < block_bytes(block[0]))
        return refused_command(s, BY_COMMAND);
    if (!record_is_well_formed(record, record_length, 0))
        return refused_command(s, BY_DRIVE);
    s->image[0] = p0;
    s->image[1] = p1;
    s->sent = sent;
    s->received = received;
    take_fields(s, record);
    if (!cartridge_fits(s, lengths))
        return refused_after_all(s, lengths);
    if (!ends_before_the_act(s)) {
        if (bytes_to_take(s) > sent_length)
            return refused_command(s, BY_SENT);
        if (room_needed(s) > received_length)
            return refused_for_room(s, record);
        act(s);
    }
    lay_fields(s, record);
    crossed_before = s->crossed;
    residue_before = s->check_condition && !fits_32_bits(s->residue) ? s->residue : 0;
    s->carried = cut(cut(cut(cut(cut(s->carried, 20, 24), 21, 28), 31, 29), 211, 16), 212, 20);
    return answered(s->check_condition, s->carried, told_as_crossed(s));
}

#endif
