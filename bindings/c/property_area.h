/* Property areas: what is proved, callable from C.
 *
 * An area is a byte buffer of 128 to 131,072 bytes, at any address. Offsets of entries count from its byte 128.
 * Every call answers for any bytes. The caller's part: each pointer leads to as many bytes as the length beside it says (NULL goes with length 0),
 * buffers that a call writes overlap no other buffer of that call, and nobody else writes any of them during the call: copy a mapping that another
 * process may write.
 *
 * Bytes that nobody vouches for are checked first (pa_check). Every call ends on any bytes, but in a damaged area the time of one lookup can grow, for
 * each segment of its name, with the square of the area's length; in a sound one the nodes that it compares have at most used - 112 bytes. The check's
 * time grows with the length, as measured.
 *
 * A number returned alone is PA_ACCEPTED, or the refusal (but pa_update_distance's is a count); a struct's refusal is the same, and where it is not
 * PA_ACCEPTED the struct's other fields are 0.
 * Refusals 1, 2, 3, 8, and every refusal of pa_update, leave every byte.
 */
#ifndef PROPERTY_AREA_H
#define PROPERTY_AREA_H

#include <stddef.h>
#include <stdint.h>

#ifdef __cplusplus
extern "C" {
#endif

/* The refusals. This is the one list of their numbers, names and sentences: the Rust binding and the tool pa read it here. */
enum {
    PA_ACCEPTED = 0,
    PA_ZERO_BYTE = 1,
    PA_EMPTY_SEGMENT = 2,
    PA_MISSING = 3,
    PA_NO_ROOM = 4,
    PA_DAMAGED = 5,
    PA_TOO_LONG = 6,
    PA_LONG_ENTRY = 7,
    PA_BAD_HEADER = 8,
    PA_TOO_LARGE = 9,
    PA_SHORT_BUFFER = 10
};

/* What a refusal means, as a sentence without a full stop. */
static inline const char *pa_refusal_text(uint32_t refusal) {
    switch (refusal) {
    case PA_ACCEPTED: return "accepted";
    case PA_ZERO_BYTE: return "a name to add has a zero byte";
    case PA_EMPTY_SEGMENT: return "a name has an empty segment: it is empty, begins or ends with a dot, or has two dots side by side";
    case PA_MISSING: return "the area has no entry of that name";
    case PA_NO_ROOM: return "the area has no room";
    case PA_DAMAGED: return "the area is damaged, its bytes break a rule; or no entry can be read at the offset that was given";
    case PA_TOO_LONG: return "too long: an update's value or backup, or a backup read, of 92 bytes or more; or a name of over 65,536 bytes on the lookup's input";
    case PA_LONG_ENTRY: return "an entry with a long value cannot be updated";
    case PA_BAD_HEADER: return "this is no property area: its length, magic or version is not that of one";
    case PA_TOO_LARGE: return "a size does not fit 32 bits";
    case PA_SHORT_BUFFER: return "scratch, list or room is too short";
    default: return "the number is not in the list";
    }
}

/* How long an area may be, and what is always enough for one of a length: scratch for pa_check, pa_list and pa_dump, in bytes (fewer are refused with 10);
 * places of a list (an entry and its node take 124 bytes at least); room for pa_dump's text, in bytes. Where these are lent, 10 is never given. */
#define PA_AREA_MAX 131072
#define PA_SCRATCH(area_len) ((area_len) / 4)
#define PA_PLACES(area_len) ((area_len) / 124)
#define PA_ROOM(area_len) (4 * (area_len))

typedef struct {
    uint32_t refusal, entry; /* the entry's offset */
    uint64_t compared;       /* nodes compared over all segments, modulo 2^64 */
} pa_found;

/* The length bytes from area + start on. No zero need follow them, and a later call that writes the area may change them. */
typedef struct {
    uint32_t refusal, start; /* counted from the area's first byte */
    uint64_t length;
} pa_part;

typedef struct {
    uint32_t refusal, serial;
} pa_serial_answer;

typedef struct {
    uint32_t refusal, count;
} pa_count;

/* Makes the whole buffer a fresh area: 0, or 8 where area_len is not 240 to 131,072. */
uint32_t pa_format(uint8_t *area, size_t area_len);

/* The entry of a dotted name: 8; for each segment 2, then 5 or 3 as the search goes; behind the last one 3 (no entry there) or 5. */
pa_found pa_find(const uint8_t *area, size_t area_len, const uint8_t *name, size_t name_len);

/* Where the value of the entry at an offset stands: 8, 5. It is shown up to its first zero. */
pa_part pa_value(const uint8_t *area, size_t area_len, uint32_t entry);

/* Where the whole dotted name of the entry at an offset stands: 8, 5. */
pa_part pa_name(const uint8_t *area, size_t area_len, uint32_t entry);

/* The serial of the entry at an offset: 8, 5. Bit 0: a write was begun and not ended. Bits 1 to 15 count updates. Bit 16: the value is long. Bits 17 to 23
 * stay as they are. The top byte: the length that was last written, which no call reads or checks; how long a value is, pa_value says. */
pa_serial_answer pa_serial(const uint8_t *area, size_t area_len, uint32_t entry);

/* Adds a name with a value: 0, or 8, 1, 2, then 4, 5, 9. A name that is there already keeps its value, and the answer is 0. What a refused add has
 * linked by then stays; and where only a long value found no room, its entry's room is taken all the same, at each try anew: an add that was refused
 * with 4 is not to be repeated. */
uint32_t pa_add(uint8_t *area, size_t area_len, const uint8_t *name, size_t name_len, const uint8_t *value, size_t value_len);

/* Updates the value of a name in place: 0, or find's refusals, then 7, 6, 5. The old value goes to the backup slot. */
uint32_t pa_update(uint8_t *area, size_t area_len, const uint8_t *name, size_t name_len, const uint8_t *value, size_t value_len);

/* Stores a backup, then updates the entry at an offset: 0, or 8, 6, 5; then, with the backup stored, 5, 7, 6. An offset that is no entry's may leave the
 * area damaged. Backup and value are no parts of the area: what pa_value gave has to be copied. */
uint32_t pa_raw_update(uint8_t *area, size_t area_len, uint32_t entry, const uint8_t *backup, size_t backup_len, const uint8_t *value, size_t value_len);

/* Fills the buffer with the first buffer_len bytes of the backup slot: 0, or 8, 6 (buffer_len is over 91), 5. A refusal keeps the buffer. */
uint32_t pa_backup_read(const uint8_t *area, size_t area_len, uint8_t *buffer, size_t buffer_len);

/* Whether the area is sound: 0, or 8, 10 (scratch_len under area_len / 4), 5. Scratch may hold anything; all of it ends zero unless 8 or 10 is given. */
uint32_t pa_check(const uint8_t *area, size_t area_len, uint8_t *scratch, size_t scratch_len);

/* Writes the offsets of a sound area's entries to the list, in the tree's order: left side, own entry, children, right side. Refused as pa_check is,
 * then 10 where the list has fewer places than there are entries. A refusal keeps the list; places beyond the entries stay. The list is aligned to 4. */
pa_count pa_list(const uint8_t *area, size_t area_len, uint8_t *scratch, size_t scratch_len, uint32_t *list, size_t places);

/* Puts the dump of a sound area at the start of the room: a line with the count and the used mark, then a line for each entry, in pa_list's order, with name
 * and value; bytes outside 0x20 to 0x7e and backslashes as \x and two hex digits. The count is the text's length. Refused as pa_list is, then 10 where the
 * room is shorter than the text. A refusal keeps the room; bytes behind the text stay. Scratch and list end as pa_list leaves them. */
pa_count pa_dump(const uint8_t *area, size_t area_len, uint8_t *scratch, size_t scratch_len, uint32_t *list, size_t places, uint8_t *room, size_t room_len);

/* How many updates lie between two serials of one entry, the earlier first: exact below 32,768. From there on it goes round, and 32,768 updates look like
 * none: read a counter at least once in 32,767 updates. One that was begun and not ended (bit 0) is not counted yet. */
uint32_t pa_update_distance(uint32_t earlier, uint32_t later);

#ifdef __cplusplus
}
#endif

#endif
