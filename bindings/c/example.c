/* A property area from C: formats one, adds, updates, finds, checks, lists and dumps, and prints every answer.
 *
 *     tools/archive capi                                  (at the project's top)
 *     cd bindings/c
 *     cc -std=c99 -Wall -Wextra -Werror -pedantic example.c ../../target/native/libcapi.a -o example && ./example
 *
 * Its output is example.out. */
#include <inttypes.h>
#include <stdio.h>
#include <string.h>

#include "property_area.h"

enum {
    LENGTH = 4096,
    ROOT = 128 /* the root node stands behind the header */
};

static uint8_t area[LENGTH];
static uint8_t scratch[PA_SCRATCH(LENGTH)];
static uint32_t list[PA_PLACES(LENGTH)];
static uint8_t room[PA_ROOM(LENGTH)];

/* A C string as the bytes that the calls take: its zero is no part of a name or a value. */
static const uint8_t *bytes(const char *text)
{
    return (const uint8_t *)text;
}

/* How a call went: 0, or the refusal's number and sentence. */
static void say(uint32_t refusal)
{
    if (refusal == PA_ACCEPTED)
        printf("accepted\n");
    else
        printf("refused %" PRIu32 ": %s\n", refusal, pa_refusal_text(refusal));
}

static void add(const char *name, const char *value)
{
    printf("add %s = %s: ", name, value);
    say(pa_add(area, LENGTH, bytes(name), strlen(name), bytes(value), strlen(value)));
}

static void update(const char *name, const char *value)
{
    printf("update %s = %s: ", name, value);
    say(pa_update(area, LENGTH, bytes(name), strlen(name), bytes(value), strlen(value)));
}

/* A name or a value. It is a part of the area and ends with no zero of its own, so that its length goes along. */
static void show(pa_part part)
{
    if (part.refusal != PA_ACCEPTED)
        printf("refused %" PRIu32, part.refusal);
    else
        printf("[%.*s]", (int)part.length, (const char *)area + part.start);
}

static void find(const char *name)
{
    pa_found found = pa_find(area, LENGTH, bytes(name), strlen(name));
    printf("find %s: ", name);
    if (found.refusal != PA_ACCEPTED) {
        say(found.refusal);
        return;
    }
    printf("entry %" PRIu32 ", %" PRIu64 " nodes compared, value ", found.entry, found.compared);
    show(pa_value(area, LENGTH, found.entry));
    printf("\n");
}

/* Two updates, counted by the serials before and after them. */
static void count_updates(uint32_t entry)
{
    pa_serial_answer earlier = pa_serial(area, LENGTH, entry);
    update("ab.c", "34");
    update("ab.c", "345");
    update("none", "x");
    pa_serial_answer later = pa_serial(area, LENGTH, entry);
    if (earlier.refusal != PA_ACCEPTED || later.refusal != PA_ACCEPTED)
        return;
    printf("serial 0x%08" PRIx32 ", then 0x%08" PRIx32, earlier.serial, later.serial);
    printf(": %" PRIu32 " updates\n", pa_update_distance(earlier.serial, later.serial));
}

static void list_all(void)
{
    pa_count all = pa_list(area, LENGTH, scratch, sizeof scratch, list, PA_PLACES(LENGTH));
    printf("list: ");
    if (all.refusal != PA_ACCEPTED) {
        say(all.refusal);
        return;
    }
    printf("%" PRIu32 " entries\n", all.count);
    for (uint32_t i = 0; i < all.count; i++) {
        printf("  %" PRIu32 ": ", list[i]);
        show(pa_name(area, LENGTH, list[i]));
        printf(" is ");
        show(pa_value(area, LENGTH, list[i]));
        printf("\n");
    }
}

/* The same as text, whatever bytes stand in names and values. */
static void dump(void)
{
    pa_count text = pa_dump(area, LENGTH, scratch, sizeof scratch, list, PA_PLACES(LENGTH), room, sizeof room);
    printf("dump: ");
    if (text.refusal != PA_ACCEPTED) {
        say(text.refusal);
        return;
    }
    printf("%" PRIu32 " bytes\n", text.count);
    fwrite(room, 1, text.count, stdout);
}

static void check(void)
{
    printf("check: ");
    say(pa_check(area, LENGTH, scratch, sizeof scratch));
}

int main(void)
{
    uint8_t backup[8];

    printf("format: ");
    say(pa_format(area, LENGTH));
    add("ab.c", "12");
    add("b", "q\\r");
    add("b", "taken");
    add("a..b", "x");
    find("ab.c");
    find("ab");

    pa_found found = pa_find(area, LENGTH, bytes("ab.c"), 4);
    if (found.refusal != PA_ACCEPTED)
        return 1;
    count_updates(found.entry);
    if (pa_backup_read(area, LENGTH, backup, 2) == PA_ACCEPTED)
        printf("backup: [%.2s]\n", (const char *)backup);
    printf("raw update: ");
    say(pa_raw_update(area, LENGTH, found.entry, bytes("345"), 3, bytes("6"), 1));

    check();
    list_all();
    dump();

    area[ROOT] = 1; /* the root has no name */
    check();
    list_all();
    dump();
    return 0;
}
