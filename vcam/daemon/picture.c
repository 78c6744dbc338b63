/* Pictures: for a program their first bytes are a struct vcam_picture and the values of all controls; for a person the frame's number,
 * the time, and name and value of each control stand below. A control whose value changed in the last second is marked by an
 * asterisk and by dark letters on a bright ground. What doesn't fit into one picture takes turns, a second each. */
#define _GNU_SOURCE
#include "../vcam.h"
#include "daemon.h"
#include "font.h"
#include <stdio.h>
#include <stdlib.h>
#include <string.h>
#include <time.h>
#include <wchar.h>

#define CELL_WIDTH (GLYPH_COLUMNS + 1)
#define CELL_HEIGHT (GLYPH_ROWS + 2)
#define ROOM ((int)format.width / CELL_WIDTH) /* letters in a row of text */
#define LETTERS 128                           /* more than any text has */
enum { DARK = 16, BRIGHT = 235, GREY = 128 };

static struct device_control controls[VCAM_MOST_CONTROLS];
static uint32_t control_count;

/* The values of the last picture, and at which picture each changed; 0 for never. */
static struct vcam_value last[VCAM_MOST_CONTROLS];
static uint32_t changed_at[VCAM_MOST_CONTROLS];
static uint32_t painted;

/* How many rows of pixels the part for programs takes. */
static uint32_t rows_of(uint32_t count) {
    return (sizeof(struct vcam_picture) + count * sizeof(struct vcam_value) + ROW_BYTES - 1) / ROW_BYTES;
}

void picture_start(void) {
    if (ask(ASK_CONTROLS, 0, 0, 0, 0, 0))
        fail("the device tells no controls");
    control_count = reply.length / sizeof *controls;
    if (control_count > VCAM_MOST_CONTROLS)
        control_count = VCAM_MOST_CONTROLS;
    memcpy(controls, reply.payload, control_count * sizeof *controls);
    for (uint32_t i = 0; i < control_count; i++)
        controls[i].name[sizeof controls[i].name - 1] = 0;
    if (format.height < rows_of(control_count)) {
        char why[128];
        snprintf(why, sizeof why, "--size: at a width of %u a picture of this device has %u rows at least, which hold its values",
                 format.width, rows_of(control_count));
        refuse(why);
    }
}

uint32_t put_values(struct vcam_value *values) {
    uint32_t count = reply.length / sizeof(struct device_value);
    if (count > control_count)
        count = control_count;
    for (uint32_t i = 0; i < count; i++) {
        struct device_value value;
        memcpy(&value, reply.payload + i * sizeof value, sizeof value);
        values[i].id = controls[i].id;
        values[i].length = value.length;
        memcpy(values[i].bytes, value.bytes, sizeof value.bytes);
    }
    return count;
}

/* Writes a letter; what lies outside the picture is left out. */
static void put_letter(unsigned char *picture, int x, int y, char letter, int is_marked) {
    int glyph = letter >= ' ' && letter <= '~' ? letter - ' ' : '?' - ' ';
    for (int row = -1; row < CELL_HEIGHT - 1; row++)
        for (int column = 0; column < CELL_WIDTH; column++) {
            int is_in = row >= 0 && row < GLYPH_ROWS && column < GLYPH_COLUMNS;
            int is_ink = is_in && font[glyph][column] >> row & 1;
            if (x + column < (int)format.width && y + row >= 0 && y + row < (int)format.height)
                picture[(y + row) * ROW_BYTES + (x + column) * 2] = is_ink != is_marked ? BRIGHT : DARK;
        }
}

static void put_text(unsigned char *picture, int x, int y, const char *text, int is_marked) {
    for (; *text; text++, x += CELL_WIDTH)
        put_letter(picture, x, y, *text, is_marked);
}

/* A control and its value in words, with its mark; how many letters of it a row shows. */
static int label(char text[LETTERS], uint32_t number, int is_marked) {
    const struct vcam_value *value = &last[number];
    int length = snprintf(text, LETTERS, "%c%s=", is_marked ? '*' : ' ', controls[number].name);
    if (!controls[number].elements) {
        long long it;
        memcpy(&it, value->bytes, sizeof it);
        length += snprintf(text + length, LETTERS - length, "%lld", it);
    }
    for (uint32_t i = 0; controls[number].elements && i < value->length && i < sizeof value->bytes; i++)
        length += snprintf(text + length, LETTERS - length, "%02x", value->bytes[i]);
    length = length < ROOM ? length : ROOM;
    text[length] = 0;
    return length;
}

/* Takes the values, and counts which changed. */
static void take_values(const struct vcam_value *values, uint32_t count) {
    painted++;
    for (uint32_t i = 0; i < count; i++)
        if (painted > 1 && memcmp(&values[i], &last[i], sizeof *values))
            changed_at[i] = painted;
    memcpy(last, values, count * sizeof *values);
}

static int is_marked(uint32_t number) {
    return changed_at[number] && painted - changed_at[number] < format.rate;
}

/* The head: the frame's number, the time of day, its request. */
static void put_head(unsigned char *picture, int y, const struct frame *frame) {
    char text[LETTERS], *end = text + sizeof text, *at = text;
    struct timespec now;
    struct tm day;
    clock_gettime(CLOCK_REALTIME, &now);
    localtime_r(&now.tv_sec, &day);
    at += snprintf(at, end - at, "frame %u  %02d:%02d:%02d.%03ld", frame->sequence, day.tm_hour, day.tm_min, day.tm_sec,
                   now.tv_nsec / 1000000);
    if (frame->request != NONE)
        at += snprintf(at, end - at, "  request %u", frame->request);
    if (frame->refused)
        at += snprintf(at, end - at, "  refused: %u", frame->refused);
    put_text(picture, 0, y, text, 0);
}

/* Writes the controls in columns, below a line that says which they are where they take turns. */
static void put_controls(unsigned char *picture, int y) {
    static int widest = 1;
    static uint32_t shown[VCAM_MOST_CONTROLS];
    char text[LETTERS];
    uint32_t count = 0;
    for (uint32_t i = 0; i < control_count; i++) {
        if (controls[i].type == V4L2_CTRL_TYPE_CTRL_CLASS)
            continue;
        shown[count++] = i;
        int length = label(text, i, 0);
        widest = length > widest ? length : widest;
    }
    uint32_t columns = (ROOM + 1) / (widest + 1), rows = y < (int)format.height ? (format.height - y) / CELL_HEIGHT : 0;
    columns = columns ? columns : 1;
    if (columns * rows < count) {
        if (rows < 2)
            return;
        rows--;
        uint32_t first = painted / format.rate % ((count + columns * rows - 1) / (columns * rows)) * columns * rows;
        uint32_t left = count - first < columns * rows ? count - first : columns * rows;
        snprintf(text, sizeof text, "controls %u to %u of %u", first + 1, first + left, count);
        put_text(picture, 0, y, text, 0);
        y += CELL_HEIGHT;
        memmove(shown, shown + first, left * sizeof *shown);
        count = left;
    }
    for (uint32_t i = 0; i < count; i++) {
        label(text, shown[i], is_marked(shown[i]));
        put_text(picture, i / rows * (widest + 1) * CELL_WIDTH, y + i % rows * CELL_HEIGHT, text, is_marked(shown[i]));
    }
}

/* The part for programs. */
static void put_data(unsigned char *picture, const struct frame *frame, const struct vcam_value *values, uint32_t count) {
    struct vcam_picture head = {
        .magic = VCAM_MAGIC,
        .size = sizeof head + count * sizeof *values,
        .sequence = frame->sequence,
        .request = frame->request,
        .refused = frame->refused,
        .count = count,
        .seconds = frame->time.tv_sec,
        .microseconds = frame->time.tv_usec,
    };
    memcpy(picture, &head, sizeof head);
    memcpy(picture + sizeof head, values, count * sizeof *values);
}

void paint(unsigned char *picture, const struct frame *frame) {
    static struct vcam_value values[VCAM_MOST_CONTROLS];
    wmemset((wchar_t *)picture, 0x10001u * (GREY << 8 | DARK), PICTURE_BYTES / sizeof(wchar_t)); /* two pixels at once */
    uint32_t count = ask(ASK_VALUES, 0, 0, 0, 0, 0) ? 0 : put_values(values);
    take_values(values, count);
    put_data(picture, frame, values, count);
    int y = rows_of(count) + 2;
    put_head(picture, y, frame);
    put_controls(picture, y + CELL_HEIGHT);
}
