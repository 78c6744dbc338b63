/* Reads what a person reads on a picture, letter by letter: the frame's number, and the controls with their values, changed ones
 * marked. The time of day is left out. */
#include "client.h"
#include "../daemon/font.h"
#define MOST_LETTERS 700
static int width, height, row_bytes;
enum { CELL_WIDTH = GLYPH_COLUMNS + 1, CELL_HEIGHT = GLYPH_ROWS + 2, BRIGHT = 128 };

/* The letter of a cell, whose ground is dark or bright; 0 where it is none. */
static char letter_at(const unsigned char *picture, int x, int y) {
    int is_inverse = picture[y * row_bytes + (x + GLYPH_COLUMNS) * 2] > BRIGHT;
    for (int glyph = 0; glyph < 95; glyph++) {
        int same = 1;
        for (int row = 0; same && row < GLYPH_ROWS; row++)
            for (int column = 0; column < GLYPH_COLUMNS; column++) {
                int is_bright = picture[(y + row) * row_bytes + (x + column) * 2] > BRIGHT;
                same &= (is_bright != is_inverse) == (font[glyph][column] >> row & 1);
            }
        if (same)
            return ' ' + glyph;
    }
    return 0;
}

/* The words of a row of text; how many letters they have. */
static int read_row(const unsigned char *picture, int y, char text[MOST_LETTERS]) {
    int length = 0;
    for (int i = 0; i < width / CELL_WIDTH; i++) {
        text[i] = letter_at(picture, i * CELL_WIDTH, y);
        CHECK(text[i]);
        if (text[i] != ' ')
            length = i + 1;
    }
    text[length] = 0;
    return length;
}

static void print_picture(const unsigned char *picture) {
    const struct vcam_picture *head = (const void *)picture;
    char text[MOST_LETTERS], wanted[32];
    int y = (head->size + row_bytes - 1) / row_bytes + 2;
    read_row(picture, y, text);
    int length = snprintf(wanted, sizeof wanted, "frame %u  ", head->sequence);
    CHECK(!strncmp(text, wanted, length) && strlen(text) == length + strlen("hh:mm:ss.mmm"));
    puts(head->sequence ? "a later frame" : "frame 0"); /* some are lost while it is read and none is queued */
    for (y += CELL_HEIGHT; y + CELL_HEIGHT <= height; y += CELL_HEIGHT)
        if (read_row(picture, y, text))
            puts(text);
}

int main(void) {
    struct v4l2_buffer buffer;
    struct v4l2_format format = {.type = CAPTURE};
    int video = open(VIDEO_PATH, O_RDWR);
    ioctl(video, VIDIOC_G_FMT, &format);
    width = format.fmt.pix.width;
    height = format.fmt.pix.height;
    row_bytes = format.fmt.pix.bytesperline;
    find_controls(video);
    CHECK(ask_buffers(video, 2) == 2 && !queue_buffer(video, 0, -1));
    unsigned char *pictures[2] = {map_buffer(video, 0), map_buffer(video, 1)};
    CHECK(pictures[0] != MAP_FAILED && pictures[1] != MAP_FAILED && !stream(video, 1));
    CHECK(!take_buffer(video, &buffer) && buffer.index == 0);
    print_picture(pictures[0]);
    CHECK(!set_control(video, plain_control()->id, plain_control()->maximum));
    CHECK(!queue_buffer(video, 1, -1) && !take_buffer(video, &buffer) && buffer.index == 1);
    print_picture(pictures[1]);
    return report();
}
