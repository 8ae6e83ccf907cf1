/*
 * wave SIZE ROOM BEFORE EVENTS STAMPS: one wave export over libpio.a. The board of SIZE chips is fresh and has done the
 * events of the file BEFORE; ROOM is the length of the text's buffer, or `bound` for as much as include/pio.h asks for.
 * Prints the code on a line of its own and then the text. Where the board, the buffer's other bytes or the length are
 * not as include/pio.h says, it says so and leaves with 1.
 */
#include "pio.h"
#include <stdio.h>
#include <stdlib.h>
#include <string.h>

static void expect(bool truth, const char *claim) {
    if (truth)
        return;
    fprintf(stderr, "wave.c: not so: %s\n", claim);
    exit(1);
}

struct bytes {
    uint8_t *at;
    size_t length;
};

/* At least one byte, so that there is something to point to. */
static struct bytes room(size_t length) {
    struct bytes b = {malloc(length + 1), length};
    expect(b.at != NULL, "there is memory");
    return b;
}

static struct bytes contents(const char *name) {
    FILE *file = fopen(name, "rb");
    expect(file != NULL && fseek(file, 0, SEEK_END) == 0, name);
    struct bytes b = room((size_t)ftell(file));
    rewind(file);
    expect(fread(b.at, 1, b.length, file) == b.length, name);
    fclose(file);
    return b;
}

static void run(struct pio_board *board, struct bytes events) {
    struct bytes answers = room(events.length);
    size_t records;
    expect(pio_run(board, events.at, events.length, answers.at, answers.length, 0, &records) == PIO_DONE, "a run");
    free(answers.at);
}

/* The pattern is no ASCII, so that no byte of a text is taken for one that stayed. */
static uint8_t pattern(size_t i) { return (uint8_t)(128 + i % 127); }

static bool stayed(struct bytes b, size_t from) {
    for (size_t i = from; i < b.length; i++)
        if (b.at[i] != pattern(i))
            return false;
    return true;
}

int main(int count, char **words) {
    expect(count == 6, "usage: wave SIZE ROOM BEFORE EVENTS STAMPS");
    struct bytes before = contents(words[3]), events = contents(words[4]), stamps = contents(words[5]);
    bool bound = strcmp(words[2], "bound") == 0;
    size_t length = bound ? PIO_WAVE_ROOM(events.length / 4) : strtoul(words[2], NULL, 10);

    struct pio_board board;
    bool sound = pio_fresh(&board, strtoul(words[1], NULL, 10)) == PIO_DONE;
    if (sound)
        run(&board, before);
    /* Places beyond the size are not on the board: what their Ready holds is nobody's business. */
    for (int chip = board.size; chip < 4; chip++)
        board.chips[chip].a.ready = board.chips[chip].b.ready = true;
    const struct pio_board old = board;

    /* Some bytes behind the buffer that is lent. */
    struct bytes text = room(length + 64);
    for (size_t i = 0; i < text.length; i++)
        text.at[i] = pattern(i);
    size_t written = 77;
    uint8_t code = pio_wave(&board, events.at, events.length, stamps.at, stamps.length, text.at, length, &written);

    struct pio_board wanted = old;
    if (code == PIO_DONE)
        run(&wanted, events);
    else
        expect(written == 0, "a refused export has length 0");
    expect(written <= length, "the text is no longer than its buffer");
    expect(written <= PIO_WAVE_ROOM(events.length / 4), "nor than the bound");
    expect(stayed(text, written), "bytes beyond the text stay");
    expect(memcmp(&board, &wanted, sizeof board) == 0, "the board is as a run leaves it, or as it was");

    printf("%d\n", code);
    fwrite(text.at, 1, written, stdout);
    return 0;
}
