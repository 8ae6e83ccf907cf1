/*
 * Links libpio.a, runs the worked session of document 01 on a fresh board of four and prints its answers: number,
 * code, place, value, request. Before that it reads a fresh and a programmed board back field by field and tries every
 * refusal that include/pio.h names.
 */
#include "pio.h"
#include <stdio.h>
#include <stdlib.h>
#include <string.h>

static void expect(bool truth, const char *claim, int line) {
    if (truth)
        return;
    fprintf(stderr, "session.c, line %d: not so: %s\n", line, claim);
    exit(1);
}
#define EXPECT(claim) expect((claim), #claim, __LINE__)

static const uint8_t SESSION[11][4] = {
    {PIO_CONTROL, 0, 32, 0},  {PIO_CONTROL, 0, 15, 0}, {PIO_CONTROL, 0, 131, 0},   {PIO_FETCH, 0, 0, 0},
    {PIO_WRITE, 0, 65, 0},    {PIO_STROBE, 0, 0, 0},   {PIO_STROBE, 0, 1, 0},      {PIO_ACKNOWLEDGE, 0, 0, 0},
    {PIO_FETCH, 0, 0xED, 0},  {PIO_FETCH, 0, 0x4D, 0}, {PIO_ACKNOWLEDGE, 0, 0, 0},
};

static const struct pio_port FRESH = {.mode = 1, .strobe = true, .mask = 255};

static bool same(struct pio_port p, struct pio_port q) {
    return p.mode == q.mode && p.out == q.out && p.input == q.input && p.lines == q.lines && p.strobe == q.strobe
           && p.ready == q.ready && p.vector == q.vector && p.select == q.select && p.mask == q.mask
           && p.all == q.all && p.high == q.high && p.asked == q.asked && p.live == q.live && p.waiting == q.waiting
           && p.service == q.service && p.awaiting == q.awaiting && p.matched == q.matched;
}

static bool unchanged(const struct pio_board *b, const struct pio_board *old) { return memcmp(b, old, sizeof *b) == 0; }

static struct pio_board fresh(size_t size) {
    struct pio_board b = {0};
    EXPECT(pio_fresh(&b, size) == PIO_DONE);
    return b;
}

/* One event; the code, and the answer's other bytes as one number: place, value, request. */
static uint8_t step(struct pio_board *b, uint8_t kind, uint8_t place, uint8_t value, uint32_t *rest) {
    uint8_t event[4] = {kind, place, value, 0}, answer[4] = {9, 9, 9, 9};
    uint8_t code = pio_step(b, event, 4, answer, 4);
    EXPECT(answer[0] == code);
    *rest = (uint32_t)answer[1] << 16 | (uint32_t)answer[2] << 8 | answer[3];
    return code;
}

static void does(struct pio_board *b, uint8_t kind, uint8_t place, uint8_t value, uint8_t code, uint32_t rest) {
    uint32_t got;
    EXPECT(step(b, kind, place, value, &got) == code);
    EXPECT(got == rest);
}

static void fresh_boards(void) {
    for (size_t size = 1; size <= 4; size++) {
        struct pio_board b = fresh(size);
        EXPECT(b.size == size && b.decoder.prefix == 0);
        for (int i = 0; i < 4; i++)
            EXPECT(same(b.chips[i].a, FRESH) && same(b.chips[i].b, FRESH));
    }
    const size_t wrong[] = {0, 5, 256, 257, 260, SIZE_MAX};
    for (size_t i = 0; i < sizeof wrong / sizeof *wrong; i++) {
        struct pio_board b = fresh(4), four = b;
        EXPECT(pio_fresh(&b, wrong[i]) == PIO_BAD_SIZE);
        EXPECT(b.size == 0);
        b.size = 4;
        EXPECT(unchanged(&b, &four));
    }
}

/* A port in each mode, and what each field of the board then holds. */
static void programmed_board(void) {
    struct pio_board b = fresh(4);
    /* Place 1, output: a vector, a byte on its way out. */
    does(&b, PIO_CONTROL, 1, 0x24, PIO_DONE, 0x012400);
    does(&b, PIO_CONTROL, 1, 0x0F, PIO_DONE, 0x010F00);
    does(&b, PIO_WRITE, 1, 0x41, PIO_DONE, 0x014100);
    struct pio_port output = {.mode = 0, .out = 0x41, .strobe = true, .ready = true, .vector = 0x24, .mask = 255};
    EXPECT(same(b.chips[0].b, output));
    /* Place 2, input: a byte strobed in, with interrupts off; it waits all the same. */
    does(&b, PIO_CONTROL, 2, 0x4F, PIO_DONE, 0x024F00);
    does(&b, PIO_LINES, 2, 0x5A, PIO_DONE, 0x025A00);
    does(&b, PIO_STROBE, 2, 0, PIO_DONE, 0x020000);
    does(&b, PIO_LINES, 2, 0x5B, PIO_DONE, 0x025B00);
    does(&b, PIO_STROBE, 2, 1, PIO_DONE, 0x020100);
    does(&b, PIO_LINES, 2, 0x5C, PIO_DONE, 0x025C00);
    struct pio_port input = {.mode = 1, .input = 0x5B, .lines = 0x5C, .strobe = true, .mask = 255, .waiting = true};
    EXPECT(same(b.chips[1].a, input));
    does(&b, PIO_READ, 2, 0, PIO_DATA, 0x025B00);
    EXPECT(b.chips[1].a.ready);
    /* Place 3, bit control: lines 7 to 4 are inputs, line 4 is watched for High; enabled, live after a fetch. */
    does(&b, PIO_CONTROL, 3, 0x42, PIO_DONE, 0x034200);
    does(&b, PIO_CONTROL, 3, 0xCF, PIO_DONE, 0x03CF00);
    EXPECT(b.chips[1].b.awaiting == 1);
    does(&b, PIO_CONTROL, 3, 0xF0, PIO_DONE, 0x03F000);
    does(&b, PIO_CONTROL, 3, 0xB7, PIO_DONE, 0x03B700);
    EXPECT(b.chips[1].b.awaiting == 2);
    does(&b, PIO_CONTROL, 3, 0xEF, PIO_DONE, 0x03EF00);
    does(&b, PIO_WRITE, 3, 0x0C, PIO_DONE, 0x030C00);
    EXPECT(b.chips[1].b.asked && !b.chips[1].b.live);
    does(&b, PIO_FETCH, 0, 0, PIO_DONE, 0x000000);
    /* The request names place 3 by one more than its number, in a refusal too. */
    does(&b, PIO_LINES, 3, 0x10, PIO_DONE, 0x031004);
    does(&b, PIO_CONTROL, 1, 0x8F, PIO_BAD_MODE, 0x018F04);
    struct pio_port bits = {.mode = 3, .out = 0x0C, .lines = 0x10, .strobe = true, .vector = 0x42, .select = 0xF0,
                            .mask = 0xEF, .high = true, .asked = true, .live = true, .waiting = true, .matched = true};
    EXPECT(same(b.chips[1].b, bits));
    does(&b, PIO_ACKNOWLEDGE, 0, 0, PIO_ANSWERED, 0x034200);
    EXPECT(!b.chips[1].b.waiting && b.chips[1].b.service);
    /* Place 4, bidirectional, with an interrupt word that says AND; the strobe of place 5 serves its input register. */
    does(&b, PIO_CONTROL, 4, 0x8F, PIO_DONE, 0x048F00);
    does(&b, PIO_CONTROL, 4, 0x47, PIO_DONE, 0x044700);
    does(&b, PIO_LINES, 4, 0x77, PIO_DONE, 0x047700);
    does(&b, PIO_STROBE, 5, 0, PIO_DONE, 0x050000);
    struct pio_port both_ways = {.mode = 2, .input = 0x77, .lines = 0x77, .strobe = true, .mask = 255, .all = true};
    EXPECT(same(b.chips[2].a, both_ways));
    EXPECT(!b.chips[2].b.strobe);
    /* The rest is fresh, and an ED is remembered until the next fetch; no other event forgets it. */
    does(&b, PIO_FETCH, 0, 0xED, PIO_DONE, 0x00ED00);
    does(&b, PIO_WRITE, 7, 0x01, PIO_DONE, 0x070100);
    EXPECT(b.decoder.prefix == 1 && b.size == 4);
    EXPECT(same(b.chips[0].a, FRESH) && same(b.chips[3].a, FRESH) && b.chips[3].b.out == 1);
    does(&b, PIO_FETCH, 0, 0x4D, PIO_DONE, 0x004D00);
    EXPECT(b.decoder.prefix == 0 && !b.chips[1].b.service);

    uint8_t lines[3] = {9, 9, 9};
    EXPECT(pio_lines(&b, 1, lines, 3) == PIO_DONE && lines[0] == 0x41 && lines[1] == 0xFF && lines[2] == 9);
    EXPECT(pio_lines(&b, 2, lines, 2) == PIO_DONE && lines[0] == 0 && lines[1] == 0);
    EXPECT(pio_lines(&b, 3, lines, 2) == PIO_DONE && lines[0] == 0x0C && lines[1] == 0x0F);
}

static void step_refusals(void) {
    struct pio_board b = fresh(2), old = b;
    uint8_t event[5] = {PIO_CONTROL, 0, 15, 0, 0}, answer[6];
    const uint8_t untouched[6] = {9, 9, 9, 9, 9, 9};

    /* 34 goes before all: before a wrong length, before an unsound board. Nothing moves, nothing is written. */
    for (size_t room = 0; room < 4; room++)
        for (size_t length = 0; length <= 5; length++) {
            memcpy(answer, untouched, 6);
            EXPECT(pio_step(&b, event, length, answer, room) == PIO_NO_ROOM);
            EXPECT(unchanged(&b, &old) && memcmp(answer, untouched, 6) == 0);
            struct pio_board bad = b, as_bad;
            bad.chips[0].a.vector = 1;
            as_bad = bad;
            EXPECT(pio_step(&bad, event, length, answer, room) == PIO_NO_ROOM);
            EXPECT(unchanged(&bad, &as_bad) && memcmp(answer, untouched, 6) == 0);
        }
    /* 32 before 35, with zeros; bytes beyond the answer stay. */
    const uint8_t short_event[6] = {PIO_BAD_LENGTH, 0, 0, 0, 9, 9};
    for (size_t length = 0; length <= 5; length++) {
        if (length == 4)
            continue;
        struct pio_board bad = b;
        bad.size = 9;
        memcpy(answer, untouched, 6);
        EXPECT(pio_step(&b, event, length, answer, 6) == PIO_BAD_LENGTH && memcmp(answer, short_event, 6) == 0);
        EXPECT(unchanged(&b, &old));
        EXPECT(pio_step(&bad, event, length, answer, 4) == PIO_BAD_LENGTH);
    }
    /* 35: a size that no board has, an odd vector, mode 2 on a port B, a port that is live and not asked. */
    for (int fault = 0; fault < 5; fault++) {
        struct pio_board bad = b, as_bad;
        switch (fault) {
        case 0: bad.size = 0; break;
        case 1: bad.size = 5; break;
        case 2: bad.chips[1].b.vector = 0x21; break;
        case 3: bad.chips[0].b.mode = 2; break;
        default: bad.chips[1].a.live = true;
        }
        as_bad = bad;
        memcpy(answer, untouched, 6);
        const uint8_t unsound[6] = {PIO_UNSOUND, 200, 7, 0, 9, 9}, strange[4] = {99, 200, 7, 5};
        EXPECT(pio_step(&bad, strange, 4, answer, 6) == PIO_UNSOUND && memcmp(answer, unsound, 6) == 0);
        EXPECT(unchanged(&bad, &as_bad));
        uint8_t lines[2] = {9, 9};
        EXPECT(pio_lines(&bad, 99, lines, 2) == PIO_UNSOUND && lines[0] == 0 && lines[1] == 0);
    }
    /* The places beyond the size are not looked at. */
    struct pio_board beyond = b;
    beyond.chips[3].b.vector = 1;
    does(&beyond, PIO_WRITE, 3, 7, PIO_DONE, 0x030700);
    EXPECT(beyond.chips[3].b.vector == 1 && beyond.chips[1].b.out == 7);
    /* Then the table's order. */
    const uint8_t wrong[][5] = {
        {8, 200, 7, 5, PIO_BAD_KIND},         {PIO_FETCH, 1, 7, 5, PIO_BAD_PLACE},
        {PIO_WRITE, 4, 0, 1, PIO_BAD_PLACE},  {PIO_RESET, 0, 1, 0, PIO_BAD_VALUE},
        {PIO_STROBE, 3, 2, 0, PIO_BAD_VALUE}, {PIO_WRITE, 3, 0, 1, PIO_BAD_VALUE},
        {PIO_CONTROL, 0, 9, 0, PIO_BAD_WORD}, {PIO_CONTROL, 1, 143, 0, PIO_BAD_MODE},
    };
    for (size_t i = 0; i < sizeof wrong / sizeof *wrong; i++) {
        EXPECT(pio_step(&b, wrong[i], 4, answer, 4) == wrong[i][4] && unchanged(&b, &old));
        EXPECT(answer[0] == wrong[i][4] && answer[1] == wrong[i][1] && answer[2] == wrong[i][2] && answer[3] == 0);
    }
}

static void lines_refusals(void) {
    const struct pio_board b = fresh(4);
    uint8_t lines[2] = {9, 9};
    EXPECT(pio_lines(&b, 0, lines, 0) == PIO_NO_ROOM && pio_lines(&b, 256, lines, 1) == PIO_NO_ROOM);
    EXPECT(lines[0] == 9 && lines[1] == 9);
    const size_t wrong[] = {8, 255, 256, 263, SIZE_MAX};
    for (size_t i = 0; i < sizeof wrong / sizeof *wrong; i++) {
        lines[0] = lines[1] = 9;
        EXPECT(pio_lines(&b, wrong[i], lines, 2) == PIO_BAD_PLACE && lines[0] == 0 && lines[1] == 0);
    }
    EXPECT(pio_lines(&b, 7, lines, 2) == PIO_DONE);
}

static void run_refusals(void) {
    struct pio_board b = fresh(4), old = b, bad = b;
    bad.chips[0].a.vector = 1;
    uint8_t answers[50], untouched[50];
    memset(untouched, 9, sizeof untouched);
    memcpy(answers, untouched, sizeof answers);
    size_t records = 77;

    EXPECT(pio_run(&bad, SESSION[0], 43, answers, 50, 9, &records) == PIO_UNSOUND && records == 0);
    records = 77;
    EXPECT(pio_run(&b, SESSION[0], 43, answers, 50, 9, &records) == PIO_BAD_LENGTH && records == 0);
    const size_t late[] = {2, 12, SIZE_MAX / 4, SIZE_MAX - 10, SIZE_MAX};
    for (size_t i = 0; i < sizeof late / sizeof *late; i++) {
        records = 77;
        EXPECT(pio_run(&b, SESSION[0], 44, answers, 50, late[i], &records) == PIO_NO_ROOM && records == 0);
    }
    EXPECT(pio_run(&b, SESSION[0], 0, answers, 50, 13, &records) == PIO_NO_ROOM);
    EXPECT(unchanged(&b, &old) && memcmp(answers, untouched, 50) == 0);
    /* No events: a run of no records, from the buffer's end too. */
    records = 77;
    EXPECT(pio_run(&b, SESSION[0], 0, answers, 50, 12, &records) == PIO_DONE && records == 0);
    EXPECT(unchanged(&b, &old) && memcmp(answers, untouched, 50) == 0);
}

int main(void) {
    fresh_boards();
    programmed_board();
    step_refusals();
    lines_refusals();
    run_refusals();

    /* The session as a run, into the middle of a buffer, and step by step: the same answers, the same board. */
    struct pio_board ran = fresh(4), stepped = fresh(4);
    uint8_t answers[13][4];
    memset(answers, 9, sizeof answers);
    size_t records = 0;
    EXPECT(pio_run(&ran, SESSION[0], sizeof SESSION, answers[0], sizeof answers, 1, &records) == PIO_DONE);
    EXPECT(records == 11);
    for (int i = 0; i < 4; i++)
        EXPECT(answers[0][i] == 9 && answers[12][i] == 9);
    for (int i = 0; i < 11; i++) {
        uint8_t answer[4];
        uint8_t code = pio_step(&stepped, SESSION[i], 4, answer, 4);
        EXPECT(code == answer[0] && memcmp(answer, answers[i + 1], 4) == 0);
        printf("%d %d %d %d %d\n", i + 1, answer[0], answer[1], answer[2], answer[3]);
    }
    EXPECT(unchanged(&stepped, &ran));
    return 0;
}
