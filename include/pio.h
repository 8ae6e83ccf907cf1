/*
 * A board of one to four Z80 PIOs, each with its ports A and B, for C and C++ programs that link libpio.a.
 *
 * The board is lent: it lies in the caller's memory, and each call reads it or changes it there. The library keeps
 * nothing between calls, asks for no memory and writes nowhere but where it is told to.
 *
 * Place = 2 * chip + (0 for port A, 1 for port B); chip 0 is the nearest to the CPU, and a lower place goes before a
 * higher one. An event is four bytes: kind, place, value, 0. Its answer is four bytes: code, place, value, and the
 * request, which tells who asks the CPU for an interrupt after the event: 0 is nobody, and otherwise it is the nearest
 * asking place + 1, the place that would answer an acknowledge.
 *
 * Numbers come as size_t and every value of one is answered: a size of 257 is refused like a size of 5, a place of 256
 * like a place of 8. Nothing has to be checked before a call but what C itself cannot say:
 *   - `board` points to a struct pio_board, and each of its bools holds 0 or 1. A board of zero bytes does (struct
 *     pio_board b = {0};), and so does every board that these functions leave. Nothing else is asked of it: what its
 *     other bytes hold is looked at here.
 *   - a pointer that comes with a length points to that many bytes, or to any byte if the length is 0; `records`
 *     and `written` point to a size_t;
 *   - the things given to one call do not overlap each other, and no other thread touches them meanwhile.
 */
#ifndef PIO_H
#define PIO_H

#include <stdbool.h>
#include <stddef.h>
#include <stdint.h>

/* One port. `strobe` and `ready` are the levels of its handshake lines, `lines` those outside on its data lines. */
struct pio_port {
    uint8_t mode;     /* 0 output, 1 input, 2 bidirectional (port A only), 3 bit control */
    uint8_t out;      /* the output register */
    uint8_t input;    /* the input register */
    uint8_t lines;
    bool strobe;
    bool ready;
    uint8_t vector;   /* even */
    uint8_t select;   /* mode 3: a 1 for each input line */
    uint8_t mask;     /* mode 3: a 0 for each line that is watched */
    bool all;         /* mode 3: all watched lines must be active, not just one */
    bool high;        /* mode 3: active is High */
    bool asked;       /* the program enabled interrupts */
    bool live;        /* and an opcode was fetched since: they are on */
    bool waiting;     /* an interrupt waits */
    bool service;     /* an interrupt was acknowledged, and its RETI has not come */
    uint8_t awaiting; /* the next control byte is: 0 a control word, 1 the select word, 2 the mask */
    bool matched;     /* mode 3: the lines match */
};

struct pio_chip {
    struct pio_port a, b;
};

/* What is remembered of the opcodes fetched so far: 1 after an ED that a 4D would make a RETI, 0 otherwise. */
struct pio_decoder {
    uint8_t prefix;
};

struct pio_board {
    uint8_t size;     /* 1 to 4; chips beyond it are neither read nor changed by an event */
    struct pio_chip chips[4];
    struct pio_decoder decoder;
};

/* Kinds of event. 0 to 2 concern the whole board and have place 0; reset, acknowledge and read have value 0. */
enum {
    PIO_RESET = 0,
    PIO_FETCH = 1,       /* value: the opcode byte */
    PIO_ACKNOWLEDGE = 2,
    PIO_CONTROL = 3,     /* value: the control byte */
    PIO_WRITE = 4,       /* value: the data byte */
    PIO_READ = 5,
    PIO_STROBE = 6,      /* value: the strobe line's level, 0 or 1 */
    PIO_LINES = 7        /* value: the levels on the eight data lines */
};

/* Codes. Below 16 the event was done; from 16 on it was refused, and only what the function says was written. */
enum {
    PIO_DONE = 0,             /* place and value of the event */
    PIO_DATA = 1,             /* a read; value: the byte */
    PIO_ANSWERED = 2,         /* an acknowledge; the answering place and its vector */
    PIO_NOBODY = 3,           /* an acknowledge that no port answers; place 0, value 255 */
    PIO_BAD_KIND = 16,        /* a kind above 7 */
    PIO_BAD_PLACE = 17,       /* a place that is not on the board, or not 0 where it must be */
    PIO_BAD_VALUE = 18,       /* a value that the kind does not allow, or a fourth byte that is not 0 */
    PIO_BAD_WORD = 19,        /* a control byte of no defined form */
    PIO_BAD_MODE = 20,        /* mode 2 for a port B */
    PIO_BAD_LENGTH = 32,      /* a step of other than four event bytes, a run or wave of other than whole records */
    PIO_BAD_SIZE = 33,        /* a board of no or of more than four chips */
    PIO_NO_ROOM = 34,         /* a buffer that is too short */
    PIO_UNSOUND = 35,         /* a board that is not sound; no events lead to one */
    PIO_TOO_MANY = 36,        /* a wave of more than 16,384 records */
    PIO_NO_TEXT_ROOM = 40,    /* a text that is longer than its buffer */
    PIO_BAD_STAMPS = 41       /* stamps that are not two bytes for each record */
};

#ifdef __cplusplus
extern "C" {
#endif

/*
 * Makes *board a fresh board of `size` chips: every port as after a reset, all that a reset keeps 0, the strobes high.
 * Returns PIO_DONE. A size other than 1 to 4 is refused with PIO_BAD_SIZE; then *board has size 0, which no other
 * function takes for a sound board, and otherwise holds what a fresh board holds.
 */
uint8_t pio_fresh(struct pio_board *board, size_t size);

/*
 * Does one event: the board moves on, and the answer's four bytes are written to the start of `answer`; bytes beyond
 * them stay. Returns the answer's code.
 *
 * An answer buffer of fewer than four bytes is refused with PIO_NO_ROOM before anything else is looked at: nothing is
 * written and the board stays as it was. All other refusals are written as answers too, and leave the board as it was.
 * In this order: PIO_BAD_LENGTH (place, value and request 0), PIO_UNSOUND (request 0), PIO_BAD_KIND, PIO_BAD_PLACE,
 * PIO_BAD_VALUE, PIO_BAD_WORD, PIO_BAD_MODE; all but the first give the event's place and value, and those after
 * PIO_UNSOUND the request of the board as it stands.
 */
uint8_t pio_step(struct pio_board *board, const uint8_t *event, size_t event_length, uint8_t *answer,
                 size_t answer_length);

/*
 * Does many events, one record of four bytes after the other, refused ones included. The answers go into `answers`
 * from its record number `start` on (that is, from byte 4 * start on); its other bytes stay. Returns PIO_DONE, with the
 * number of records in *records.
 *
 * Refused, with the board and the buffer as they were and 0 in *records, in this order: PIO_UNSOUND; PIO_BAD_LENGTH if
 * the events are not whole records; PIO_NO_ROOM if `start` and the number of records together are more than the whole
 * records that the buffer has, however large `start` is. No events at all are a run of 0 records.
 */
uint8_t pio_run(struct pio_board *board, const uint8_t *events, size_t events_length, uint8_t *answers,
                size_t answers_length, size_t start, size_t *records);

/*
 * Tells what a port drives onto its eight lines: lines[0] is the levels, lines[1] has a 1 for each line that is driven,
 * and a line that is not shows 0. Bytes of `lines` beyond the two stay. Returns PIO_DONE. The board is only read.
 *
 * A buffer of fewer than two bytes is refused with PIO_NO_ROOM before anything else is looked at, and nothing is
 * written. Then PIO_UNSOUND, then PIO_BAD_PLACE for a place that is not on the board: both write two zeros.
 */
uint8_t pio_lines(const struct pio_board *board, size_t place, uint8_t *lines, size_t lines_length);

/* So many bytes are room enough for the text of a recording of `records` records, whatever they hold. */
#define PIO_WAVE_ROOM(records) (257 + 39 * (records))

/*
 * Does many events as pio_run does, and writes what a wave viewer shows of them as a Value Change Dump: after each
 * moment whether a place asks (`int`, 1 when the request is not 0) and the Ready of the eight places (`rdy0` to `rdy7`;
 * 0 for a place that is not on the board). `stamps` holds two bytes for each record, low byte first: a counter of
 * microseconds that goes from 65,535 to 0. Time is 0 at the first record and grows by the counter's difference, so neighbours are less than 65,536 apart.
 * Records at one time are shown as one, by the values after the last of them, and a time without a change is not
 * shown; no records at all give the header alone, 257 bytes. The text goes to the start of `text`, without a 0 byte at
 * its end; bytes beyond it stay. Returns PIO_DONE, with the text's length in *written; PIO_WAVE_ROOM says how long it
 * can get.
 *
 * Refused, with the board and the buffer as they were and 0 in *written, in this order: PIO_UNSOUND; PIO_BAD_LENGTH if
 * the events are not whole records; PIO_TOO_MANY if there are more than 16,384; PIO_BAD_STAMPS if the stamps are not
 * exactly two bytes for each record; PIO_NO_TEXT_ROOM if the text is longer than the buffer.
 */
uint8_t pio_wave(struct pio_board *board, const uint8_t *events, size_t events_length, const uint8_t *stamps,
                 size_t stamps_length, uint8_t *text, size_t text_length, size_t *written);

#ifdef __cplusplus
}
#else

/* The library's layout: every field is one byte, so there is no padding. */
_Static_assert(sizeof(bool) == 1, "a flag is a byte");
_Static_assert(sizeof(struct pio_port) == 17, "size of a port");
_Static_assert(offsetof(struct pio_port, mode) == 0, "mode");
_Static_assert(offsetof(struct pio_port, out) == 1, "out");
_Static_assert(offsetof(struct pio_port, input) == 2, "input");
_Static_assert(offsetof(struct pio_port, lines) == 3, "lines");
_Static_assert(offsetof(struct pio_port, strobe) == 4, "strobe");
_Static_assert(offsetof(struct pio_port, ready) == 5, "ready");
_Static_assert(offsetof(struct pio_port, vector) == 6, "vector");
_Static_assert(offsetof(struct pio_port, select) == 7, "select");
_Static_assert(offsetof(struct pio_port, mask) == 8, "mask");
_Static_assert(offsetof(struct pio_port, all) == 9, "all");
_Static_assert(offsetof(struct pio_port, high) == 10, "high");
_Static_assert(offsetof(struct pio_port, asked) == 11, "asked");
_Static_assert(offsetof(struct pio_port, live) == 12, "live");
_Static_assert(offsetof(struct pio_port, waiting) == 13, "waiting");
_Static_assert(offsetof(struct pio_port, service) == 14, "service");
_Static_assert(offsetof(struct pio_port, awaiting) == 15, "awaiting");
_Static_assert(offsetof(struct pio_port, matched) == 16, "matched");
_Static_assert(sizeof(struct pio_chip) == 34, "size of a chip");
_Static_assert(offsetof(struct pio_chip, a) == 0 && offsetof(struct pio_chip, b) == 17, "ports of a chip");
_Static_assert(sizeof(struct pio_board) == 138, "size of a board");
_Static_assert(offsetof(struct pio_board, size) == 0, "size");
_Static_assert(offsetof(struct pio_board, chips) == 1, "chips");
_Static_assert(offsetof(struct pio_board, decoder) == 137, "decoder");

#endif

#endif
