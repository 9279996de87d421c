/*
 * card.h - the machine inside a game card: CHIP-8 of 1978 with a step back and
 * a step forward again.
 *
 * Link with the static library libcard.a. Of the C library it calls memcpy and
 * memset, and nothing else:
 *
 *   cc -Iinclude dock.c libcard.a
 *
 * harness/c/dock.c is a worked dock: it makes every call but card_plain, and looks
 * at what came of it.
 *
 * Seven functions load a program, make one step or one clock tick, go one action
 * back or forward again, run a list of inputs, and play a list of moves. They
 * hold the picture as rows, and two more turn rows into bytes and bytes into rows.
 * A tenth turns those bytes into the ones of the card's own panel, an eleventh
 * draws a page of the variables, for a dock that shows the game or its insides, a
 * twelfth salvages a history in which cells have worn, and a thirteenth makes a
 * run on the plain engine of the bench, with no history. A load chooses the
 * edition of the instruction set and where memory ends.
 *
 * THE BUFFERS
 *
 * The host owns every byte. The library allocates nothing and keeps nothing
 * between two calls: whoever holds the four buffers holds the machine.
 *
 *   image    64 bytes      registers, stack, timers, history numbers and the
 *                          number of lit spots
 *   memory   4,096 bytes   the program and its data; also in the 2K profile, where
 *                          a load clears those from 06A0 on, and no other call
 *                          reads or writes them
 *   rows     32 numbers    64 by 32 spots, a number of 64 bits for each row, top
 *                          row first, the highest bit leftmost, 1 for a lit spot
 *   history  292 to 65,536 bytes, a place of 292 bytes for each action that can
 *            be taken back and made again; bytes after the last whole place are
 *            in none, and only a load writes them: it clears them with all the
 *            others
 *
 * Beside them, for card_rows, card_bytes and card_panel alone:
 *
 *   picture  256 bytes     the same spots, 8 bytes a row, top row first, the
 *                          highest bit leftmost
 *
 * for card_panel alone:
 *
 *   panel    1,024 bytes   128 by 64 dots, 16 bytes a row, top row first, the
 *                          highest bit leftmost, 1 for a lit dot
 *
 * for card_page alone:
 *
 *   page     256 bytes     spots as in a picture, so card_panel turns it into
 *                          dots too
 *
 * for card_salvage alone:
 *
 *   list     two numbers of 16 bits for each place of the history, or more
 *
 * and for card_plain alone:
 *
 *   spots    2,048 bytes   the same spots once more, a byte for each: 0 dark, 1
 *                          lit, rows from the top, left to right
 *
 * Each buffer is handed over as a pointer and, right after it, its length. The
 * length counts elements: bytes, 16-bit numbers for keys and for a list, 64-bit
 * numbers for rows and for an answer. So sizeof gives the length of a buffer of
 * bytes, and of no other: the rows have CARD_ROWS elements and an answer
 * CARD_ANSWER, and `sizeof rows` and `sizeof answer` are eight times that. A
 * wrong length is refused, so a call never reads or writes outside the lengths
 * that it was told.
 *
 * What the host must see to:
 *   - A pointer is never null, even when the length is 0; any valid address
 *     will do then. It must be aligned for its type.
 *   - No buffer that is written overlaps another of the same call. Two that are
 *     only read may: a run's ticks and random bytes can be one list of zeros.
 *   - A history keeps its length from one load to the next, since next, kept and
 *     ahead count its places.
 *   - Any contents are allowed. A state that cannot be is refused with
 *     CARD_UNSOUND; a history that somebody else wrote in, or that has worn, may
 *     be refused with CARD_DAMAGED_RECORD, and card_salvage makes it fit again.
 *     Both are listed below, beside the image and the record. A host that changes
 *     the rows itself, with card_rows too, has to set the number of lit spots in
 *     the image as well, or that is false from then on.
 *   - Somebody has written the contents. What is proved speaks of bytes that have
 *     a value, so buffers that are still uninitialised are outside of it. An
 *     accepted card_load writes every byte of image, memory, rows and history,
 *     and a refused one every byte of the image; to be inside the proof with the
 *     first load too, clear the four before it.
 *
 * Threads: calls on different buffers may be made at the same time. Buffers
 * that are lent to a call are not touched by anybody else until it ends.
 *
 * THE ROWS
 *
 * The machine works on its picture as rows: rows[y] is row y, and the spot in
 * column x of it is
 *   rows[y] >> (63 - x) & 1
 * A panel, a page of variables and the records of a history hold the same spots
 * as bytes. Row y is made of the bytes 8 * y to 8 * y + 7, the first of them
 * highest; so on a machine that stores its low bytes first, rows lie in memory
 * otherwise than bytes do. card_rows and card_bytes turn one into the other, and
 * nothing is lost either way.
 *
 * THE END OF MEMORY
 *
 * A load chooses where memory ends, and no other call changes it: at 1000 (4,096
 * bytes), or at 06A0 (1,696 bytes) for the small VIP of 2 KB. The program counter,
 * what an instruction needs of memory, and the bytes that a record puts back are
 * held against that end. Lent memory has 4,096 bytes in both. Above the end it is
 * 0 after an accepted load, and from then on no call writes there, and none
 * answers otherwise for what stands there.
 *
 * THE LIT SPOTS
 *
 * The image holds the number of lit spots, 0 to 2,048, so that a brightness
 * control need not count them after every step. A load sets it to 0. A step, a
 * back or a forward adds to it the lit spots in the bytes that it changes,
 * counted after less before; a tick leaves it. So after an accepted load it is
 * the count of the rows, and it stays so over every call that takes a state, for
 * as long as nobody else writes in the buffers.
 *
 * A number that somebody else wrote may be false. Up to 2,048 it is taken and
 * counted on in the same way; but an action that would take it below 0 or above
 * 2,048 is refused with CARD_UNSOUND, after all other numbers. With a true number
 * that never occurs. A number above 2,048 is a state that cannot be.
 *
 * THE ANSWER
 *
 * Every function returns 0 (CARD_DONE) or a refusal number. A refused call
 * leaves every buffer as it came, with these three exceptions:
 *   - card_load leaves the fresh image in a 64-byte image, refused or not;
 *   - card_step, card_run, card_salvage and card_plain write all four numbers of
 *     the answer, refused or not, unless the answer itself has a wrong length;
 *   - card_run, card_play and card_plain keep the actions that were accepted
 *     before, whichever number comes after them.
 *
 * AN EXAMPLE
 *
 *   uint8_t image[CARD_IMAGE] = {0}, memory[CARD_MEMORY] = {0};
 *   uint8_t history[100 * CARD_PLACE] = {0};
 *   uint64_t rows[CARD_ROWS] = {0};       (its length is CARD_ROWS, a count)
 *   uint64_t answer[CARD_ANSWER] = {0};   (and this one's is CARD_ANSWER)
 *   const uint8_t program[] = {0x60, 0x05, 0x70, 0x03};   (V0 = 5, V0 += 3)
 *
 *   card_load(program, sizeof program, CARD_FIRST_EDITION, CARD_FULL_END,
 *             image, sizeof image, memory, sizeof memory, rows, CARD_ROWS,
 *             history, sizeof history);
 *   card_step(image, sizeof image, memory, sizeof memory, rows, CARD_ROWS,
 *             history, sizeof history, 0, 0, answer, CARD_ANSWER);
 *   (image[CARD_AT_V] is 5 now, and answer[CARD_ACCEPTED] is 1; nothing was
 *   drawn, so answer[CARD_WENT_DARK] is 0)
 *   card_back(image, sizeof image, memory, sizeof memory, rows, CARD_ROWS,
 *             history, sizeof history);
 *   (image[CARD_AT_V] is 0 again, and PC is 0200)
 *   card_forward(image, sizeof image, memory, sizeof memory, rows, CARD_ROWS,
 *                history, sizeof history);
 *   (image[CARD_AT_V] is 5 once more)
 *
 * A frame of a game, sixty times a second, with the memory, rows, history and so
 * on as above: one tick, then ten steps.
 *
 *   const uint8_t ticks[10] = {1};                   (before the first step alone)
 *   uint16_t keys[10];                               (bit k while key k is down)
 *   uint8_t randoms[10];                             (for CXKK, by the host)
 *   card_run(image, sizeof image, memory, sizeof memory, rows, CARD_ROWS,
 *            history, sizeof history, ticks, 10, keys, 10, randoms, 10,
 *            answer, CARD_ANSWER);
 *
 * THE BUTTON
 *
 * card_back and card_forward are the two ends of one button. Each action, a
 * step or a tick, leaves a record in the history: what stood before it, and for
 * a step the keys and the random byte that it was given. Two numbers of the
 * image say how far the button goes:
 *
 *   kept   how many actions card_back can take back
 *   ahead  how many of those taken back card_forward can make again
 *
 * A back raises ahead by one, and a forward lowers it by one. Every other step
 * or tick that is accepted, a run's or a play's too, is a new action: it sets
 * ahead to 0, and what was ahead is gone. A load begins with both at 0. The two
 * together are never more than the places of the history. So an author who went
 * back too far goes forward again and meets the same states, whatever keys are
 * down meanwhile.
 */
#ifndef CARD_H
#define CARD_H

#include <stddef.h>
#include <stdint.h>

#ifdef __cplusplus
extern "C" {
#endif

/* ---- Sizes, in elements ------------------------------------------------- */

#define CARD_IMAGE 64
#define CARD_MEMORY 4096
#define CARD_PICTURE 256
#define CARD_COLUMNS 64
#define CARD_ROWS 32
#define CARD_BYTES_A_ROW 8
#define CARD_SPOTS 2048
#define CARD_PANEL 1024
#define CARD_PANEL_COLUMNS 128
#define CARD_PANEL_ROWS 64
#define CARD_PANEL_BYTES_A_ROW 16
#define CARD_PAGE 256
#define CARD_PLACE 292
#define CARD_HISTORY_LEAST 292
#define CARD_HISTORY_MOST 65536
#define CARD_PLACES_MOST 224
#define CARD_START 0x0200
#define CARD_PROGRAM_LEAST 1
#define CARD_PROGRAM_MOST 3584 /* with the full memory */
#define CARD_SMALL_PROGRAM_MOST 1184 /* with the small one */
#define CARD_STACK 12
#define CARD_RUN_MOST 4096
#define CARD_PLAY_MOST 4096
#define CARD_ANSWER 4

/* How many actions a history of this length can take back. */
#define CARD_PLACES(history_length) ((history_length) / CARD_PLACE)

/* How many numbers the list of a salvage of such a history needs. */
#define CARD_LIST(history_length) (2 * CARD_PLACES(history_length))

/* ---- Refusal numbers ---------------------------------------------------- */

enum card_refusal {
    CARD_DONE = 0,             /* not refused */
    CARD_PROGRAM_COUNTER = 1,  /* PC above the end of memory less 2 */
    CARD_NOT_LISTED = 2,       /* an instruction that the edition has not */
    CARD_MACHINE_LANGUAGE = 3, /* 0MMM other than 00E0 and 00EE */
    CARD_STACK_FULL = 4,       /* a call at depth 12 */
    CARD_STACK_EMPTY = 5,      /* a return at depth 0 */
    CARD_PAST_MEMORY = 6,      /* I and the bytes needed pass that end */
    CARD_NOTHING_KEPT = 7,     /* a back with kept 0 */
    CARD_PROGRAM_LENGTH = 8,   /* a program of 0 bytes, or of more than there
                                  are from 0200 to the end of memory */
    CARD_LENGTH = 9,           /* a buffer or a list has a wrong length */
    CARD_UNSOUND = 10,         /* a state that cannot be, next, kept or ahead
                                  too; in a load an edition that there is not,
                                  or an end that is not in use;
                                  late, a change that would take the number of
                                  lit spots below 0 or above 2,048 */
    CARD_DAMAGED_RECORD = 11,  /* a back or a forward onto a damaged record */
    CARD_NOTHING_AHEAD = 12    /* a forward with ahead 0 */
};

/*
 * If more than one applies, the number that is given is the first of
 *   load     9, 10, 8
 *   step     9, 10, 1, then 2 or 3, then 4, 5 or 6, then 10 late
 *   tick     9, 10
 *   back     9, 10, 7, 11, then 10 late
 *   forward  9, 10, 12, 11, then those of its step from 1 on, 10 late too
 *   run      9, 10, then that of the step that ended it, 10 late too
 *   play     9, 10, then that of the last move, 10 late too
 *   rows     9
 *   bytes    9
 *   panel    9
 *   page     9, 10
 *   salvage  9, 10
 *   plain    9, 10, then that of the step that ended it, 10 late too
 *
 * The late 10 is said of the number of lit spots alone: the state is one that can
 * be, but the number in it is false. Like every refusal of an action it leaves
 * everything. A run ends there and a play goes on, and both keep the actions
 * before it. So CARD_UNSOUND of a run or a play, on either engine, does not say
 * that nothing was done.
 */

/*
 * A refusal number in words, for a person: what a message can say after "refused:".
 * A number that there is not gives words too, and never a null pointer.
 */
static inline const char *card_refusal_words(uint32_t refusal) {
    static const char *const words[] = {
        "nothing is refused",
        "PC is past the end of memory",
        "the edition has no such instruction",
        "a call into machine language, which the card does not make",
        "a call with the stack full",
        "a return with the stack empty",
        "I and the bytes needed pass the end of memory",
        "nothing is kept to go back to",
        "a program of no bytes, or too long a one",
        "a buffer or a list has a wrong length",
        "a state that cannot be, or a false number of lit spots",
        "the record is damaged",
        "nothing is ahead to go forward to",
    };
    const uint32_t last = sizeof words / sizeof *words - 1;
    return refusal <= last ? words[refusal] : "no refusal number";
}

/* ---- The image ---------------------------------------------------------- */

/* Where each part stands. Numbers of two bytes have the high byte first. */
#define CARD_AT_V 0        /* V0 to VF, a byte each */
#define CARD_AT_I 16       /* two bytes */
#define CARD_AT_PC 18      /* two bytes */
#define CARD_AT_DEPTH 20   /* return addresses on the stack, 0 to 12 */
#define CARD_AT_DELAY 21   /* the delay timer */
#define CARD_AT_TONE 22    /* the tone timer; a tone sounds while it is not 0 */
#define CARD_AT_HELD 23    /* the key that FX0A holds, 0 to 15, or FF for none */
#define CARD_AT_STACK 24   /* twelve entries of two bytes, 0 from depth on */
#define CARD_AT_NEXT 48    /* two bytes: the place of the next record */
#define CARD_AT_KEPT 50    /* two bytes: how many actions can be taken back */
#define CARD_AT_EDITION 52 /* one of the two below */
#define CARD_AT_LATER 53   /* for later use, 0, and 60 to 63 likewise */
#define CARD_AT_AHEAD 54   /* two bytes: how many actions can be made again */
#define CARD_AT_LIT 56     /* two bytes: how many spots are lit, 0 to 2,048 */
#define CARD_AT_END 58     /* two bytes: where memory ends, one of the two below */

#define CARD_NO_KEY 0xFF

/*
 * A state that cannot be, which is CARD_UNSOUND in every call that takes one:
 *   - a depth above 12, or an entry of the stack at or above depth that is not 0;
 *   - a held key above 15 that is not CARD_NO_KEY;
 *   - an edition or an end that is neither of the two, or a byte for later use that
 *     is not 0;
 *   - a number of lit spots above 2,048;
 *   - a next that is not below the places of the history, or kept and ahead that
 *     are more together than those places. card_page and card_plain are lent no
 *     history, and do not look at the three.
 * V, I, PC, the timers and the return addresses may be anything.
 */

/*
 * The editions of the instruction set. The second has four operations more, with
 * the flag in VF written last as in all others:
 *   8XY3  VX becomes VX exclusive-or VY, VF 0
 *   8XY6  VX becomes VY halved and rounded down, VF the lowest bit of VY
 *   8XY7  VX becomes VY less VX modulo 256, VF 1 if VY was at least VX, else 0
 *   8XYE  VX becomes VY doubled modulo 256, VF the highest bit of VY
 * In the first edition they are CARD_NOT_LISTED. A load chooses the edition, and
 * no other call changes it.
 */
#define CARD_FIRST_EDITION 0
#define CARD_SECOND_EDITION 1

/* The two ends of memory. */
#define CARD_SMALL_END 0x06A0
#define CARD_FULL_END 0x1000

/* ---- A record of the history -------------------------------------------- */

/*
 * Place k of a history begins at CARD_PLACE * k. The newest record stands in the
 * place before next, the last place being before 0; kept of them, going round,
 * can be taken back. Those ahead stand from next on. A record has what stood
 * before its action, and then what the action was given. A dock may read it, to
 * show the past; card_back and card_forward need no help. Numbers of two bytes
 * have the high byte first.
 */
#define CARD_RECORD_AT_MARK 0     /* NO, ME or DI: what changed beside the state */
#define CARD_RECORD_AT_V 2        /* V0 to VF, a byte each */
#define CARD_RECORD_AT_I 18       /* two bytes */
#define CARD_RECORD_AT_PC 20      /* two bytes */
#define CARD_RECORD_AT_DEPTH 22   /* return addresses on the stack */
#define CARD_RECORD_AT_RETURN 23  /* two bytes: the last of them, 0 if none */
#define CARD_RECORD_AT_DELAY 25   /* the delay timer */
#define CARD_RECORD_AT_TONE 26    /* the tone timer */
#define CARD_RECORD_AT_HELD 27    /* the key that FX0A held, or FF for none */
#define CARD_RECORD_AT_START 28   /* two bytes: of ME in memory, of DI in the
                                     picture as bytes; 0 of NO */
#define CARD_RECORD_AT_COUNT 30   /* two bytes: how many bytes; 0 of NO */
#define CARD_RECORD_AT_OLD 32     /* so many old bytes, then 0 up to 287 */
#define CARD_RECORD_AT_KEYS 288   /* two bytes: the keys of a step; 0 of a tick */
#define CARD_RECORD_AT_RANDOM 290 /* the random byte of a step; 0 of a tick */
#define CARD_RECORD_AT_KIND 291   /* 1 for a step, 0 for a tick */

/*
 * A damaged record, onto which a back is CARD_DAMAGED_RECORD:
 *   - a mark that is none of the three;
 *   - NO with a start or a count that is not 0;
 *   - ME with a count of 0 or above 16, or that reaches past the end of memory;
 *   - DI with a count of 0 or above 256, or that reaches past byte 256;
 *   - a depth above 12, or more than one away from the present depth;
 *   - a depth of 0 with a return address that is not 0;
 *   - a held key above 15 that is not CARD_NO_KEY;
 *   - a kind that is neither 0 nor 1.
 * Every other record is sound. A forward looks at the kind alone.
 */

/* ---- The answer of a step and of a run ---------------------------------- */

/*
 * Where each number stands. The one after these is for later use and 0; so are the
 * three after the first, of card_plain.
 */
#define CARD_ACCEPTED 0  /* how many steps were accepted */
#define CARD_WENT_DARK 1 /* how many lit spots their drawings darkened */
#define CARD_COPIED 2    /* of a run: how many bytes its records keep; else 0 */

/* ---- The answer and the list of a salvage ------------------------------- */

/* Where each number of the answer stands. The two after these are 0. */
#define CARD_RECORDS_KEPT 0   /* how many records are left, all of them sound */
#define CARD_PLACES_CLEARED 1 /* how many places are 0 now, and listed */

/* The second number of an entry of the list: as what the place had counted. */
enum card_standing {
    CARD_WAS_KEPT = 0,  /* one of the kept actions, before next */
    CARD_WAS_AHEAD = 1, /* one of those ahead, from next on */
    CARD_WAS_FREE = 2   /* neither */
};

/* ---- The calls ---------------------------------------------------------- */

/*
 * Loads a program to 0200: of 1 to 3,584 bytes where `end` is CARD_FULL_END, of 1
 * to 1,184 where it is CARD_SMALL_END. The digits stand from 0000 to 004F; all
 * other memory, also above the end, the rows and the whole history become 0.
 * Nothing is read from the four buffers, so they may hold anything before. An
 * `edition` other than the two, or another `end`, is CARD_UNSOUND.
 *
 * The image becomes the fresh one (PC 0200, held key FF, the edition and the end
 * that were asked for, all else 0) even when the load is refused, provided it has
 * 64 bytes. It has the first edition where no such edition was asked for, and
 * CARD_FULL_END where no such end was, whichever number refuses the load. A
 * refused load leaves memory, rows and history; so its number of lit spots, 0, is
 * false where the rows are not dark.
 */
uint32_t card_load(const uint8_t *program, size_t program_length,
                   uint8_t edition, uint16_t end,
                   uint8_t *image, size_t image_length,
                   uint8_t *memory, size_t memory_length,
                   uint64_t *rows, size_t rows_length,
                   uint8_t *history, size_t history_length);

/*
 * Executes one instruction: the whole of it, or nothing. Bit k of `keys` is
 * set while key k is down; `random` is the byte that CXKK uses. FX0A takes
 * several steps: one until a key is down, one until that key is up again.
 *
 * answer[CARD_ACCEPTED] is 1 if the step was accepted, otherwise 0.
 *
 * answer[CARD_WENT_DARK] is how many lit spots a drawing (DXYN) darkened, 0 to
 * 120, for games that score by touches. Spots that are dropped at the right or
 * the bottom edge do not count. VF only says whether the number is above 0. It
 * is 0 for every other instruction, for 00E0 too, and for a refused step.
 */
uint32_t card_step(uint8_t *image, size_t image_length,
                   uint8_t *memory, size_t memory_length,
                   uint64_t *rows, size_t rows_length,
                   uint8_t *history, size_t history_length,
                   uint16_t keys, uint8_t random,
                   uint64_t *answer, size_t answer_length);

/*
 * One tick of the clock: lowers each timer that is not 0 by one. A dock makes
 * sixty a second. A tick is an action with a record of its own, so a back takes it
 * back.
 */
uint32_t card_tick(uint8_t *image, size_t image_length,
                   uint8_t *history, size_t history_length);

/*
 * Takes back the last step or tick that was accepted, with every part of the
 * state, every byte of memory and every row. The history is only read, and
 * card_forward can make the action again. When kept is 0, nothing is left to
 * take back and the call is refused with CARD_NOTHING_KEPT.
 */
uint32_t card_back(uint8_t *image, size_t image_length,
                   uint8_t *memory, size_t memory_length,
                   uint64_t *rows, size_t rows_length,
                   const uint8_t *history, size_t history_length);

/*
 * Makes the action again that the last back took back: the step, with the keys
 * and the random byte that it had then, or the tick. Whatever keys are down now
 * play no part. When ahead is 0, nothing is there to be made again and the call
 * is refused with CARD_NOTHING_AHEAD.
 *
 * The action is made as a new one is, by the instruction that stands at PC, and
 * its record is written again. While nobody else writes in the buffers, that
 * leaves the history as it was, and no other refusal occurs. If somebody does,
 * the record may say neither step nor tick, which is CARD_DAMAGED_RECORD, and
 * the step may be refused by a number of its own.
 */
uint32_t card_forward(uint8_t *image, size_t image_length,
                      uint8_t *memory, size_t memory_length,
                      uint64_t *rows, size_t rows_length,
                      uint8_t *history, size_t history_length);

/*
 * For each entry makes ticks[i] ticks and then a step with keys[i] and
 * randoms[i]. The three lists are equally long, 0 to 4,096 entries. The first
 * refused step ends the run, and its number is returned; all actions before
 * it stand, the ticks of its own entry included.
 *
 * answer[CARD_ACCEPTED] is the number of accepted steps,
 * answer[CARD_WENT_DARK] the sum of the spots that each of them darkened, and
 * answer[CARD_COPIED] the total of the count fields of their records: 3 for FX33,
 * X + 1 for FX55, 8 for each row that DXYN draws, 256 for 00E0, and 0 for every
 * other step. Ticks add nothing. When a refused step ends the run, all three speak
 * of the steps before it; when the run itself is refused, they are 0.
 *
 * CARD_UNSOUND may be either. For a state that cannot be, the run itself is
 * refused, and nothing was done. For a false number of lit spots a step is
 * refused, late, and the image shows what was done before it. A run of no entries
 * tests 9 and 10 and changes nothing; so made afterwards, with an answer of its
 * own, it tells the two apart: CARD_UNSOUND for the one, CARD_DONE for the other.
 */
uint32_t card_run(uint8_t *image, size_t image_length,
                  uint8_t *memory, size_t memory_length,
                  uint64_t *rows, size_t rows_length,
                  uint8_t *history, size_t history_length,
                  const uint8_t *ticks, size_t ticks_length,
                  const uint16_t *keys, size_t keys_length,
                  const uint8_t *randoms, size_t randoms_length,
                  uint64_t *answer, size_t answer_length);

/* The moves of a play. */
enum card_move {
    CARD_MOVE_STEP = 0,
    CARD_MOVE_TICK = 1,
    CARD_MOVE_BACK = 2,
    CARD_MOVE_FORWARD = 3
};

/*
 * Makes a list of moves, each on what the last one gave; a step uses keys[i]
 * and randoms[i], a forward what its record keeps. A refused move changes
 * nothing and the play goes on. The last move's number is returned, 0 for an
 * empty list. The three lists are equally long, 0 to 4,096 entries.
 *
 * Lists of unequal or greater length, or a move other than these four
 * anywhere, are CARD_LENGTH, and a state that cannot be is CARD_UNSOUND. Both
 * are tested before the first move; a play that is refused there changes
 * nothing. CARD_UNSOUND may also be the last move's own, late, for a false number
 * of lit spots; the moves before it stand then.
 */
uint32_t card_play(uint8_t *image, size_t image_length,
                   uint8_t *memory, size_t memory_length,
                   uint64_t *rows, size_t rows_length,
                   uint8_t *history, size_t history_length,
                   const uint8_t *moves, size_t moves_length,
                   const uint16_t *keys, size_t keys_length,
                   const uint8_t *randoms, size_t randoms_length);

/*
 * Turns a picture into rows: rows[y] becomes the bytes 8 * y to 8 * y + 7 as one
 * number, the first of them highest. All 32 numbers are written, and nothing is
 * read from them before. The picture is only read.
 *
 * A picture of other than 256 bytes or rows of other than 32 numbers are
 * CARD_LENGTH, and the rows are then as they came. No machine is needed: any 256
 * bytes are a picture.
 */
uint32_t card_rows(const uint8_t *picture, size_t picture_length,
                   uint64_t *rows, size_t rows_length);

/*
 * Turns rows into a picture, so that card_rows on it gives the same rows again:
 * picture[8 * y + k] becomes the byte of rows[y] that has k bytes above it. All
 * 256 bytes are written, and nothing is read from them before. The rows are only
 * read. Lengths are tested as by card_rows, and any 32 numbers are rows.
 */
uint32_t card_bytes(const uint64_t *rows, size_t rows_length,
                    uint8_t *picture, size_t picture_length);

/*
 * Turns a picture, as card_bytes gives it, into the panel: each spot fills two by
 * two dots, so dot (x, y) of the panel is spot (x / 2, y / 2) of the picture, for
 * every x below 128 and y below 64. All 1,024 bytes are written, and nothing is
 * read from them before. The picture is only read.
 *
 * The dot in column x of row y is
 *   panel[CARD_PANEL_BYTES_A_ROW * y + x / 8] >> (7 - x % 8) & 1
 *
 * A picture of other than 256 bytes or a panel of other than 1,024 is
 * CARD_LENGTH, and the panel is then as it came. No machine is needed: any 256
 * bytes are a picture.
 */
uint32_t card_panel(const uint8_t *picture, size_t picture_length,
                    uint8_t *panel, size_t panel_length);

/*
 * Draws a page of the variables afresh: V0 to VF as pairs of digits, high digit
 * first, four variables a row, and PC as four digits below them. A digit is the
 * pattern of 8 by 5 spots that a program gets by FX29, whatever stands in memory.
 * The patterns stand at columns 0, 8 and so on to 56; their rows start at row 0,
 * 6, 12 and 18, that of PC at 24. All other spots are dark. The image is only
 * read, and the game's own picture is not touched.
 *
 * An image of other than 64 bytes or a page of other than 256 is CARD_LENGTH, and
 * an image of a state that cannot be is CARD_UNSOUND; next, kept and ahead are
 * not looked at. The page is then as it came.
 */
uint32_t card_page(const uint8_t *image, size_t image_length,
                   uint8_t *page, size_t page_length);

/*
 * Salvages a history in which cells have worn. From the newest record backwards,
 * and no further than the kept ones, it finds the longest unbroken row of sound
 * records. The newest is compared with the depth of the state, and each older one
 * with the depth in the next newer record. Kept becomes the length of that row
 * and ahead 0, in the image; next and all else of the state stay. Every other
 * place of the history becomes 0; the row's records and the bytes after the last
 * place stay.
 *
 * answer[CARD_RECORDS_KEPT] is how many records are left, and
 * answer[CARD_PLACES_CLEARED] how many places were cleared. For each of these,
 * lowest place first, an entry of two numbers stands in the list:
 *   list[2 * i]      the place's number
 *   list[2 * i + 1]  one of the three above, as it had counted before
 * The rest of the list stays as it was.
 *
 * Afterwards as many card_back as records are left are accepted, while the number
 * of lit spots is true, and the next one is CARD_NOTHING_KEPT. A second salvage of
 * the same history gives the same answer and the same places, now all as
 * CARD_WAS_FREE, and changes no byte of the history.
 *
 * A history or a list of a wrong length is CARD_LENGTH; a list may have more than
 * CARD_LIST numbers, and not fewer. A state that cannot be, next, kept and ahead
 * included, is CARD_UNSOUND. A refused salvage answers 0 and 0.
 */
uint32_t card_salvage(uint8_t *image, size_t image_length,
                      uint8_t *history, size_t history_length,
                      uint16_t *list, size_t list_length,
                      uint64_t *answer, size_t answer_length);

/*
 * Makes a run on the plain engine, which has no history and does everything spot
 * by spot: it is there for the bench, to be read and to be compared with, and is
 * far slower than card_run. The spot in column x of row y is
 *   spots[64 * y + x]
 *
 * Given the same image, memory and lists as card_run and the same picture in its
 * own form, it gives the same number, the same memory, the same state in the image
 * and the same answer[CARD_ACCEPTED], and the spots are then those of the rows.
 * That holds beside every history that card_run takes, whatever its bytes are: one
 * of a right length, with next, kept and ahead in range. The plain engine is lent
 * none, so it tests neither, and leaves the three as they are; the other three
 * numbers of the answer are 0.
 *
 * Memory, spots or lists of a wrong length are CARD_LENGTH. A state that cannot be
 * is CARD_UNSOUND, and so is a spot that is neither 0 nor 1.
 */
uint32_t card_plain(uint8_t *image, size_t image_length,
                    uint8_t *memory, size_t memory_length,
                    uint8_t *spots, size_t spots_length,
                    const uint8_t *ticks, size_t ticks_length,
                    const uint16_t *keys, size_t keys_length,
                    const uint8_t *randoms, size_t randoms_length,
                    uint64_t *answer, size_t answer_length);

#ifdef __cplusplus
}
#endif

#endif /* CARD_H */
