/*
 * A small dock: plays on the card as a host in C would, prints what it sees and
 * ends with 1 on any surprise.
 *
 * All buffers stand in one struct with guard bytes between them. The guards
 * are looked at after every call.
 */
#include <inttypes.h>
#include <stdio.h>
#include <string.h>

#include "../../include/card.h"

#define GUARD 48
#define GUARD_BYTE 0xA5
#define PLACES 40

struct desk {
    uint8_t guard_0[GUARD];
    uint8_t image[CARD_IMAGE];
    uint8_t guard_1[GUARD];
    uint8_t memory[CARD_MEMORY];
    uint8_t guard_2[GUARD];
    uint64_t rows[CARD_ROWS];
    uint8_t guard_3[GUARD];
    uint8_t history[PLACES * CARD_PLACE + 7];
    uint8_t guard_4[GUARD];
    uint64_t answer[CARD_ANSWER];
    uint8_t guard_5[GUARD];
    uint8_t panel[CARD_PANEL];
    uint8_t guard_6[GUARD];
    uint8_t page[CARD_PAGE];
    uint8_t guard_7[GUARD];
    uint8_t picture[CARD_PICTURE];
    uint8_t guard_8[GUARD];
    uint16_t list[2 * PLACES];
    uint8_t guard_9[GUARD];
};

static struct desk desk;
static int surprises;

static void surprise(const char *what) {
    printf("SURPRISE: %s\n", what);
    surprises++;
}

static void expect(int holds, const char *what) {
    if (!holds) {
        surprise(what);
    }
}

/* ---- Guards ------------------------------------------------------------- */

static void set_guards(void) {
    memset(desk.guard_0, GUARD_BYTE, GUARD);
    memset(desk.guard_1, GUARD_BYTE, GUARD);
    memset(desk.guard_2, GUARD_BYTE, GUARD);
    memset(desk.guard_3, GUARD_BYTE, GUARD);
    memset(desk.guard_4, GUARD_BYTE, GUARD);
    memset(desk.guard_5, GUARD_BYTE, GUARD);
    memset(desk.guard_6, GUARD_BYTE, GUARD);
    memset(desk.guard_7, GUARD_BYTE, GUARD);
    memset(desk.guard_8, GUARD_BYTE, GUARD);
    memset(desk.guard_9, GUARD_BYTE, GUARD);
}

static void look_at_guard(const uint8_t *guard) {
    for (int at = 0; at < GUARD; at++) {
        if (guard[at] != GUARD_BYTE) {
            surprise("a byte was written outside the buffers");
            return;
        }
    }
}

static uint32_t after_call(uint32_t refusal) {
    look_at_guard(desk.guard_0);
    look_at_guard(desk.guard_1);
    look_at_guard(desk.guard_2);
    look_at_guard(desk.guard_3);
    look_at_guard(desk.guard_4);
    look_at_guard(desk.guard_5);
    look_at_guard(desk.guard_6);
    look_at_guard(desk.guard_7);
    look_at_guard(desk.guard_8);
    look_at_guard(desk.guard_9);
    return refusal;
}

/* ---- The calls with all the desk's buffers ------------------------------ */

static uint32_t load_with(const uint8_t *program, size_t length,
                          uint8_t edition, uint16_t end) {
    return after_call(card_load(program, length, edition, end,
                                desk.image, sizeof desk.image,
                                desk.memory, sizeof desk.memory,
                                desk.rows, CARD_ROWS,
                                desk.history, sizeof desk.history));
}

static uint32_t load(const uint8_t *program, size_t length, uint8_t edition) {
    return load_with(program, length, edition, CARD_FULL_END);
}

static uint32_t step(uint16_t keys, uint8_t random) {
    return after_call(card_step(desk.image, sizeof desk.image,
                                desk.memory, sizeof desk.memory,
                                desk.rows, CARD_ROWS,
                                desk.history, sizeof desk.history,
                                keys, random, desk.answer, CARD_ANSWER));
}

static uint32_t tick(void) {
    return after_call(card_tick(desk.image, sizeof desk.image,
                                desk.history, sizeof desk.history));
}

static uint32_t back(void) {
    return after_call(card_back(desk.image, sizeof desk.image,
                                desk.memory, sizeof desk.memory,
                                desk.rows, CARD_ROWS,
                                desk.history, sizeof desk.history));
}

static uint32_t forward(void) {
    return after_call(card_forward(desk.image, sizeof desk.image,
                                   desk.memory, sizeof desk.memory,
                                   desk.rows, CARD_ROWS,
                                   desk.history, sizeof desk.history));
}

static uint32_t run(const uint8_t *ticks, const uint16_t *keys,
                    const uint8_t *randoms, size_t entries) {
    return after_call(card_run(desk.image, sizeof desk.image,
                               desk.memory, sizeof desk.memory,
                               desk.rows, CARD_ROWS,
                               desk.history, sizeof desk.history,
                               ticks, entries, keys, entries,
                               randoms, entries, desk.answer, CARD_ANSWER));
}

static uint32_t play(const uint8_t *moves, const uint16_t *keys,
                     const uint8_t *randoms, size_t entries) {
    return after_call(card_play(desk.image, sizeof desk.image,
                                desk.memory, sizeof desk.memory,
                                desk.rows, CARD_ROWS,
                                desk.history, sizeof desk.history,
                                moves, entries, keys, entries,
                                randoms, entries));
}

static uint32_t to_bytes(void) {
    return after_call(card_bytes(desk.rows, CARD_ROWS,
                                 desk.picture, sizeof desk.picture));
}

static uint32_t to_rows(void) {
    return after_call(card_rows(desk.picture, sizeof desk.picture,
                                desk.rows, CARD_ROWS));
}

static uint32_t fill_panel(void) {
    return after_call(card_panel(desk.picture, sizeof desk.picture,
                                 desk.panel, sizeof desk.panel));
}

static uint32_t draw_page(void) {
    return after_call(card_page(desk.image, sizeof desk.image,
                                desk.page, sizeof desk.page));
}

static uint32_t salvage(void) {
    return after_call(card_salvage(desk.image, sizeof desk.image,
                                   desk.history, sizeof desk.history,
                                   desk.list, CARD_LIST(sizeof desk.history),
                                   desk.answer, CARD_ANSWER));
}

/* ---- Looking at the machine --------------------------------------------- */

static unsigned number(int at) {
    return (unsigned)desk.image[at] << 8 | desk.image[at + 1];
}

static void set_number(int at, unsigned value) {
    desk.image[at] = (uint8_t)(value >> 8);
    desk.image[at + 1] = (uint8_t)value;
}

static void put_instruction(unsigned at, unsigned word) {
    desk.memory[at] = (uint8_t)(word >> 8);
    desk.memory[at + 1] = (uint8_t)word;
}

static unsigned count_spots(void) {
    unsigned lit = 0;
    for (int y = 0; y < CARD_ROWS; y++) {
        for (int x = 0; x < CARD_COLUMNS; x++) {
            lit += (unsigned)(desk.rows[y] >> (63 - x) & 1);
        }
    }
    return lit;
}

static void show_state(void) {
    printf("pc %04X i %04X v0 %02X v1 %02X v2 %02X v3 %02X vf %02X depth %u "
           "delay %02X tone %02X held %02X kept %u ahead %u lit %u\n",
           number(CARD_AT_PC), number(CARD_AT_I), desk.image[0], desk.image[1],
           desk.image[2], desk.image[3], desk.image[15],
           desk.image[CARD_AT_DEPTH], desk.image[CARD_AT_DELAY],
           desk.image[CARD_AT_TONE], desk.image[CARD_AT_HELD],
           number(CARD_AT_KEPT), number(CARD_AT_AHEAD), number(CARD_AT_LIT));
    expect(number(CARD_AT_LIT) == count_spots(),
           "the number of lit spots is not the count of the rows");
}

static int spot(const uint8_t *picture, int x, int y) {
    return picture[CARD_BYTES_A_ROW * y + x / 8] >> (7 - x % 8) & 1;
}

static void show_spots(const uint8_t *picture, int first, int last) {
    for (int row = first; row <= last; row++) {
        printf("row %2d ", row);
        for (int column = 0; column < CARD_COLUMNS; column++) {
            putchar(spot(picture, column, row) ? '#' : '.');
        }
        putchar('\n');
    }
}

/* The game's rows, by way of their bytes. */
static void show_rows(int first, int last) {
    expect(to_bytes() == CARD_DONE, "rows are turned into bytes");
    show_spots(desk.picture, first, last);
}

static void accepted_step(uint16_t keys) {
    unsigned pc = number(CARD_AT_PC);
    unsigned word = (unsigned)desk.memory[pc] << 8 | desk.memory[pc + 1];
    expect(step(keys, 0) == CARD_DONE, "a step was refused");
    expect(desk.answer[CARD_ACCEPTED] == 1, "an accepted step counts 1");
    printf("step %04X: ", word);
    show_state();
}

/* ---- A program, there, all the way back, and there again ---------------- */

static const uint8_t PROGRAM[] = {
    0x6A, 0x3C, /* 0200 VA = 3C, a column near the right edge */
    0x6B, 0x1E, /* 0202 VB = 1E, a row near the bottom */
    0x60, 0xFE, /* 0204 V0 = FE */
    0xF0, 0x29, /* 0206 I = the digit E */
    0xDA, 0xB5, /* 0208 draw it; three of its rows are dropped */
    0xDA, 0xB5, /* 020A draw it again; it vanishes, and VF is 1 */
    0xA3, 0x00, /* 020C I = 0300 */
    0xF0, 0x33, /* 020E 2, 5 and 4 at 0300 */
    0xF2, 0x65, /* 0210 V0, V1, V2 = 2, 5, 4 */
    0x22, 0x18, /* 0212 call 0218 */
    0xF3, 0x0A, /* 0214 wait for a key in V3 */
    0x12, 0x16, /* 0216 stay here */
    0xF1, 0x15, /* 0218 delay = V1 */
    0xF2, 0x18, /* 021A tone = V2 */
    0x00, 0xEE, /* 021C return */
};

static void there_and_back(void) {
    static struct desk start, end;

    memset(&desk, 0x55, sizeof desk);
    set_guards();
    expect(load(PROGRAM, sizeof PROGRAM, CARD_FIRST_EDITION) == CARD_DONE,
           "the load was refused");
    memcpy(&start, &desk, sizeof desk);
    printf("loaded %zu bytes\n", sizeof PROGRAM);
    show_state();

    for (int count = 0; count < 5; count++) {
        accepted_step(0);
    }
    show_rows(29, 31);
    expect(desk.answer[CARD_WENT_DARK] == 0, "the picture was dark before");
    accepted_step(0);
    printf("%u spots went dark\n", (unsigned)desk.answer[CARD_WENT_DARK]);
    expect(desk.answer[CARD_WENT_DARK] == 5, "five spots of E were shown");
    for (int count = 0; count < 6; count++) {
        accepted_step(0);
    }
    show_rows(29, 31);
    for (int count = 0; count < 5; count++) {
        expect(tick() == CARD_DONE, "a tick was refused");
    }
    printf("5 ticks:   ");
    show_state();
    accepted_step(0);                /* the return */
    accepted_step(0);                /* no key is down */
    accepted_step(1 << 3 | 1 << 9);  /* the lowest key is held */
    accepted_step(1 << 9);           /* it is up again */
    accepted_step(0);
    memcpy(&end, &desk, sizeof desk);

    unsigned backs = 0;
    while (back() == CARD_DONE) {
        backs++;
    }
    expect(back() == CARD_NOTHING_KEPT, "nothing can be left to take back");
    printf("%u backs:  ", backs);
    show_state();
    expect(number(CARD_AT_AHEAD) == backs, "all that was taken back is ahead");
    set_number(CARD_AT_AHEAD, 0);
    expect(memcmp(desk.image, start.image, sizeof desk.image) == 0,
           "but for ahead the image is not as it was after the load");
    set_number(CARD_AT_AHEAD, backs);
    expect(memcmp(desk.memory, start.memory, sizeof desk.memory) == 0,
           "the memory is not as it was after the load");
    expect(memcmp(desk.rows, start.rows, sizeof desk.rows) == 0,
           "the rows are not as they were after the load");
    expect(memcmp(desk.history, end.history, sizeof desk.history) == 0,
           "a back wrote in the history");

    /* No key is down now. The keys that were down then hold and free key 3. */
    unsigned forwards = 0;
    while (forward() == CARD_DONE) {
        forwards++;
    }
    expect(forward() == CARD_NOTHING_AHEAD, "nothing can be left ahead");
    printf("%u forwards: ", forwards);
    show_state();
    expect(memcmp(&desk, &end, sizeof desk) == 0,
           "the way forward does not lead to where the way back began");
}

/* ---- The button's two ends ---------------------------------------------- */

static void press(const char *end, uint32_t (*call)(void), uint32_t wanted) {
    uint32_t refusal = call();
    expect(refusal == wanted, "another number was expected");
    printf("%-8s %2u: ", end, (unsigned)refusal);
    show_state();
}

static void the_button(void) {
    static const uint8_t program[] = {
        0xC0, 0xFF, /* 0200 V0 = the random byte */
        0x71, 0x01, /* 0202 V1 += 1 */
        0x71, 0x02, /* 0204 V1 += 2 */
    };

    load(program, sizeof program, CARD_FIRST_EDITION);
    desk.image[CARD_AT_DELAY] = 9;
    step(0, 0xA5);
    step(0, 0);
    tick();
    step(0, 0);
    show_state();
    press("back", back, CARD_DONE);
    press("back", back, CARD_DONE);
    press("back", back, CARD_DONE);
    press("forward", forward, CARD_DONE);
    press("forward", forward, CARD_DONE);
    expect(desk.image[CARD_AT_DELAY] == 8, "the tick was made again");

    put_instruction(0x0204, 0x6207);
    accepted_step(0);
    press("forward", forward, CARD_NOTHING_AHEAD);
    press("back", back, CARD_DONE);
    press("forward", forward, CARD_DONE);
    expect(desk.image[CARD_AT_V + 1] == 1 && desk.image[CARD_AT_V + 2] == 7,
           "the new step is made again, and not the one that it struck");

    for (int count = 0; count < 4; count++) {
        back();
    }
    expect(desk.image[CARD_AT_V] == 0, "the random byte was taken back");
    press("forward", forward, CARD_DONE);
    expect(desk.image[CARD_AT_V] == 0xA5, "the random byte of then counts");
}

/* ---- The brightness control --------------------------------------------- */

/* As bright as the number of lit spots says, which the dock need not count. */
static void show_brightness(const char *what) {
    unsigned lit = number(CARD_AT_LIT);
    printf("%-10s %2u of %u lit\n", what, lit, CARD_SPOTS);
    expect(lit == count_spots(),
           "the number of lit spots is not the count of the rows");
}

static void the_brightness(void) {
    static const uint8_t program[] = {
        0x61, 0x05, /* 0200 V1 = 5, a column and a row */
        0xF1, 0x29, /* 0202 I = the digit 5 */
        0xD1, 0x15, /* 0204 draw it */
        0x71, 0x02, /* 0206 V1 += 2 */
        0xD1, 0x15, /* 0208 draw it again, over itself in part */
        0x61, 0x3E, /* 020A V1 = 3E, a column near the right edge */
        0xD1, 0x15, /* 020C draw it; most of it is dropped */
        0x00, 0xE0, /* 020E clear the picture */
    };
    static const uint8_t zeros[8];
    static const uint16_t no_keys[8];

    load(program, sizeof program, CARD_FIRST_EDITION);
    show_brightness("load");
    for (size_t count = 0; count < sizeof program / 2; count++) {
        expect(step(0, 0) == CARD_DONE, "a step was refused");
        show_brightness("step");
    }
    while (back() == CARD_DONE) {
        show_brightness("back");
    }
    while (forward() == CARD_DONE) {
        show_brightness("forward");
    }
    expect(number(CARD_AT_LIT) == 0, "a cleared picture has no lit spot");

    load(program, sizeof program, CARD_FIRST_EDITION);
    set_number(CARD_AT_LIT, CARD_SPOTS - 13);
    uint32_t refusal = run(zeros, no_keys, zeros, 8);
    printf("run with a false number: %u steps accepted, stop %u at %04X\n",
           (unsigned)desk.answer[CARD_ACCEPTED], (unsigned)refusal,
           number(CARD_AT_PC));
    expect(refusal == CARD_UNSOUND, "14 spots more are too many");
    expect(desk.answer[CARD_ACCEPTED] == 2 && number(CARD_AT_KEPT) == 2,
           "the steps before the drawing stand");
    expect(number(CARD_AT_LIT) == CARD_SPOTS - 13, "what is refused adds nothing");
    set_number(CARD_AT_LIT, CARD_SPOTS - 14);
    expect(step(0, 0) == CARD_DONE && number(CARD_AT_LIT) == CARD_SPOTS,
           "14 spots fit exactly");
}

/* ---- A run and a play --------------------------------------------------- */

static void run_and_play(void) {
    static const uint8_t program[] = {0x60, 0x05, 0x70, 0x03, 0x61,
                                      0x02, 0x80, 0x14, 0x00, 0xFD};
    static const uint8_t zeros[64];
    static const uint16_t no_keys[64];
    static const uint8_t moves[] = {CARD_MOVE_BACK, CARD_MOVE_STEP,
                                    CARD_MOVE_STEP, CARD_MOVE_TICK,
                                    CARD_MOVE_BACK, CARD_MOVE_BACK};
    static const uint8_t more_moves[] = {CARD_MOVE_FORWARD, CARD_MOVE_BACK,
                                         CARD_MOVE_BACK, CARD_MOVE_BACK,
                                         CARD_MOVE_FORWARD};
    static const uint8_t no_move[] = {CARD_MOVE_FORWARD, CARD_MOVE_FORWARD + 1};

    load(program, sizeof program, CARD_FIRST_EDITION);
    uint32_t refusal = run(zeros, no_keys, zeros, 64);
    printf("run: %u steps accepted, stop %u at %04X\n",
           (unsigned)desk.answer[CARD_ACCEPTED], (unsigned)refusal,
           number(CARD_AT_PC));
    expect(refusal == CARD_MACHINE_LANGUAGE, "the run ends at 00FD");
    expect(desk.answer[CARD_ACCEPTED] == 4, "four steps come before 00FD");
    expect(desk.answer[CARD_WENT_DARK] == 0, "nothing was drawn");
    expect(desk.image[CARD_AT_V] == 0x0A, "5 and 3 and 2 is 10");

    refusal = play(moves, no_keys, zeros, sizeof moves);
    printf("play: %zu moves, the last one gave %u: ", sizeof moves,
           (unsigned)refusal);
    show_state();
    expect(refusal == CARD_DONE, "the last back of the play is accepted");
    expect(number(CARD_AT_PC) == 0x0206, "the play ends before 8014");
    expect(number(CARD_AT_KEPT) == 3, "the play leaves three actions");
    refusal = play(more_moves, no_keys, zeros, sizeof more_moves);
    printf("play: %zu moves, the last one gave %u: ", sizeof more_moves,
           (unsigned)refusal);
    show_state();
    expect(refusal == CARD_DONE, "the last forward of the play is accepted");
    expect(number(CARD_AT_KEPT) == 2 && number(CARD_AT_AHEAD) == 3,
           "two actions lie behind and three ahead");
    expect(play(no_move, no_keys, zeros, sizeof no_move) == CARD_LENGTH,
           "there is no move after the forward");
    expect(number(CARD_AT_AHEAD) == 3, "a refused play makes no move");

    load(PROGRAM, sizeof PROGRAM, CARD_FIRST_EDITION);
    refusal = run(zeros, no_keys, zeros, 7);
    printf("run: %u steps accepted, %u spots went dark, %u bytes copied\n",
           (unsigned)desk.answer[CARD_ACCEPTED],
           (unsigned)desk.answer[CARD_WENT_DARK],
           (unsigned)desk.answer[CARD_COPIED]);
    expect(refusal == CARD_DONE, "no step of this run is refused");
    expect(desk.answer[CARD_WENT_DARK] == 5,
           "a run answers for all its drawings, not for its last step");
    expect(desk.answer[CARD_COPIED] == 32, "two drawings change two rows each");
    expect(desk.answer[3] == 0, "the last number is for later use");

    expect(run(zeros, no_keys, zeros, 0) == CARD_DONE, "an empty run is done");
    expect(desk.answer[CARD_WENT_DARK] == 0, "an empty run darkens nothing");
    expect(play(zeros, no_keys, zeros, 0) == CARD_DONE,
           "an empty play is done");
}

/* ---- Every refusal ------------------------------------------------------ */

static struct desk before;

/* A desk with this instruction at 0200 and everything kept for comparison. */
static void prepare(unsigned word) {
    uint8_t program[2] = {(uint8_t)(word >> 8), (uint8_t)word};
    load(program, sizeof program, CARD_FIRST_EDITION);
    memset(desk.answer, 0, sizeof desk.answer);
}

static void remember(void) {
    memcpy(&before, &desk, sizeof desk);
}

static void refused(uint32_t got, uint32_t wanted, const char *what) {
    printf("refusal %2u: %s; %s\n", (unsigned)got, what, card_refusal_words(got));
    expect(got == wanted, "another number was expected");
    expect(memcmp(&before, &desk, sizeof desk) == 0,
           "a refused call changed a buffer");
}

static void refusals(void) {
    prepare(0x6000);
    set_number(CARD_AT_PC, 4095);
    remember();
    refused(step(0, 0), CARD_PROGRAM_COUNTER, "a step with PC 4095");

    prepare(0x8003);
    remember();
    refused(step(0, 0), CARD_NOT_LISTED, "8003 in the first edition");

    prepare(0x00FD);
    remember();
    refused(step(0, 0), CARD_MACHINE_LANGUAGE, "00FD is machine language");

    prepare(0x2200);
    for (int count = 0; count < CARD_STACK; count++) {
        expect(step(0, 0) == CARD_DONE, "twelve calls are accepted");
    }
    memset(desk.answer, 0, sizeof desk.answer);
    remember();
    refused(step(0, 0), CARD_STACK_FULL, "the thirteenth call");

    prepare(0x00EE);
    remember();
    refused(step(0, 0), CARD_STACK_EMPTY, "a return at depth 0");

    prepare(0xF155);
    set_number(CARD_AT_I, 0x0FFF);
    remember();
    refused(step(0, 0), CARD_PAST_MEMORY, "two bytes stored from 0FFF");

    prepare(0x6000);
    remember();
    refused(back(), CARD_NOTHING_KEPT, "a back with an empty history");
    refused(forward(), CARD_NOTHING_AHEAD, "a forward with an empty history");

    prepare(0x6000);
    remember();
    refused(load(PROGRAM, 0, CARD_FIRST_EDITION), CARD_PROGRAM_LENGTH,
            "an empty program");
    refused(load(PROGRAM, 0, CARD_SECOND_EDITION + 1), CARD_UNSOUND,
            "a third edition, said before the empty program");
    refused(load_with(PROGRAM, 0, CARD_FIRST_EDITION, 2048), CARD_UNSOUND,
            "an end of 2,048, said before the empty program");

    refused(after_call(card_step(desk.image, sizeof desk.image,
                                 desk.memory, sizeof desk.memory - 1,
                                 desk.rows, CARD_ROWS,
                                 desk.history, sizeof desk.history,
                                 0, 0, desk.answer, CARD_ANSWER)),
            CARD_LENGTH, "a memory of 4,095 bytes");
    refused(after_call(card_tick(desk.image, sizeof desk.image - 1,
                                 desk.history, sizeof desk.history)),
            CARD_LENGTH, "an image of 63 bytes");
    refused(after_call(card_back(desk.image, sizeof desk.image,
                                 desk.memory, sizeof desk.memory,
                                 desk.rows, CARD_ROWS,
                                 desk.history, CARD_HISTORY_LEAST - 1)),
            CARD_LENGTH, "a history of 291 bytes");
    refused(after_call(card_step(desk.image, sizeof desk.image,
                                 desk.memory, sizeof desk.memory,
                                 desk.rows, CARD_ROWS - 1,
                                 desk.history, sizeof desk.history,
                                 0, 0, desk.answer, CARD_ANSWER)),
            CARD_LENGTH, "31 rows");

    refused(after_call(card_rows(desk.picture, sizeof desk.picture,
                                 desk.rows, CARD_ROWS - 1)),
            CARD_LENGTH, "31 rows for a picture");
    refused(after_call(card_bytes(desk.rows, CARD_ROWS,
                                  desk.picture, sizeof desk.picture - 1)),
            CARD_LENGTH, "255 bytes for the rows");
    refused(after_call(card_panel(desk.picture, sizeof desk.picture - 1,
                                  desk.panel, sizeof desk.panel)),
            CARD_LENGTH, "a picture of 255 bytes");
    refused(after_call(card_panel(desk.picture, sizeof desk.picture,
                                  desk.panel, sizeof desk.panel - 1)),
            CARD_LENGTH, "a panel of 1,023 bytes");
    refused(after_call(card_page(desk.image, sizeof desk.image,
                                 desk.page, sizeof desk.page - 1)),
            CARD_LENGTH, "a page of 255 bytes");
    refused(after_call(card_salvage(desk.image, sizeof desk.image,
                                    desk.history, sizeof desk.history,
                                    desk.list, CARD_LIST(sizeof desk.history) - 1,
                                    desk.answer, CARD_ANSWER)),
            CARD_LENGTH, "a list that lacks a number");

    prepare(0x6000);
    desk.image[CARD_AT_DEPTH] = CARD_STACK + 1;
    remember();
    refused(step(0, 0), CARD_UNSOUND, "depth 13");
    refused(draw_page(), CARD_UNSOUND, "a page of depth 13");
    refused(salvage(), CARD_UNSOUND, "a salvage beside depth 13");

    prepare(0x6000);
    desk.image[CARD_AT_LATER] = 1;
    remember();
    refused(tick(), CARD_UNSOUND, "a byte kept for later is not 0");

    prepare(0x6000);
    set_number(CARD_AT_KEPT, PLACES);
    set_number(CARD_AT_AHEAD, 1);
    remember();
    refused(forward(), CARD_UNSOUND, "kept and ahead above the places");

    prepare(0x6000);
    set_number(CARD_AT_LIT, CARD_SPOTS + 1);
    remember();
    refused(tick(), CARD_UNSOUND, "2,049 lit spots");
    refused(draw_page(), CARD_UNSOUND, "a page of 2,049 lit spots");

    prepare(0xD005);
    set_number(CARD_AT_LIT, CARD_SPOTS);
    remember();
    refused(step(0, 0), CARD_UNSOUND,
            "a drawing that lights, with 2,048 lit spots");
    set_number(CARD_AT_I, 0x0FFC);
    remember();
    refused(step(0, 0), CARD_PAST_MEMORY,
            "the same past memory, said before the lit spots");
    set_number(CARD_AT_I, 0);
    set_number(CARD_AT_LIT, 0);
    expect(step(0, 0) == CARD_DONE, "a drawing is accepted");
    set_number(CARD_AT_LIT, 13);
    remember();
    refused(back(), CARD_UNSOUND,
            "a back that darkens 14 spots, with 13 lit spots");
    set_number(CARD_AT_LIT, 14);
    expect(back() == CARD_DONE, "14 lit spots are enough");
    set_number(CARD_AT_LIT, CARD_SPOTS - 13);
    remember();
    refused(forward(), CARD_UNSOUND,
            "a forward that lights 14 spots, with 2,035 lit spots");

    prepare(0x6001);
    expect(step(0, 0) == CARD_DONE, "6001 is accepted");
    desk.history[0] ^= 1;
    remember();
    refused(back(), CARD_DAMAGED_RECORD, "a record with a wrong mark");

    prepare(0x6001);
    expect(step(0, 0) == CARD_DONE, "6001 is accepted");
    desk.history[CARD_PLACE - 1] = 2;
    remember();
    refused(back(), CARD_DAMAGED_RECORD, "a back onto neither step nor tick");
    desk.history[CARD_PLACE - 1] = 1;
    expect(back() == CARD_DONE, "the record is whole again");
    desk.history[CARD_PLACE - 1] = 2;
    remember();
    refused(forward(), CARD_DAMAGED_RECORD,
            "a forward onto neither step nor tick");
    desk.history[CARD_PLACE - 1] = 1;
    put_instruction(0x0200, 0x00FD);
    remember();
    refused(forward(), CARD_MACHINE_LANGUAGE,
            "a forward over what became machine language");
}

/* ---- The second edition ------------------------------------------------- */

static void second_edition(void) {
    static const uint8_t program[] = {
        0x61, 0x85, /* 0200 V1 = 85 */
        0x80, 0x16, /* 0202 V0 = V1 halved, VF its lowest bit */
        0x80, 0x13, /* 0204 V0 = V0 exclusive-or V1 */
        0x80, 0x17, /* 0206 V0 = V1 less V0 */
        0x80, 0x1E, /* 0208 V0 = V1 doubled, VF its highest bit */
    };

    expect(load(program, sizeof program, CARD_SECOND_EDITION) == CARD_DONE,
           "a load in the second edition is accepted");
    for (size_t count = 0; count < sizeof program / 2; count++) {
        accepted_step(0);
    }
    expect(desk.image[CARD_AT_V] == 0x0A && desk.image[CARD_AT_V + 15] == 1,
           "85 doubled is 0A and a flag");
    expect(desk.image[CARD_AT_EDITION] == CARD_SECOND_EDITION,
           "no step changes the edition");
    expect(back() == CARD_DONE, "a back in the second edition is accepted");
    expect(desk.image[CARD_AT_EDITION] == CARD_SECOND_EDITION,
           "a back leaves the edition");
}

/* ---- The 2K profile ------------------------------------------------------ */

static void small_memory(void) {
    static uint8_t program[CARD_SMALL_PROGRAM_MOST + 1] = {
        0xA6, 0x9E, /* 0200 I = 069E */
        0xF1, 0x55, /* 0202 V0 and V1 to the last two bytes; I = 06A0 */
        0x16, 0x9E, /* 0204 to the last instruction, which is 0000 now */
    };

    memset(desk.memory, 0xFF, sizeof desk.memory);
    expect(load_with(program, sizeof program - 1, CARD_FIRST_EDITION,
                     CARD_SMALL_END) == CARD_DONE,
           "a load of 1,184 bytes is accepted");
    for (size_t at = CARD_SMALL_END; at < sizeof desk.memory; at++) {
        expect(desk.memory[at] == 0, "memory is 0 above the end");
    }
    expect(number(CARD_AT_END) == CARD_SMALL_END, "the end stands in the image");
    for (int count = 0; count < 3; count++) {
        accepted_step(0);
    }
    expect(number(CARD_AT_END) == CARD_SMALL_END, "no step changes the end");
    set_number(CARD_AT_PC, 0x069F);
    memset(desk.answer, 0, sizeof desk.answer);
    remember();
    refused(step(0, 0), CARD_PROGRAM_COUNTER, "a step with PC 069F and end 06A0");
    expect(back() == CARD_DONE && back() == CARD_DONE,
           "a back in the small memory is accepted");
    set_number(CARD_AT_I, 0x069F);
    remember();
    refused(step(0, 0), CARD_PAST_MEMORY, "two bytes stored from 069F");
    expect(load_with(program, sizeof program, CARD_FIRST_EDITION,
                     CARD_SMALL_END) == CARD_PROGRAM_LENGTH,
           "a program of 1,185 bytes is refused");
}

/* ---- One place only ----------------------------------------------------- */

static void one_place_back(uint32_t wanted) {
    uint32_t refusal =
        after_call(card_back(desk.image, sizeof desk.image,
                             desk.memory, sizeof desk.memory,
                             desk.rows, CARD_ROWS,
                             desk.history, CARD_PLACE));
    printf("one place, back: %u\n", (unsigned)refusal);
    expect(refusal == wanted, "one place takes back one action");
}

static void one_place_forward(uint32_t wanted) {
    uint32_t refusal =
        after_call(card_forward(desk.image, sizeof desk.image,
                                desk.memory, sizeof desk.memory,
                                desk.rows, CARD_ROWS,
                                desk.history, CARD_PLACE));
    printf("one place, forward: %u\n", (unsigned)refusal);
    expect(refusal == wanted, "one place makes one action again");
}

static void one_place(void) {
    prepare(0x7001);
    put_instruction(0x0202, 0x7001);
    for (int count = 0; count < 2; count++) {
        uint32_t refusal =
            after_call(card_step(desk.image, sizeof desk.image,
                                 desk.memory, sizeof desk.memory,
                                 desk.rows, CARD_ROWS,
                                 desk.history, CARD_PLACE,
                                 0, 0, desk.answer, CARD_ANSWER));
        expect(refusal == CARD_DONE, "a step with one place is accepted");
    }
    one_place_back(CARD_DONE);
    one_place_forward(CARD_DONE);
    one_place_forward(CARD_NOTHING_AHEAD);
    one_place_back(CARD_DONE);
    one_place_back(CARD_NOTHING_KEPT);
    expect(desk.image[CARD_AT_V] == 1, "the first step stands");
}

/* ---- A history with one worn cell --------------------------------------- */

/* Neighbours that had counted alike on one line. */
static void show_cleared(void) {
    static const char *const was[] = {"kept", "ahead", "free"};
    size_t cleared = (size_t)desk.answer[CARD_PLACES_CLEARED];
    size_t first = 0;

    printf("salvage: %u records kept, %u places cleared\n",
           (unsigned)desk.answer[CARD_RECORDS_KEPT], (unsigned)cleared);
    for (size_t at = 0; at < cleared; at++) {
        const uint16_t *entry = desk.list + 2 * at;
        if (at + 1 == cleared || entry[2] != entry[0] + 1 ||
            entry[3] != entry[1]) {
            printf("    places %u to %u, which had counted as %s\n",
                   desk.list[2 * first], entry[0], was[entry[1]]);
            first = at + 1;
        }
    }
}

static void a_worn_cell(void) {
    static const uint8_t zeros[16];
    static const uint16_t no_keys[16];
    static struct desk worn;

    load(PROGRAM, sizeof PROGRAM, CARD_FIRST_EDITION);
    run(zeros, no_keys, zeros, 14);
    expect(back() == CARD_DONE && back() == CARD_DONE, "two backs are accepted");
    desk.history[4 * CARD_PLACE] ^= 0x08; /* a bit of the mark of record 4 */
    memcpy(&worn, &desk, sizeof desk);

    unsigned backs = 0;
    uint32_t refusal;
    while ((refusal = back()) == CARD_DONE) {
        backs++;
    }
    printf("a worn cell: %u backs, then %u\n", backs, (unsigned)refusal);
    expect(refusal == CARD_DAMAGED_RECORD, "the worn record is refused");

    memcpy(&desk, &worn, sizeof desk);
    memset(desk.list, 0x77, sizeof desk.list);
    expect(salvage() == CARD_DONE, "a worn history is salvaged");
    show_cleared();
    show_state();
    expect(desk.answer[CARD_RECORDS_KEPT] == backs,
           "what could be taken back is kept");
    expect(memcmp(desk.history + 5 * CARD_PLACE, worn.history + 5 * CARD_PLACE,
                  backs * CARD_PLACE) == 0,
           "the sound records stand as they were");
    memcpy(worn.history, desk.history, sizeof desk.history);

    expect(salvage() == CARD_DONE, "and once more");
    show_cleared();
    expect(memcmp(desk.history, worn.history, sizeof desk.history) == 0,
           "a second salvage changes no byte");
    while ((refusal = back()) == CARD_DONE) {
        backs--;
    }
    expect(backs == 0 && refusal == CARD_NOTHING_KEPT,
           "as many backs as records, and then nothing is kept");
}

/* ---- Rows and bytes ----------------------------------------------------- */

/* Draws two digits, and turns the rows into bytes and back. */
static void rows_and_bytes(void) {
    static const uint8_t program[] = {
        0x61, 0x05, /* 0200 V1 = 5, so a digit lies across two bytes */
        0x62, 0x0F, /* 0202 V2 = 0F */
        0xF2, 0x29, /* 0204 I = the digit F */
        0xD1, 0x05, /* 0206 draw it at the top */
        0x61, 0x3C, /* 0208 V1 = 3C, a column near the right edge */
        0xD1, 0x05, /* 020A draw it there too */
    };
    uint64_t drawn[CARD_ROWS];

    load(program, sizeof program, CARD_FIRST_EDITION);
    for (size_t count = 0; count < sizeof program / 2; count++) {
        expect(step(0, 0) == CARD_DONE, "a step was refused");
    }
    memcpy(drawn, desk.rows, sizeof drawn);
    memset(desk.picture, 0x5A, sizeof desk.picture);
    expect(to_bytes() == CARD_DONE, "rows are turned into bytes");
    for (int row = 0; row < 6; row++) {
        printf("row %2d %016" PRIX64 " bytes", row, desk.rows[row]);
        for (int at = 0; at < CARD_BYTES_A_ROW; at++) {
            printf(" %02X", desk.picture[CARD_BYTES_A_ROW * row + at]);
        }
        putchar('\n');
    }
    for (int y = 0; y < CARD_ROWS; y++) {
        for (int x = 0; x < CARD_COLUMNS; x++) {
            expect(spot(desk.picture, x, y) == (int)(desk.rows[y] >> (63 - x) & 1),
                   "a spot of the bytes is not that of its row");
        }
    }
    expect(memcmp(desk.rows, drawn, sizeof drawn) == 0,
           "rows that are only read were written");
    memset(desk.rows, 0x5A, sizeof desk.rows);
    expect(to_rows() == CARD_DONE, "bytes are turned into rows");
    expect(memcmp(desk.rows, drawn, sizeof drawn) == 0,
           "the rows do not come back");
}

/* ---- The card's own panel ----------------------------------------------- */

static int dot(int x, int y) {
    return desk.panel[CARD_PANEL_BYTES_A_ROW * y + x / 8] >> (7 - x % 8) & 1;
}

/* Draws the digit 0 in the upper left corner and shows it in dots. */
static void the_panel(void) {
    prepare(0xD005);
    expect(step(0, 0) == CARD_DONE, "a drawing is accepted");
    expect(to_bytes() == CARD_DONE, "the rows are turned into bytes");
    memset(desk.panel, 0x5A, sizeof desk.panel);
    expect(fill_panel() == CARD_DONE, "the panel is filled");
    for (int y = 0; y < CARD_PANEL_ROWS; y++) {
        for (int x = 0; x < CARD_PANEL_COLUMNS; x++) {
            expect(dot(x, y) == spot(desk.picture, x / 2, y / 2),
                   "a dot is not its spot");
        }
    }
    for (int y = 0; y < 11; y++) {
        printf("dots %2d ", y);
        for (int x = 0; x < 12; x++) {
            putchar(dot(x, y) ? '#' : '.');
        }
        putchar('\n');
    }
}

/* ---- The page of variables ---------------------------------------------- */

static void the_page(void) {
    static const uint8_t variables[] = {0x01, 0x23, 0x45, 0x67, 0x89, 0xAB,
                                        0xCD, 0xEF, 0xFE, 0xDC, 0xBA, 0x98,
                                        0x76, 0x54, 0x32, 0x10};

    prepare(0xD005);
    expect(step(0, 0) == CARD_DONE, "a drawing is accepted");
    memcpy(desk.image + CARD_AT_V, variables, sizeof variables);
    set_number(CARD_AT_PC, 0x0ABC);
    memset(desk.page, 0x5A, sizeof desk.page);
    memset(desk.memory, 0, sizeof desk.memory);
    remember();
    expect(draw_page() == CARD_DONE, "the page is drawn");
    show_spots(desk.page, 0, CARD_ROWS - 1);
    memcpy(before.page, desk.page, sizeof desk.page);
    expect(memcmp(&before, &desk, sizeof desk) == 0,
           "a page touches nothing but itself");
}

int main(void) {
    there_and_back();
    the_button();
    the_brightness();
    run_and_play();
    refusals();
    second_edition();
    small_memory();
    one_place();
    a_worn_cell();
    rows_and_bytes();
    the_panel();
    the_page();
    if (surprises > 0) {
        printf("%d surprises\n", surprises);
        return 1;
    }
    printf("no surprise\n");
    return 0;
}
