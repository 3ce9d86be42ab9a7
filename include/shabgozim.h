/*
 * Shabgozim: verified ground software for the VIRTIS-M instrument head, and for
 * the requests and the pixel map of the high-resolution head (PEM-H).
 *
 * Build the archives and link them; nothing else is needed. The second is for
 * the functions that write or read texts (`shabgozim_listing`,
 * `shabgozim_report`, `shabgozim_refusal`, `shabgozim_read_list`,
 * `shabgozim_inspection`, `shabgozim_list_refusal`, `shabgozim_upper_bytes`,
 * `shabgozim_explanation`, `shabgozim_h_picture`, `shabgozim_h_refusal`,
 * `shabgozim_merge_texts`, `shabgozim_operator_refusal`), and may be left out
 * where none of them is called:
 *
 *     tools/archives
 *     cc -I include program.c target/staticlib/libinterface.a \
 *        target/staticlib/libtexts.a
 *
 * Conventions
 *
 * A buffer is a pointer and the number of its elements. The pointer must be
 * valid for that many elements and aligned for its type, and the buffers of one
 * call must not overlap; a buffer of no elements still wants a pointer that is
 * not null. Nothing else is asked of a caller: lengths and contents may be
 * anything, and are judged. A refused call writes nothing.
 *
 * The library keeps no memory of its own, allocates nothing, never prints and
 * never ends the program. Calls on different buffers may run at the same time.
 *
 * Numbers of refusals are those of documents 01 and 02: 1-10 for plans, 11-13
 * for blocks, 21-25 for the head, 31 for lists, 41-42 for pixel maps, 43-44 for
 * requests, 51 for a word that is not passed on, 52-54 for merging; 91-96, for
 * lists as text, are the library's own. 0 is success.
 *
 * One tick is 10 ms.
 */
#ifndef SHABGOZIM_H
#define SHABGOZIM_H

#include <stddef.h>
#include <stdint.h>

#ifdef __cplusplus
extern "C" {
#endif

/* ------------------------------------------------------------------------
 * The state of a head: 35 numbers.
 *
 * Lamps, shutter and annealing hold the data of their word: bit 0 is on
 * (shutter: closed), the bits above are the current or limit. The ranges are
 * those of a state in range; an array with other numbers is refused with 21.
 */
enum {
    SHABGOZIM_DETECTOR = 0,       /* 0 or 1 */
    SHABGOZIM_WINDOW_MODE = 1,    /* 0 full, 1 reduced */
    SHABGOZIM_VDETCOM = 2,        /* 0-4095 */
    SHABGOZIM_VDETADJ = 3,        /* 0-4095 */
    SHABGOZIM_IR_DELAY = 4,       /* 0-1023 */
    SHABGOZIM_IR_EXPO = 5,        /* 0-1023 */
    SHABGOZIM_CCD_DELAY = 6,      /* 5-1023 */
    SHABGOZIM_CCD_EXPO = 7,       /* 0-1023 */
    SHABGOZIM_X1 = 8,             /* 0-1023 */
    SHABGOZIM_Y1 = 9,             /* 0-511 */
    SHABGOZIM_X2 = 10,            /* 0-1023 */
    SHABGOZIM_Y2 = 11,            /* 0-511 */
    SHABGOZIM_CCD_LAMP = 12,      /* 0-7 */
    SHABGOZIM_IR_LAMP = 13,       /* 0-31 */
    SHABGOZIM_SHUTTER = 14,       /* 0-31 */
    SHABGOZIM_ANNEALING = 15,     /* 0-127 */
    SHABGOZIM_SINE = 16,          /* bits 0-11 magnitude, bit 12 sign (1: minus) */
    SHABGOZIM_COSINE = 17,        /* 0-4095 */
    SHABGOZIM_SWITCH = 18,        /* 0 motor on, 1 off */
    SHABGOZIM_COVER_DIRECTION = 19, /* 1 opens */
    SHABGOZIM_VDETCOM_LATCH = 20, /* 0-15 */
    SHABGOZIM_VDETADJ_LATCH = 21, /* 0-15 */
    SHABGOZIM_IR_TIME = 22,       /* error flags: 0 or 1 each */
    SHABGOZIM_IR_WORD = 23,
    SHABGOZIM_SCAN = 24,
    SHABGOZIM_VIS_TIME = 25,
    SHABGOZIM_VIS_WORD = 26,
    SHABGOZIM_TASK = 27,          /* 0 none, 1 acquisition, 2 housekeeping */
    SHABGOZIM_BUSY = 28,          /* ticks left: 0 with no task, 1-4238, 1-3 */
    SHABGOZIM_MIRROR_MOTION = 29, /* ticks left: 0-66 */
    SHABGOZIM_COVER_MOTION = 30,  /* ticks left: 0-2025 */
    SHABGOZIM_SET_WORDS = 31,     /* words of the begun mirror set: 0-3 */
    SHABGOZIM_SET_SIN_M = 32,     /* data of its words; 0 where not received */
    SHABGOZIM_SET_SIN_L = 33,
    SHABGOZIM_SET_COS_M = 34,
    SHABGOZIM_STATE = 35          /* how many numbers there are */
};

/* Writes the power-on state. Answers 0, or 21 where `length` is not 35. */
uint32_t shabgozim_power_on(uint16_t *state, size_t length);

/* Answers 0 for a state in range, 21 for any other array. */
uint32_t shabgozim_in_range(const uint16_t *state, size_t length);

/*
 * Gives the head a word, and advances the state. No tick passes.
 *
 *     0        taken
 *     1        taken: START, an exposure begins
 *     2        taken: HK, a housekeeping request begins
 *     0x1000-  taken: COVER, a cover move; the answer is the word itself
 *     21       refused: the state is out of range; it is left as it was
 *     22       ignored: busy, or COVER while the cover moves
 *     23       ignored: unknown identifier
 *     24       ignored: data out of range
 *     25       ignored: mirror word out of turn
 *
 * An ignored word (22-25) sets error flags and may drop a begun mirror set.
 */
uint32_t shabgozim_word(uint16_t *state, size_t length, uint16_t word);

/*
 * Why a head ignores a word: the rule that `shabgozim_word` applies to this
 * state and this word; or that it takes the word. The state is the one before
 * the word, and nothing is changed.
 *
 * Bits 0-7 of the answer, the causes in the order of their checks:
 *     0   taken
 *     21  the state is out of range (also where `length` is not 35)
 *     22  the head is busy and the word is not C000; or, checked after 24, the
 *         word is COVER and the cover moves
 *     23  unknown identifier
 *     24  data out of range
 *     25  mirror word out of turn
 * Bits 8-23:
 *     for 0 and 21   0
 *     for 22         the ticks left: the busy ticks, or those of the cover's
 *                    motion
 *     for 23 and 24  the word
 *     for 25         the kind (below) of the mirror word that was due: 22 SIN M
 *                    with no set begun, 23 SIN L after one word of a set, 24
 *                    COS M after two, 25 COS L after three
 * Bits 24-30: 0.
 * Bit 31: 1 where 22 is the moving cover, else 0.
 *
 * `shabgozim_explanation` writes the answer in words.
 */
uint32_t shabgozim_why(const uint16_t *state, size_t length, uint16_t word);

/* Bit 31 of that answer: it is the cover that moves. */
#define SHABGOZIM_WHY_COVER UINT32_C(0x80000000)

/*
 * Lets a tick pass, and advances the state.
 *
 * Bits 0-7 of the answer:
 *     0   nothing is due
 *     1   both blocks are due after an acquisition
 *     2   both blocks are due after housekeeping
 *     21  refused: the state is out of range; it is left as it was
 * Bits 8-12, where blocks are due: the flags that they show (below). The
 * state's own flags are then cleared.
 */
uint32_t shabgozim_tick(uint16_t *state, size_t length);

/* The flags in a tick's answer, as bits of `answer >> 8`. */
enum {
    SHABGOZIM_SHOWS_IR_TIME = 1,
    SHABGOZIM_SHOWS_IR_WORD = 2,
    SHABGOZIM_SHOWS_SCAN = 4,
    SHABGOZIM_SHOWS_VIS_TIME = 8,
    SHABGOZIM_SHOWS_VIS_WORD = 16
};

/* No list has more words than this. */
enum { SHABGOZIM_MOST_LISTED = 256 };

/*
 * Gives the head a list of words, each at its tick, and advances the state, as
 * if words and the ticks between them had gone in singly: the first word at
 * once, whatever its tick; between two words as many ticks as theirs differ by;
 * after the last word one tick. An empty list changes nothing. How far apart
 * ticks lie costs no time.
 *
 *     0    every word was given; `outcomes` has one number for each, as
 *          `shabgozim_word` answers it: 0, 1, 2, a cover's word, or 22-25. An
 *          ignored word does not stop the rest. Places after them are left.
 *     21   refused: the state is out of range
 *     31   refused: the ticks do not rise strictly, `words` and `ticks` have
 *          not the same length or more than 256 places, or `outcomes` has fewer
 *          places than there are words
 *
 * A refusal leaves the state and the outcomes as they were.
 */
uint32_t shabgozim_list(uint16_t *state, size_t state_length,
                        const uint16_t *words, size_t words_length,
                        const uint32_t *ticks, size_t ticks_length,
                        uint16_t *outcomes, size_t outcomes_length);

/* ------------------------------------------------------------------------
 * Words. Their 28 kinds, in the order of document 01's table read row by row:
 *
 *      0 NOP          1 START        2 HK           3 STOP
 *      4 IR DETECTOR  5 IR WIN MODE  6 VDETCOM M    7 VDETCOM L
 *      8 VDETADJ M    9 VDETADJ L   10 IR DELAY    11 IR EXPO
 *     12 WIN X1      13 WIN Y1      14 WIN X2      15 WIN Y2
 *     16 CCD DELAY   17 CCD EXPO    18 CCD LAMP    19 IR LAMP
 *     20 SHUTTER     21 ANNEALING   22 SIN M       23 SIN L
 *     24 COS M       25 COS L       26 SWITCH      27 COVER
 */

/*
 * What a word means. Bits 24-31: 0, 23 (unknown identifier) or 24 (data out of
 * range). Bits 16-23: the kind, 0 for 23. Bits 0-15: the data, 0 for 23 and 24.
 */
uint32_t shabgozim_decode(uint16_t word);

/*
 * The same, found by the word's upper byte in a table of 256 entries. It is
 * proved to answer as `shabgozim_decode` does for all 65,536 words.
 */
uint32_t shabgozim_decode_by_byte(uint16_t word);

/*
 * The word of a kind and its data. Bits 24-31: 0, or 24 where there is no such
 * word. Bits 0-15: the word, 0 for 24.
 */
uint32_t shabgozim_encode(uint8_t kind, uint16_t data);

/* ------------------------------------------------------------------------
 * Plans.
 */

/* No plan has more words than this. */
enum { SHABGOZIM_MOST_WORDS = 256 };

/*
 * Translates a stored plan into timed words, for a head in this state: word i
 * is to be sent at tick i of `ticks`, and then that tick is to pass. Ticks rise.
 *
 * Bits 0-7 of the answer: 0, or why the plan is refused:
 *     1   the state is out of range, busy, or something moves
 *     2   fewer than 3 bytes
 *     3   version not 1
 *     4   bytes after the third are not as many as the length says
 *     5   order length 0 or past the end
 *     6   code not 1-17
 *     7   order length not that of its code
 *     8   a field out of range
 *     9   a 65th order begins
 *     10  `words` or `ticks` is shorter than the count
 * Bits 8-23: the count of words, for 0 and 10; else 0.
 * Bits 32-63: for 0 the end, the tick at which the head is free again (at most
 * 4,194,240); for 5-9 the place of the faulty order's length byte in the plan;
 * else 0.
 *
 * Success fills the first count places of both buffers, and writes no other.
 */
uint64_t shabgozim_translate(const uint16_t *state, size_t state_length,
                             const uint8_t *plan, size_t plan_length,
                             uint16_t *words, size_t words_length,
                             uint32_t *ticks, size_t ticks_length);

/* ------------------------------------------------------------------------
 * Texts for people: the listing of a plan, the report of its simulation, the
 * inspection of a list, why a word is ignored, a refusal in words, and the table
 * of upper bytes. They are ASCII, every line ends in a newline, and no zero
 * follows them.
 *
 * A text is made on the stack before it is handed over: `shabgozim_report` takes
 * about 80 KB of it, `shabgozim_inspection` about 270 KB.
 */

/* Bytes that have room for every text of their kind. */
enum {
    SHABGOZIM_LISTING = 8192,
    SHABGOZIM_REPORT = 65536,
    SHABGOZIM_REFUSAL = 1024, /* of a plan, a list's text, a map or a request */
    SHABGOZIM_INSPECTION = 262144,
    SHABGOZIM_EXPLANATION = 256,
    SHABGOZIM_UPPER_BYTES = 16384
};

/*
 * Writes the listing of a plan for a head in this state: the words with their
 * ticks, as the program `listing` prints them.
 *
 * Bits 0-7 of the answer: 0; 1-9 as `shabgozim_translate`; 10 where `text` is
 * shorter than the listing. Bits 32-63: for 0 and 10 the length of the listing;
 * for 5-9 the place of the faulty order's length byte; else 0. All other bits
 * are 0.
 *
 * Success writes the listing into the first bytes of `text`, and no other.
 */
uint64_t shabgozim_listing(const uint16_t *state, size_t state_length,
                           const uint8_t *plan, size_t plan_length,
                           uint8_t *text, size_t text_length);

/*
 * Lets ticks pass until the head is idle and nothing moves, simulates the plan
 * on it, writes the report, and advances the state to the plan's end. So several
 * plans in a row are reported by one call for each, on one state.
 *
 * The answer is packed as that of `shabgozim_listing`. Since the head comes to
 * rest first, 1 is left for states that are out of range. A refusal leaves both
 * `state` and `text` as they were.
 */
uint64_t shabgozim_report(uint16_t *state, size_t state_length,
                          const uint8_t *plan, size_t plan_length,
                          uint8_t *text, size_t text_length);

/*
 * Writes a refusal of `plan` in words, one line: its number, its rule, its byte
 * place and, for 5-9, the index of the order, counted from 1. `number` and
 * `place` are those of the answers above or of `shabgozim_translate`.
 *
 * Answers the length of the line; 0 where `number` is not 1-10 or `text` is
 * shorter than the line, and then writes nothing.
 */
uint32_t shabgozim_refusal(uint8_t number, uint32_t place,
                           const uint8_t *plan, size_t plan_length,
                           uint8_t *text, size_t text_length);

/* No list has more bytes than this as text. */
enum { SHABGOZIM_MOST_LIST_TEXT = 8192 };

/*
 * Reads a list from text, in the form in which `shabgozim_listing` writes it: a
 * first line `tick word`; for each word a line with its tick in decimal, without
 * leading zeros and below 2^32, one space, and the word as four hexadecimal
 * digits, the letters of either case; last `end` and a tick, which may be left
 * out. No other byte may stand in a line. The last line may lack its newline.
 *
 * Bits 0-7 of the answer: 0, or why the text is refused; lines are judged in
 * order, and the first faulty one decides:
 *     96  more than 8,192 bytes (before any line is judged; the line is that of
 *         byte 8,193)
 *     91  the first line is not `tick word`
 *     95  a line after the end
 *     92  not a tick and a word, nor an end
 *     93  the tick is not above the tick of the word before
 *     94  a 257th word
 *     10  `words` or `ticks` has fewer places than the list has words (the last
 *         check)
 * Bits 32-63: for 0 and 10 the number of words; for 91-96 the line, counted from
 * 1. All other bits are 0.
 *
 * Success fills the first places of both buffers, and writes no other.
 */
uint64_t shabgozim_read_list(const uint8_t *text, size_t text_length,
                             uint16_t *words, size_t words_length,
                             uint32_t *ticks, size_t ticks_length);

/*
 * Writes the inspection of a list: what each word means, and what a head at
 * power-on makes of it when the list is given as `shabgozim_list` gives it.
 *
 * Bits 0-7 of the answer: 0; 31 where the words and ticks are no list (the ticks
 * do not rise strictly, or the two have not the same length or more than 256
 * places); 10 where `text` is shorter than the inspection (the last check).
 * Bits 8-23, for 0 and 10: the findings, which are the ignored words, the
 * exposures while a mirror set is begun and not complete, and the exposures
 * begun while something moves; a sound list has none.
 * Bits 32-63, for 0 and 10: the length of the inspection. All other bits are 0.
 *
 * Success writes the inspection into the first bytes of `text`, and no other.
 */
uint64_t shabgozim_inspection(const uint16_t *words, size_t words_length,
                              const uint32_t *ticks, size_t ticks_length,
                              uint8_t *text, size_t text_length);

/*
 * Writes an answer of `shabgozim_why` in words, one line: the rule, and the ticks
 * left, the word, or the mirror word that was due.
 *
 * `why` has the form of such an answer where one of these holds:
 *     bits 0-7 are 0 or 21, and bits 8-31 are 0
 *     bits 0-7 are 22, bits 8-23 and bit 31 anything, and bits 24-30 are 0
 *     bits 0-7 are 23 or 24, bits 8-23 anything, and bits 24-31 are 0
 *     bits 0-7 are 25, bits 8-15 anything, and bits 16-31 are 0
 *
 * Answers the length of the line; 0 where `why` has not that form or `text` is
 * shorter than the line, and then writes nothing.
 */
uint32_t shabgozim_explanation(uint32_t why, uint8_t *text, size_t text_length);

/*
 * Writes a refusal of a list's text in words, one line: its number, its rule and
 * its line. `number` and `line` are those that `shabgozim_read_list` answers.
 *
 * Answers the length of the line; 0 where `number` is not 91-96 or `text` is
 * shorter than the line, and then writes nothing.
 */
uint32_t shabgozim_list_refusal(uint8_t number, uint32_t line,
                                uint8_t *text, size_t text_length);

/*
 * Writes the table of upper bytes, by which words are checked by eye: a line for
 * each of the 256, with the kind of the words that begin with it and the ranges
 * of those that are allowed.
 *
 * Bits 0-7 of the answer: 0; 10 where `text` is shorter than the table. Bits
 * 32-63: the length of the table. All other bits are 0.
 *
 * Success writes the table into the first bytes of `text`, and no other.
 */
uint64_t shabgozim_upper_bytes(uint8_t *text, size_t text_length);

/* ------------------------------------------------------------------------
 * Housekeeping blocks. They are due when a tick says so, and show the state
 * after that tick.
 */
enum {
    SHABGOZIM_IR_BLOCK = 20,     /* words of the IR block */
    SHABGOZIM_IR_READINGS = 14,  /* the first words: the caller's readings */
    SHABGOZIM_CCD_BLOCK = 25,    /* words of the CCD block */
    SHABGOZIM_CCD_READINGS = 16
};

/*
 * Write the IR or the CCD block of a state.
 *
 * `flags`: the flags to show, as bits 8-12 of the tick's answer shifted down.
 * `ended`: 1 after an acquisition, any other number else; the low eight bits
 * of the tick's answer do.
 * `bits`: bit 0 latch-up; for the IR block also bit 1 not closed, bit 2 not
 * open. Other bits of `flags` and `bits` say nothing.
 *
 * Answers 0; 11 where `readings` or `block` has not its length; 21 where the
 * state is out of range.
 */
uint32_t shabgozim_write_ir(const uint16_t *state, size_t state_length,
                            uint32_t flags, uint32_t ended, uint32_t bits,
                            const uint16_t *readings, size_t readings_length,
                            uint16_t *block, size_t block_length);

uint32_t shabgozim_write_ccd(const uint16_t *state, size_t state_length,
                             uint32_t flags, uint32_t ended, uint32_t bits,
                             const uint16_t *readings, size_t readings_length,
                             uint16_t *block, size_t block_length);

/* What an IR block says: 31 numbers, flags and switches as 0 or 1. */
enum {
    SHABGOZIM_IR_SAYS_READINGS = 0, /* to 13 */
    SHABGOZIM_IR_SAYS_WINDOW_MODE = 14,
    SHABGOZIM_IR_SAYS_DELAY = 15,
    SHABGOZIM_IR_SAYS_EXPO = 16,
    SHABGOZIM_IR_SAYS_LAMP_CURRENT = 17,
    SHABGOZIM_IR_SAYS_LAMP_ON = 18,
    SHABGOZIM_IR_SAYS_SHUTTER_CURRENT = 19,
    SHABGOZIM_IR_SAYS_CLOSED = 20,
    SHABGOZIM_IR_SAYS_ACQUISITION = 21, /* the block follows an acquisition */
    SHABGOZIM_IR_SAYS_TIME = 22,
    SHABGOZIM_IR_SAYS_WORD = 23,
    SHABGOZIM_IR_SAYS_SCAN = 24,
    SHABGOZIM_IR_SAYS_DETECTOR = 25,
    SHABGOZIM_IR_SAYS_LATCH_UP = 26,
    SHABGOZIM_IR_SAYS_ANNEALING = 27,
    SHABGOZIM_IR_SAYS_COVER_OPENS = 28, /* the last cover move's direction */
    SHABGOZIM_IR_SAYS_NOT_CLOSED = 29,
    SHABGOZIM_IR_SAYS_NOT_OPEN = 30,
    SHABGOZIM_IR_SAYS = 31              /* how many numbers there are */
};

/* What a CCD block says: 30 numbers. */
enum {
    SHABGOZIM_CCD_SAYS_READINGS = 0, /* to 15 */
    SHABGOZIM_CCD_SAYS_X1 = 16,
    SHABGOZIM_CCD_SAYS_Y1 = 17,
    SHABGOZIM_CCD_SAYS_X2 = 18,
    SHABGOZIM_CCD_SAYS_Y2 = 19,
    SHABGOZIM_CCD_SAYS_DELAY = 20,
    SHABGOZIM_CCD_SAYS_EXPO = 21,
    SHABGOZIM_CCD_SAYS_SINE = 22, /* magnitude */
    SHABGOZIM_CCD_SAYS_MINUS = 23,
    SHABGOZIM_CCD_SAYS_COSINE = 24,
    SHABGOZIM_CCD_SAYS_ACQUISITION = 25,
    SHABGOZIM_CCD_SAYS_TIME = 26,
    SHABGOZIM_CCD_SAYS_WORD = 27,
    SHABGOZIM_CCD_SAYS_LATCH_UP = 28,
    SHABGOZIM_CCD_SAYS_LAMP_ON = 29,
    SHABGOZIM_CCD_SAYS = 30
};

/*
 * Read an IR or a CCD block into what it says.
 *
 * Bits 0-7 of the answer: 0; 11 where `block` or `numbers` has not its length;
 * 12 a fixed bit is wrong; 13 a value is out of range. Bits 8-31: the index in
 * the block of the word that 12 or 13 is about; else 0.
 */
uint32_t shabgozim_read_ir(const uint16_t *block, size_t block_length,
                           uint16_t *numbers, size_t numbers_length);

uint32_t shabgozim_read_ccd(const uint16_t *block, size_t block_length,
                            uint16_t *numbers, size_t numbers_length);

/* ------------------------------------------------------------------------
 * The high-resolution head (PEM-H): its requests and its pixel map.
 *
 * A request's word has its code in the top six bits and its value in the low
 * ten. The 32 requests of source document 000, section 4.2, are numbered in the
 * order of its table. Beside each stand its code and the values it allows; a
 * value is the whole parameter, also where the table leaves only one.
 *
 * HSET_PEM_MODE: bit 0 all matrix (else 8 orders), bit 1 simulation (else
 * observation). HSET_COVER: bit 0 opens, bit 1 one wave (else half a wave),
 * bit 2 Hall sensors enabled, bits 3-9 the number of steps.
 */
enum {
    SHABGOZIM_HSET_BIAS = 0,             /* 001000  0-255 */
    SHABGOZIM_HSET_I_LAMP_SPECT_T = 1,   /* 001001  0-255 */
    SHABGOZIM_HSET_I_LAMP_SPECT_S = 2,   /* 001001  0-255 */
    SHABGOZIM_HSET_I_LAMP_RADIO = 3,     /* 001001  0-255 */
    SHABGOZIM_HSET_I_SHUTTER = 4,        /* 001010  0-255 */
    SHABGOZIM_HSET_INT_NUM1 = 5,         /* 010100  0-1023 */
    SHABGOZIM_HSET_INT_NUM2 = 6,         /* 010101  0-255 */
    SHABGOZIM_HINIT_PIX_MAP_UPLD = 7,    /* 001110  0 */
    SHABGOZIM_HINIT_PIX_MAP_DNLD = 8,    /* 001110  0 */
    SHABGOZIM_HSET_PIX_MAP_DATA = 9,     /* 001100  0-255 */
    SHABGOZIM_HDNLD_PIX_MAP_DATA = 10,   /* 001101  0 */
    SHABGOZIM_HSET_PEM_MODE = 11,        /* 011010  0-3, fields above */
    SHABGOZIM_HNOP = 12,                 /* 000000  0 */
    SHABGOZIM_HSTART_S = 13,             /* 000001  0 */
    SHABGOZIM_HSTART_HK = 14,            /* 000010  0 */
    SHABGOZIM_HSTOP_READOUT = 15,        /* 000011  0 */
    SHABGOZIM_HRESYNC = 16,              /* 001000  0 */
    SHABGOZIM_HSET_DET_ON = 17,          /* 010001  1 */
    SHABGOZIM_HSET_DET_OFF = 18,         /* 010001  0 */
    SHABGOZIM_HSET_SHUTTER_ON = 19,      /* 011011  1: closed */
    SHABGOZIM_HSET_SHUTTER_OFF = 20,     /* 011011  0: open */
    SHABGOZIM_HSET_SHUTTER_STATUS = 21,  /* 011111  0 off, 1 on */
    SHABGOZIM_HSET_FPA_HTR_ON = 22,      /* 011100  1 */
    SHABGOZIM_HSET_FPA_HTR_OFF = 23,     /* 011100  0 */
    SHABGOZIM_HSET_LAMP_SPECT_T_ON = 24, /* 011101  1 */
    SHABGOZIM_HSET_LAMP_SPECT_S_ON = 25, /* 011101  2 */
    SHABGOZIM_HSET_LAMP_RADIO_ON = 26,   /* 011101  4 */
    SHABGOZIM_HSET_CAL_OFF = 27,         /* 011101  0: all three lamps */
    SHABGOZIM_HSET_DET_TEMP_ON = 28,     /* 011110  1 */
    SHABGOZIM_HSET_DET_TEMP_OFF = 29,    /* 011110  0 */
    SHABGOZIM_HSET_COVER = 30,           /* 010010  0-1023, fields above */
    SHABGOZIM_HSET_TEST_INIT = 31,       /* 010011  0-1023 */
    SHABGOZIM_H_REQUESTS = 32            /* how many there are */
};

/*
 * Words that several requests have. What such a word means is none of these
 * requests, but a shared meaning: 0x80 + the number of the first of them.
 */
enum {
    SHABGOZIM_H_SHARED = 0x80, /* set in every shared meaning, in no other */
    /* 2000: HSET_BIAS with value 0, HRESYNC */
    SHABGOZIM_H_SHARED_BIAS_RESYNC = 0x80,
    /* 2400-24FF: HSET_I_LAMP_SPECT_T, HSET_I_LAMP_SPECT_S, HSET_I_LAMP_RADIO */
    SHABGOZIM_H_SHARED_I_LAMP = 0x81,
    /* 3800: HINIT_PIX_MAP_UPLD, HINIT_PIX_MAP_DNLD */
    SHABGOZIM_H_SHARED_INIT_PIX_MAP = 0x87
};

/*
 * What a request's word means. Bits 24-31: 0, 43 (no request has its code) or
 * 44 (value out of range). Bits 16-23: the request, or a shared meaning. Bits
 * 0-15: the value. Bits 0-23 are 0 for 43 and 44.
 */
uint32_t shabgozim_h_decode(uint16_t word);

/*
 * The word of a request and its value. Bits 24-31: 0, 43 (there is no such
 * request) or 44 (value out of range). Bits 0-15: the word, 0 for 43 and 44.
 */
uint32_t shabgozim_h_encode(uint8_t request, uint16_t value);

/*
 * A pixel map has a bit for each pixel of the detector, row by row: 1 for a
 * lighted one, which is read. The first pixel is in the top bit of the first
 * byte. The four bits that are left over at the end are 0.
 */
enum {
    SHABGOZIM_H_ROWS = 270,
    SHABGOZIM_H_COLUMNS = 438,
    SHABGOZIM_H_PIXELS = 118260,
    SHABGOZIM_H_MAP = 14783,    /* bytes of a map */
    SHABGOZIM_H_PICTURE = 16384 /* bytes that have room for every picture */
};

/*
 * The number of lighted pixels in a map, and the time of its readout in
 * microseconds: 10 for each lighted pixel, 1 for each other, 40 for each line.
 *
 * Bits 24-31: 0; 41 where `length` is not 14,783; 42 where a spare bit is set.
 * Bits 0-23: the number or the time, 0 for 41 and 42.
 */
uint32_t shabgozim_h_lighted(const uint8_t *map, size_t length);

uint32_t shabgozim_h_readout(const uint8_t *map, size_t length);

/*
 * Writes a map as a picture to look at: a portable bitmap (raw PBM, P4) of 438
 * by 270 in which lighted pixels are black. A comment in it tells their number
 * and the time of the readout.
 *
 * Bits 0-7 of the answer: 0; 41 and 42 as above; 10 where `text` is shorter
 * than the picture (the last check). Bits 32-63, for 0 and 10: the length of
 * the picture. All other bits are 0.
 *
 * Success writes the picture into the first bytes of `text`, and no other.
 */
uint64_t shabgozim_h_picture(const uint8_t *map, size_t map_length,
                             uint8_t *text, size_t text_length);

/*
 * Writes a refusal of a map (41, 42) or a request (43, 44) in words, one line.
 *
 * Answers the length of the line; 0 where `number` is not 41-44 or `text` is
 * shorter than the line, and then writes nothing.
 */
uint32_t shabgozim_h_refusal(uint8_t number, uint8_t *text, size_t text_length);

/* ------------------------------------------------------------------------
 * Two operators, one head. One operator gives the CCD words, the other the
 * infrared words; the controller gives START, HK, STOP and NOP to the head
 * (`shabgozim_word`), and passes the operators' words on to it.
 */
enum {
    SHABGOZIM_CCD_GROUP = 0,        /* WIN X1, Y1, X2, Y2; CCD DELAY, EXPO, LAMP */
    SHABGOZIM_INFRARED_GROUP = 1,   /* all others */
    SHABGOZIM_CONTROLLER_GROUP = 2, /* START, HK, STOP, NOP */
    SHABGOZIM_NO_GROUP = 3          /* of a number that is no kind */
};

/* The group of a kind of word; its bits above the low two are 0. */
uint32_t shabgozim_group(uint8_t kind);

/*
 * Passes an operator's word on to the head: SHABGOZIM_CCD_GROUP or
 * SHABGOZIM_INFRARED_GROUP says whose it is.
 *
 *     21   refused: the state is out of range
 *     51   refused: the word is not allowed, not in that operator's group, or
 *          the head is busy; any other `operator_group` is 51 too
 *     else as `shabgozim_word` answers: the head has got the word, and the state
 *          is advanced. It may still have ignored it: COVER while the cover
 *          moves (22), a mirror word out of turn (25).
 *
 * A refusal leaves the state as it was.
 */
uint32_t shabgozim_pass_on(uint16_t *state, size_t length,
                           uint8_t operator_group, uint16_t word);

/* What merging answers. */
typedef struct {
    uint32_t number;   /* 0, or the refusal, 52-54 */
    uint32_t rest_of;  /* whose list the rest is of: CCD or INFRARED group */
    size_t count;      /* entries that were merged; 0 for a refusal */
    size_t rest_start; /* where the rest starts in that list */
} shabgozim_merged;

/*
 * Merges two lists by tick until one of them has run out. An entry is one
 * number, tick x 65,536 + word. The rest of the other list, from `rest_start`
 * on, is for the caller to go on with; where both have ended, it is the empty
 * rest of the infrared list. The merged entries and then the rest are the merge
 * of the two whole lists.
 *
 *     52   refused: the ticks of a list do not rise strictly
 *     53   refused: the same tick stands in both lists
 *     54   refused: `merged` is shorter than the merged part
 *
 * Success fills the first `count` places of `merged`, and writes no other. A
 * refusal writes nothing, and its rest is the empty end of the infrared list.
 */
shabgozim_merged shabgozim_merge(const uint64_t *ccd, size_t ccd_length,
                                 const uint64_t *infrared, size_t infrared_length,
                                 uint64_t *merged, size_t merged_length);

/* Bytes that have room for every merged list as text. */
enum { SHABGOZIM_MERGED_TEXT = 16384 };

/*
 * Reads two lists from text, merges them, and writes the whole merged list as
 * text, in the same form, with no end line: when the head is free again depends
 * on the controller's words, which are in neither list. It has up to 512 words;
 * `shabgozim_read_list` takes 256.
 *
 * Bits 0-7 of the answer: 0, or why nothing is written, in this order:
 *     91-96  `ccd`, then `infrared`, is no list, as `shabgozim_read_list` says
 *     53     the same tick stands in both
 *     10     `text` is shorter than the merged list
 * Bits 8-23, for 91-96: whose text it is, CCD or INFRARED group. Bits 32-63: for
 * 91-96 the line, counted from 1; for 0 and 10 the length of the text. All other
 * bits are 0.
 *
 * Success writes the merged list into the first bytes of `text`, and no other.
 */
uint64_t shabgozim_merge_texts(const uint8_t *ccd, size_t ccd_length,
                               const uint8_t *infrared, size_t infrared_length,
                               uint8_t *text, size_t text_length);

/*
 * Writes a refusal of a word that is not passed on (51) or of merging (52-54) in
 * words, one line.
 *
 * Answers the length of the line; 0 where `number` is not 51-54 or `text` is
 * shorter than the line, and then writes nothing.
 */
uint32_t shabgozim_operator_refusal(uint8_t number,
                                    uint8_t *text, size_t text_length);

#ifdef __cplusplus
}
#endif

#endif
