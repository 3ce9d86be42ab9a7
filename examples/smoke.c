/*
 * Drives the library through its C interface: a few words and ticks by hand,
 * then document 01's example plan, translated and run tick by tick on the head;
 * then its list in one call, whole and with a word lost; then texts, the list
 * with a word lost read from text and inspected, why words are ignored, and the
 * table of upper bytes; then the requests and the pixel map of the
 * high-resolution head; last words of two operators passed on, and their lists
 * merged.
 *
 *     tools/archives
 *     cc -Wall -Wextra -Werror -I include examples/smoke.c \
 *         target/staticlib/libinterface.a target/staticlib/libtexts.a \
 *         -o target/smoke
 *     target/smoke | diff examples/smoke.stdout -
 */
#include <inttypes.h>
#include <stdio.h>
#include <string.h>

#include "shabgozim.h"

static const uint8_t example_plan[] = {0x01, 0x00, 0x0A, 0x05, 0x0C, 0xFF, 0x00,
                                       0x0F, 0xF8, 0x01, 0x0F, 0x01, 0x10};

static void print_mirror(const uint16_t *state)
{
    unsigned sine = state[SHABGOZIM_SINE];
    printf("mirror %c%u, %u", sine & 0x1000 ? '-' : '+', sine & 0x0FFF,
           (unsigned)state[SHABGOZIM_COSINE]);
}

static void print_block(const char *name, const uint16_t *block, size_t length)
{
    printf("  %s", name);
    for (size_t i = 0; i < length; i++) {
        printf(" %04X", (unsigned)block[i]);
    }
    printf("\n");
}

/* Both blocks of a state, after a tick that says they are due. */
static void print_blocks(const uint16_t *state, uint32_t due)
{
    uint16_t readings[SHABGOZIM_CCD_READINGS] = {0};
    uint16_t ir[SHABGOZIM_IR_BLOCK];
    uint16_t ccd[SHABGOZIM_CCD_BLOCK];
    uint16_t says[SHABGOZIM_IR_SAYS];
    uint32_t flags = due >> 8;
    uint32_t ended = due & 0xFF;

    shabgozim_write_ir(state, SHABGOZIM_STATE, flags, ended, 0, readings,
                       SHABGOZIM_IR_READINGS, ir, SHABGOZIM_IR_BLOCK);
    shabgozim_write_ccd(state, SHABGOZIM_STATE, flags, ended, 0, readings,
                        SHABGOZIM_CCD_READINGS, ccd, SHABGOZIM_CCD_BLOCK);
    print_block("IR", ir, SHABGOZIM_IR_BLOCK);
    print_block("CCD", ccd, SHABGOZIM_CCD_BLOCK);
    printf("  read back: %" PRIu32,
           shabgozim_read_ir(ir, SHABGOZIM_IR_BLOCK, says, SHABGOZIM_IR_SAYS));
    printf(", after an acquisition: %u\n",
           (unsigned)says[SHABGOZIM_IR_SAYS_ACQUISITION]);
}

static void send(uint16_t *state, uint16_t word)
{
    uint32_t answer = shabgozim_word(state, SHABGOZIM_STATE, word);
    printf("word %04X answers %" PRIu32 ", ", (unsigned)word, answer);
    print_mirror(state);
    printf("\n");
}

/* Ticks until blocks are due. */
static void wait_for_blocks(uint16_t *state)
{
    uint32_t due = 0;
    unsigned ticks = 0;
    while (due == 0) {
        due = shabgozim_tick(state, SHABGOZIM_STATE);
        ticks++;
    }
    printf("%u ticks, then %" PRIu32 "\n", ticks, due & 0xFF);
    print_blocks(state, due);
}

static void by_hand(void)
{
    static const uint16_t words[] = {0x2011, 0xA000, 0x600F, 0xE0F8, 0xC001,
                                     0x3800, 0x8000, 0x2010};
    uint16_t state[SHABGOZIM_STATE];

    printf("power-on %" PRIu32 "\n", shabgozim_power_on(state, SHABGOZIM_STATE));
    for (size_t i = 0; i < sizeof words / sizeof words[0]; i++) {
        send(state, words[i]);
    }
    wait_for_blocks(state);
    printf("in range %" PRIu32 ", one number short %" PRIu32 "\n",
           shabgozim_in_range(state, SHABGOZIM_STATE),
           shabgozim_in_range(state, SHABGOZIM_STATE - 1));
    printf("decode C001 %08" PRIX32 ", encode COVER 81 %08" PRIX32 "\n",
           shabgozim_decode(0xC001), shabgozim_encode(27, 81));
    printf("decode C001 by its upper byte %08" PRIX32 "\n",
           shabgozim_decode_by_byte(0xC001));
}

/* A word of the run, with what the head makes of it. */
static void print_act(uint32_t tick, uint16_t word, uint32_t answer,
                      const uint16_t *state)
{
    printf("%" PRIu32 " %04X", tick, (unsigned)word);
    if (answer == 1) {
        printf(" exposure under ");
        print_mirror(state);
    } else if (answer == 2) {
        printf(" housekeeping");
    } else if (answer != 0) {
        printf(" answers %" PRIu32, answer);
    }
    printf("\n");
}

static void run_plan(void)
{
    uint16_t state[SHABGOZIM_STATE];
    uint16_t words[SHABGOZIM_MOST_WORDS];
    uint32_t ticks[SHABGOZIM_MOST_WORDS];
    shabgozim_power_on(state, SHABGOZIM_STATE);

    uint64_t answer = shabgozim_translate(
        state, SHABGOZIM_STATE, example_plan, sizeof example_plan, words,
        SHABGOZIM_MOST_WORDS, ticks, SHABGOZIM_MOST_WORDS);
    size_t count = answer >> 8 & 0xFFFF;
    uint32_t end = (uint32_t)(answer >> 32);
    printf("plan %u: %zu words, end %" PRIu32 "\n", (unsigned)(answer & 0xFF),
           count, end);

    size_t next = 0;
    for (uint32_t tick = 0; tick < end; tick++) {
        if (next < count && ticks[next] == tick) {
            uint16_t word = words[next++];
            print_act(tick, word,
                      shabgozim_word(state, SHABGOZIM_STATE, word), state);
        }
        uint32_t due = shabgozim_tick(state, SHABGOZIM_STATE);
        if (due != 0) {
            printf("blocks due %" PRIu32 "\n", due & 0xFF);
            print_blocks(state, due);
        }
    }
    printf("end %" PRIu32 ", ", end);
    print_mirror(state);
    printf("\n");
}

/* A list in one call, from power-on: its answer, an outcome for each word, and
 * the mirror. */
static void give_list(const uint16_t *words, const uint32_t *ticks,
                      size_t count)
{
    uint16_t state[SHABGOZIM_STATE];
    uint16_t outcomes[SHABGOZIM_MOST_LISTED];
    shabgozim_power_on(state, SHABGOZIM_STATE);
    uint32_t answer = shabgozim_list(state, SHABGOZIM_STATE, words, count, ticks,
                                     count, outcomes, SHABGOZIM_MOST_LISTED);
    printf("list of %zu words answers %" PRIu32, count, answer);
    if (answer == 0) {
        printf(", outcomes");
        for (size_t i = 0; i < count; i++) {
            printf(" %u", (unsigned)outcomes[i]);
        }
    }
    printf(", ");
    print_mirror(state);
    printf("\n");
}

/* The example plan's list; then without its fourth word, which no flag tells:
 * START is taken under the mirror's old position. Then with two equal ticks. */
static void run_lists(void)
{
    static const uint16_t whole[] = {0x2011, 0xA000, 0x600F,
                                     0xE0F8, 0x8000, 0x4000};
    static const uint32_t whole_ticks[] = {0, 1, 2, 3, 69, 227};
    static const uint16_t lost[] = {0x2011, 0xA000, 0x600F, 0x8000, 0x4000};
    static const uint32_t lost_ticks[] = {0, 1, 2, 69, 227};
    static const uint32_t equal_ticks[] = {0, 1, 1, 69, 227};
    give_list(whole, whole_ticks, 6);
    give_list(lost, lost_ticks, 5);
    give_list(lost, equal_ticks, 5);
}

/* A plan whose first order has an unknown code. */
static void refuse_plan(void)
{
    static const uint8_t plan[] = {0x01, 0x00, 0x02, 0x01, 0x12};
    uint16_t state[SHABGOZIM_STATE];
    uint16_t words[1];
    uint32_t ticks[1];
    shabgozim_power_on(state, SHABGOZIM_STATE);
    uint64_t answer = shabgozim_translate(state, SHABGOZIM_STATE, plan,
                                          sizeof plan, words, 1, ticks, 1);
    printf("refused %u at %u\n", (unsigned)(answer & 0xFF),
           (unsigned)(answer >> 32));
}

/* The listing, two reports in a row on one state, and a refusal in words. */
static void print_texts(void)
{
    static const uint8_t cover[] = {1, 0, 6, 5, 14, 1, 0, 0, 81};
    static const uint8_t expose[] = {1, 0, 2, 1, 15};
    static const uint8_t faulty[] = {1, 0, 5, 1, 15, 2, 5, 2};
    static uint8_t text[SHABGOZIM_REPORT];
    uint16_t state[SHABGOZIM_STATE];

    shabgozim_power_on(state, SHABGOZIM_STATE);
    uint64_t listed = shabgozim_listing(state, SHABGOZIM_STATE, expose,
                                        sizeof expose, text, sizeof text);
    fwrite(text, 1, (size_t)(listed >> 32), stdout);
    uint64_t first = shabgozim_report(state, SHABGOZIM_STATE, cover,
                                      sizeof cover, text, sizeof text);
    printf("report of %u bytes, cover moves for %u ticks more\n",
           (unsigned)(first >> 32), state[SHABGOZIM_COVER_MOTION]);
    uint64_t second = shabgozim_report(state, SHABGOZIM_STATE, expose,
                                       sizeof expose, text, sizeof text);
    printf("report of %u bytes, cover moves for %u ticks more\n",
           (unsigned)(second >> 32), state[SHABGOZIM_COVER_MOTION]);
    uint64_t refused = shabgozim_report(state, SHABGOZIM_STATE, faulty,
                                        sizeof faulty, text, sizeof text);
    uint32_t length = shabgozim_refusal((uint8_t)refused,
                                        (uint32_t)(refused >> 32), faulty,
                                        sizeof faulty, text, sizeof text);
    fwrite(text, 1, length, stdout);
}

/* Reads a list as text and prints its inspection, or why it is refused. */
static void inspect_list(const char *list)
{
    static uint8_t text[SHABGOZIM_INSPECTION];
    uint16_t words[SHABGOZIM_MOST_LISTED];
    uint32_t ticks[SHABGOZIM_MOST_LISTED];

    uint64_t read = shabgozim_read_list((const uint8_t *)list, strlen(list),
                                        words, SHABGOZIM_MOST_LISTED, ticks,
                                        SHABGOZIM_MOST_LISTED);
    if ((read & 0xFF) != 0) {
        uint32_t length = shabgozim_list_refusal(
            (uint8_t)read, (uint32_t)(read >> 32), text, sizeof text);
        fwrite(text, 1, length, stdout);
        return;
    }
    size_t count = (size_t)(read >> 32);
    uint64_t inspected = shabgozim_inspection(words, count, ticks, count, text,
                                              sizeof text);
    fwrite(text, 1, (size_t)(inspected >> 32), stdout);
    printf("findings %u\n", (unsigned)(inspected >> 8 & 0xFFFF));
}

/* The example's list without its fourth mirror word, and with a tick twice. */
static void inspect_lists(void)
{
    inspect_list("tick word\n0 2011\n1 A000\n2 600F\n69 8000\n227 4000\n"
                 "end 230\n");
    inspect_list("tick word\n0 2011\n1 A000\n1 600F\n3 E0F8\n");
}

/* Why the head ignores a word, or that it takes it; then what the head answers
 * to that word, which is given to a copy of it. */
static void print_why(const uint16_t *state, uint16_t word)
{
    uint8_t text[SHABGOZIM_EXPLANATION];
    uint16_t head[SHABGOZIM_STATE];
    uint32_t why = shabgozim_why(state, SHABGOZIM_STATE, word);
    uint32_t length = shabgozim_explanation(why, text, sizeof text);
    memcpy(head, state, sizeof head);
    printf("why %04X: %u", (unsigned)word, (unsigned)(why & 0xFF));
    printf(", detail %u", (unsigned)(why >> 8 & 0xFFFF));
    printf("%s", why & SHABGOZIM_WHY_COVER ? ", cover" : "");
    printf("; the head answers %" PRIu32 "\n  ",
           shabgozim_word(head, SHABGOZIM_STATE, word));
    fwrite(text, 1, length, stdout);
}

/* Words that meet each rule: out of range, unknown, a mirror word with no set
 * begun and one after SIN M, COVER while the cover moves; the same, HK and STOP
 * while the head is busy. */
static void ask_why(void)
{
    uint16_t state[SHABGOZIM_STATE];
    shabgozim_power_on(state, SHABGOZIM_STATE);
    print_why(state, 0xAA00);
    print_why(state, 0x3800);
    print_why(state, 0xA000);
    shabgozim_word(state, SHABGOZIM_STATE, 0x2011);
    print_why(state, 0xE0F8);
    shabgozim_word(state, SHABGOZIM_STATE, 0x1201);
    print_why(state, 0x1001);
    shabgozim_word(state, SHABGOZIM_STATE, 0x8000);
    print_why(state, 0x1001);
    for (int tick = 0; tick < 157; tick++) {
        shabgozim_tick(state, SHABGOZIM_STATE);
    }
    print_why(state, 0x4000);
    print_why(state, 0xC000);
}

/* A state one number short; its line in just its room and in one byte less; and
 * a number that is no answer. */
static void refuse_why(void)
{
    uint8_t text[SHABGOZIM_EXPLANATION];
    uint16_t state[SHABGOZIM_STATE];
    shabgozim_power_on(state, SHABGOZIM_STATE);
    uint32_t why = shabgozim_why(state, SHABGOZIM_STATE - 1, 0x8000);
    uint32_t length = shabgozim_explanation(why, text, sizeof text);
    printf("one number short %" PRIu32 "; ", why);
    printf("line of %" PRIu32 " bytes, in its room %" PRIu32
           ", in one byte less %" PRIu32 "; of no answer %" PRIu32 "\n",
           length, shabgozim_explanation(why, text, length),
           shabgozim_explanation(why, text, length - 1),
           shabgozim_explanation(26, text, sizeof text));
}

/* The first lines of a text. */
static void print_lines(const uint8_t *text, size_t length, size_t count)
{
    size_t lines = 0;
    for (size_t i = 0; i < length && lines < count; i++) {
        putchar(text[i]);
        lines += text[i] == '\n';
    }
}

/* The title and the first lines of the table of upper bytes; without room for
 * all of it nothing is written. */
static void print_upper_bytes(void)
{
    static uint8_t text[SHABGOZIM_UPPER_BYTES];
    uint64_t written = shabgozim_upper_bytes(text, sizeof text);
    size_t length = (size_t)(written >> 32);
    print_lines(text, length, 4);
    uint64_t refused = shabgozim_upper_bytes(text, length - 1);
    printf("table of %zu bytes; with one byte less room %u\n", length,
           (unsigned)(refused & 0xFF));
}

static void print_h_refusal(uint32_t number)
{
    static uint8_t text[SHABGOZIM_REFUSAL];
    uint32_t length = shabgozim_h_refusal((uint8_t)number, text, sizeof text);
    fwrite(text, 1, length, stdout);
}

/* Requests to words and back: one by itself, one of three that share their
 * words, and two refused. */
static void print_requests(void)
{
    printf("encode HSET_Det/On %08" PRIX32 ", decode 4401 %08" PRIX32 "\n",
           shabgozim_h_encode(SHABGOZIM_HSET_DET_ON, 1),
           shabgozim_h_decode(0x4401));
    uint32_t lamp = shabgozim_h_decode(0x2405);
    printf("decode 2405 %08" PRIX32 ", current of some lamp: %d\n", lamp,
           lamp >> 16 == SHABGOZIM_H_SHARED_I_LAMP);
    print_h_refusal(shabgozim_h_decode(0xFFFF) >> 24);
    print_h_refusal(shabgozim_h_encode(SHABGOZIM_HSET_BIAS, 256) >> 24);
}

/* A pixel map with as many pixels lighted as the eight orders have, and the
 * lines before the pixels of its picture; then without its last byte, and with
 * a spare bit set. */
static void print_pixel_map(void)
{
    static uint8_t map[SHABGOZIM_H_MAP];
    static uint8_t picture[SHABGOZIM_H_PICTURE];
    memset(map, 0xFF, 17280 / 8);
    printf("lighted %" PRIu32 ", readout %" PRIu32 " us\n",
           shabgozim_h_lighted(map, sizeof map),
           shabgozim_h_readout(map, sizeof map));
    uint64_t written = shabgozim_h_picture(map, sizeof map, picture,
                                           sizeof picture);
    size_t length = (size_t)(written >> 32);
    print_lines(picture, length, 3);
    printf("picture of %zu bytes\n", length);
    print_h_refusal(shabgozim_h_lighted(map, sizeof map - 1) >> 24);
    map[SHABGOZIM_H_MAP - 1] = 1;
    print_h_refusal(shabgozim_h_readout(map, sizeof map) >> 24);
}

static void print_operator_refusal(uint32_t number)
{
    static uint8_t text[SHABGOZIM_REFUSAL];
    uint32_t length = shabgozim_operator_refusal((uint8_t)number, text,
                                                 sizeof text);
    fwrite(text, 1, length, stdout);
}

/* A word of each operator: CCD EXPO is passed on; then START makes the head
 * busy, and IR EXPO is not. */
static void pass_words_on(void)
{
    uint16_t state[SHABGOZIM_STATE];
    shabgozim_power_on(state, SHABGOZIM_STATE);
    uint32_t ccd = shabgozim_pass_on(state, SHABGOZIM_STATE,
                                     SHABGOZIM_CCD_GROUP, 0x9832);
    printf("CCD EXPO is of group %" PRIu32 ", passed on: %" PRIu32
           ", now %u\n",
           shabgozim_group(17), ccd, (unsigned)state[SHABGOZIM_CCD_EXPO]);
    shabgozim_word(state, SHABGOZIM_STATE, 0x8000);
    uint32_t infrared = shabgozim_pass_on(state, SHABGOZIM_STATE,
                                          SHABGOZIM_INFRARED_GROUP, 0x08C8);
    printf("IR EXPO is of group %" PRIu32 ", still %u\n", shabgozim_group(11),
           (unsigned)state[SHABGOZIM_IR_EXPO]);
    print_operator_refusal(infrared);
}

/* Merges two lists of entries, first with one place too few. The rest is for
 * the caller to go on with. */
static void merge_lists(void)
{
    static const uint64_t ccd[] = {0x00002864, 0x00049832, 0x012C9864};
    static const uint64_t infrared[] = {0x00012011, 0x0002A000, 0x0003600F,
                                        0x0005E0F8};
    uint64_t merged[6];
    shabgozim_merged answer = shabgozim_merge(ccd, 3, infrared, 4, merged, 5);
    print_operator_refusal(answer.number);
    answer = shabgozim_merge(ccd, 3, infrared, 4, merged, 6);
    printf("merged %zu:", answer.count);
    for (size_t i = 0; i < answer.count; i++) {
        printf(" %" PRIu64 " %04X", merged[i] >> 16,
               (unsigned)(merged[i] & 0xFFFF));
    }
    printf("\nthe rest is of the %s list, from %zu on\n",
           answer.rest_of == SHABGOZIM_CCD_GROUP ? "CCD" : "infrared",
           answer.rest_start);
}

/* The same as text, where the whole list is written. */
static void merge_texts(void)
{
    static const char ccd[] = "tick word\n0 2864\n4 9832\n300 9864\n";
    static const char infrared[] =
        "tick word\n1 2011\n2 A000\n3 600F\n5 E0F8\nend 71\n";
    static uint8_t text[SHABGOZIM_MERGED_TEXT];
    uint64_t merged = shabgozim_merge_texts(
        (const uint8_t *)ccd, strlen(ccd), (const uint8_t *)infrared,
        strlen(infrared), text, sizeof text);
    fwrite(text, 1, (size_t)(merged >> 32), stdout);
    uint64_t refused = shabgozim_merge_texts(
        (const uint8_t *)ccd, strlen(ccd), (const uint8_t *)ccd, strlen(ccd),
        text, sizeof text);
    print_operator_refusal((uint32_t)(refused & 0xFF));
}

int main(void)
{
    by_hand();
    run_plan();
    run_lists();
    refuse_plan();
    print_texts();
    inspect_lists();
    ask_why();
    refuse_why();
    print_upper_bytes();
    print_requests();
    print_pixel_map();
    pass_words_on();
    merge_lists();
    merge_texts();
    return 0;
}
