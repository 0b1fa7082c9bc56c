/* The seven services from C, on a log of 5 episodes with the links 0-1 and 2-3 and other small logs, and their refusals. Prints
 * what examples/expected.txt holds; exits with 1 where a refusal has another number than is meant here. */
#include <inttypes.h>
#include <stdio.h>

#include "zohapy.h"

#define WORDS(array) (sizeof(array) / sizeof((array)[0]))

static const uint32_t whole[] = {0x10000005, 0x20000000, 0x30000001, 0x20000002, 0x30000003, 0xF0000002};

/* Logs for each refusal of a reading but 8, which takes 4,097 to words. */
static const struct {
    uint32_t number;
    size_t count;
    uint32_t words[4];
} refused[] = {
    {1, 1, {0x10000005}},                                     /* fewer than two words */
    {2, 2, {0x20000005, 0xF0000000}},                         /* no head */
    {18, 2, {ZOHAPY_HEAD_WORD(2, 5), 0xF0000000}},            /* version 2 */
    {3, 2, {0x100000C9, 0xF0000000}},                         /* 201 episodes */
    {4, 3, {0x10000005, 0x70000000, 0xF0000000}},             /* neither a from word nor a to word */
    {5, 3, {0x10000005, 0x30000001, 0xF0000001}},             /* a to word before any from word */
    {6, 3, {0x10000005, 0x20000001, 0xF0000000}},             /* a from word without a to word */
    {7, 4, {0x10000005, 0x20000000, 0x30000005, 0xF0000001}}, /* episode 5 is not below 5 */
    {20, 3, {0x10000079, ZOHAPY_VOICES_WORD(0, 1), 0xF0000000}}, /* voices among 121 episodes */
    {7, 3, {0x10000005, ZOHAPY_VOICES_WORD(5, 2), 0xF0000000}}, /* voices of episode 5, which is not below 5 */
    {19, 3, {0x10000005, ZOHAPY_VOICES_WORD(3, 3), 0xF0000000}}, /* three voices */
    {21, 4, {0x10000005, ZOHAPY_VOICES_WORD(3, 2), ZOHAPY_VOICES_WORD(3, 2), 0xF0000000}}, /* voices of 3 again */
    {9, 4, {0x10000005, 0x20000000, 0x30000001, 0x30000002}}, /* no end */
    {10, 4, {0x10000005, 0x20000000, 0x30000001, 0xF0000000}}, /* the end says 0 and there is 1 */
};

/* 3 episodes and the links 0-1, 0-2 and 1-2. The path 0 1 2 stands beside the link 0-2. */
static const uint32_t beside[] = {0x10000003, 0x20000000, 0x30000001, 0x30000002, 0x20000001, 0x30000002, 0xF0000003};

/* 3 episodes and the link 0-2 with a pause of 20 minutes, 0-1 with one of 90 and again with one of 45. */
static const uint32_t paused[] = {
    0x10000003, 0x20000000, ZOHAPY_TO_WORD(2, 20), ZOHAPY_TO_WORD(1, 90), ZOHAPY_TO_WORD(1, 45), 0xF0000003,
};

/* Version 1, 3 episodes and the links 0-1 with a pause of 400 minutes and again with one of 200, and 1-2 with one of 361. In
 * version 1 that is too long: 1-2 does not count. */
static const uint32_t long_pauses[] = {
    ZOHAPY_HEAD_WORD(1, 3), 0x20000000, ZOHAPY_TO_WORD(1, 400), ZOHAPY_TO_WORD(1, 200), 0x20000001,
    ZOHAPY_TO_WORD(2, ZOHAPY_LONGEST_PAUSE + 1), 0xF0000003,
};

/* 4 episodes and the links 0-1, 1-2 and 1-3. 3 is a duet and 1 a door. */
static const uint32_t voiced[] = {
    0x10000004, ZOHAPY_VOICES_WORD(3, 2), ZOHAPY_VOICES_WORD(1, 0), 0x20000000, 0x30000001, 0x20000001, 0x30000002, 0x30000003,
    0xF0000003,
};

static const uint32_t loop[] = {0x10000002, 0x20000000, 0x30000001, 0x20000001, 0x30000000, 0xF0000002};

/* One episode, which is a door. */
static const uint32_t door[] = {0x10000001, ZOHAPY_VOICES_WORD(0, 0), 0xF0000000};

/* The bytes of a log, with room for one more than a log may have, and those of its text. */
static uint8_t bytes[33257];
static uint8_t text[ZOHAPY_TEXT_BYTES];

static uint32_t out[ZOHAPY_REPORT_WORDS_WITH_VOICES(5)];
static uint32_t copied[ZOHAPY_COPY_WORDS_WITH_VOICES(3, 2)];
static uint32_t work[ZOHAPY_WORK_WORDS];
static int failed = 0;

/* The number of a word. */
static uint32_t number_of(uint32_t word) { return word & 0x0FFFFFFF; }

/* Prints a line of a name and the numbers of words. */
static void print_numbers(const char *name, const uint32_t *words, size_t count) {
    printf("%s", name);
    for (size_t i = 0; i < count; i++)
        printf(" %" PRIu32, number_of(words[i]));
    printf("\n");
}

/* Prints a line of a name and words. */
static void print_words(const char *name, const uint32_t *words, size_t count) {
    printf("%s", name);
    for (size_t i = 0; i < count; i++)
        printf(" %08" PRIX32, words[i]);
    printf("\n");
}

/* Prints a line for each voices word and each to word of a log that has passed the reading: its episode and voices, or its link
 * and its pause. */
static void print_log(const uint32_t *log, size_t log_words) {
    uint32_t from = 0;
    for (size_t i = 1; i + 1 < log_words; i++) {
        if (log[i] >> 28 == 9)
            printf("voices of %" PRIu32 ": %" PRIu32 "\n", ZOHAPY_EPISODE(log[i]), ZOHAPY_VOICES(log[i]));
        else if (log[i] >> 28 == 2)
            from = number_of(log[i]);
        else
            printf("link %" PRIu32 "-%" PRIu32 " pause %" PRIu32 "\n", from, ZOHAPY_EPISODE(log[i]), ZOHAPY_PAUSE(log[i]));
    }
}

/* Prints the lines of a log's report, which must have one. */
static void print_report(const uint32_t *log, size_t log_words) {
    zohapy_read_answer reading = zohapy_read(log, log_words);
    zohapy_answer links = zohapy_links(log, log_words);
    zohapy_answer report = zohapy_report(log, log_words, out, WORDS(out), work, WORDS(work));
    if (reading.number != 0 || links.number != 0 || report.number != 0) {
        fprintf(stderr, "a report was meant\n");
        failed = 1;
        return;
    }
    /* There are as many threads as the width says. The members can be fewer, where they have two voices. */
    size_t width = number_of(out[0]);
    size_t members = 0;
    while (out[1 + members] >> 28 == 5)
        members++;
    printf("episodes %zu\nlinks %zu\nwidth %zu\n", reading.episodes, links.value, width);
    print_numbers("apart", out + 1, members);
    for (size_t i = 0; i < width; i++) {
        zohapy_thread_answer thread = zohapy_thread(out, report.value, i);
        print_numbers("thread", out + thread.start, thread.length);
    }
}

/* Prints a refusal, and checks its number. */
static void print_refusal(uint32_t meant, uint32_t number, size_t place) {
    printf("refused %" PRIu32 " at %zu\n", number, place);
    if (number != meant) {
        fprintf(stderr, "refusal %" PRIu32 " was meant\n", meant);
        failed = 1;
    }
}

/* The calls for a fair and for a trimmed copy. */
typedef zohapy_answer copying(const uint32_t *, size_t, uint32_t *, size_t, uint32_t *, size_t);

/* Prints a line of a name and the words of a copy of a log, which must have one. */
static void print_copy(const char *name, copying *call, const uint32_t *log, size_t log_words) {
    zohapy_answer copy = call(log, log_words, copied, WORDS(copied), work, WORDS(work));
    if (copy.number != 0) {
        fprintf(stderr, "a copy was meant: %s\n", name);
        failed = 1;
        return;
    }
    print_words(name, copied, copy.value);
}

/* Prints the text of the first bytes, and checks the number. */
static void print_text_of(uint32_t meant, size_t count) {
    zohapy_text_answer answer = zohapy_text(bytes, count, text, sizeof(text), out, WORDS(out), work, WORDS(work));
    fwrite(text, 1, answer.bytes, stdout);
    if (answer.number != meant) {
        fprintf(stderr, "a text with number %" PRIu32 " was meant\n", meant);
        failed = 1;
    }
}

/* The same of a log, from its bytes: four to a word, the lowest first. */
static void print_text(uint32_t meant, const uint32_t *log, size_t log_words) {
    for (size_t i = 0; i < 4 * log_words; i++)
        bytes[i] = (uint8_t)(log[i / 4] >> (8 * (i % 4)));
    print_text_of(meant, 4 * log_words);
}

int main(void) {
    print_report(whole, WORDS(whole));
    print_copy("copy", zohapy_fair_copy, whole, WORDS(whole));

    /* A link that is given twice is counted once. Of its pauses the fair copy has the least, and its to words rise by episode. */
    zohapy_read_answer reading = zohapy_read(paused, WORDS(paused));
    zohapy_answer links = zohapy_links(paused, WORDS(paused));
    if (reading.number != 0 || links.number != 0) {
        fprintf(stderr, "a log that passes was meant\n");
        return 1;
    }
    print_log(paused, WORDS(paused));
    printf("to words %zu\nlinks %zu\n", reading.links, links.value);
    print_copy("copy", zohapy_fair_copy, paused, WORDS(paused));

    /* The trimmed copy leaves out 0-2. */
    print_copy("trimmed", zohapy_trimmed_copy, beside, WORDS(beside));

    /* The fair copy keeps the version and the link that does not count; the trimmed copy is of version 0 without it. */
    printf("version %" PRIu32 " of %" PRIu32 " episodes\n", ZOHAPY_HEAD_VERSION(long_pauses[0]),
           ZOHAPY_HEAD_EPISODES(long_pauses[0]));
    print_report(long_pauses, WORDS(long_pauses));
    print_copy("copy", zohapy_fair_copy, long_pauses, WORDS(long_pauses));
    print_copy("trimmed", zohapy_trimmed_copy, long_pauses, WORDS(long_pauses));

    /* Two threads hold the duet 3, and another passes the door 1. The copies have the voices rising by episode. */
    print_log(voiced, WORDS(voiced));
    print_report(voiced, WORDS(voiced));
    print_copy("copy", zohapy_fair_copy, voiced, WORDS(voiced));
    print_copy("trimmed", zohapy_trimmed_copy, voiced, WORDS(voiced));

    for (size_t i = 0; i < WORDS(refused); i++) {
        zohapy_read_answer answer = zohapy_read(refused[i].words, refused[i].count);
        print_refusal(refused[i].number, answer.number, answer.place);
    }

    /* Reports with too short an output, for which a voices word asks for more, and with too few work words. None changes a
     * word. */
    zohapy_answer answer = zohapy_report(whole, WORDS(whole), out, ZOHAPY_REPORT_WORDS(5) - 1, work, WORDS(work));
    print_refusal(11, answer.number, answer.value);
    answer = zohapy_report(voiced, WORDS(voiced), out, ZOHAPY_REPORT_WORDS(4), work, WORDS(work));
    print_refusal(11, answer.number, answer.value);
    answer = zohapy_report(whole, WORDS(whole), out, WORDS(out), work, WORDS(work) - 1);
    print_refusal(12, answer.number, answer.value);

    /* A log with a loop: its episodes stand behind the first output word. The loop is no report. */
    answer = zohapy_report(loop, WORDS(loop), out, WORDS(out), work, WORDS(work));
    print_refusal(13, answer.number, answer.value);
    print_numbers("loop", out + 1, number_of(out[0]));
    print_refusal(16, zohapy_thread(out, answer.value + 1, 0).number, 0);

    /* It has no trimmed copy: the call shows the loop too. */
    answer = zohapy_trimmed_copy(loop, WORDS(loop), copied, WORDS(copied), work, WORDS(work));
    print_refusal(13, answer.number, answer.value);
    print_numbers("loop", copied + 1, number_of(copied[0]));

    /* A report of one thread, and the call for a second one. */
    const uint32_t one[] = {0x40000001, 0x50000000, 0x60000001, 0x70000000, 0xF0000004};
    print_refusal(17, zohapy_thread(one, WORDS(one), 1).number, 0);

    /* Texts, from bytes. A log that is refused has a text too, and so has one whose bytes are refused. */
    print_text(0, whole, WORDS(whole));
    print_text(0, door, WORDS(door));
    print_text(13, loop, WORDS(loop));
    print_text(10, refused[WORDS(refused) - 1].words, refused[WORDS(refused) - 1].count);
    print_text_of(14, sizeof(bytes));
    print_text_of(15, 7);

    /* A text buffer that is too short gets none, and no byte and no word has changed. */
    zohapy_text_answer none = zohapy_text(bytes, 8, text, sizeof(text) - 1, out, WORDS(out), work, WORDS(work));
    print_refusal(11, none.number, none.value);
    return none.bytes == 0 ? failed : 1;
}
