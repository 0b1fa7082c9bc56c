/* The sleeper report: the seven services of the proved library, for C. Link build/libzohapy.a.
 *
 * A log is an array of 32-bit words; a word's top 4 bits are its kind and its low 28 bits its number. The number of the head,
 * of kind 1, is the log's version, 0 or 1, in bits 24 to 27 and n, how many episodes there are, in bits 0 to 23. That of a to
 * word, of kind 3, is the later episode of a link in bits 0 to 15 and the pause between its two episodes, in minutes, in bits
 * 16 to 27; no other word has a pause. In version 0 every link counts, in version 1 one whose least pause, over all to words
 * that give it, is at most 360 minutes. To words of links that do not count are read as others are.
 *
 * Voices words, of kind 9, may stand between the head and the first from word, in any order, where there are at most 120
 * episodes. The number of one is an episode in bits 0 to 15 and its voices, 0, 1 or 2, in bits 16 to 27: 2 for a duet, 0 for a
 * door. An episode without a voices word has 1. Of a log that passes, the word behind the head is of kind 9 exactly where it
 * has voices words.
 *
 * Every call ends with an answer or one numbered refusal, on any content and length. A pointer must be aligned and not null,
 * also where the length is 0, and no two arrays may share a word or a byte. Nothing is allocated, and nothing is kept between
 * calls. */
#ifndef ZOHAPY_H
#define ZOHAPY_H

#include <stddef.h>
#include <stdint.h>

#ifdef __cplusplus
extern "C" {
#endif

/* The version of the library. */
#define ZOHAPY_VERSION "0.9.0"

/* The work words that a report, a copy or a text needs. */
#define ZOHAPY_WORK_WORDS 16384

/* The bytes that the text buffer needs. Every text fits. */
#define ZOHAPY_TEXT_BYTES 42640

/* The output words that a report on n episodes needs, and a fair or a trimmed copy of a log with t to words, where the log has
 * no voices words. */
#define ZOHAPY_REPORT_WORDS(n) (2 + 2 * (size_t)(n) + ((size_t)(n) + 1) * ((size_t)(n) + 1) / 4)
#define ZOHAPY_COPY_WORDS(t) (2 + 2 * (size_t)(t))

/* The same where it has voices words, v of them, whatever they say. For every log that passes ZOHAPY_REPORT_WORDS(200), which is
 * 10,502, and ZOHAPY_COPY_WORDS_WITH_VOICES(4096, 120), which is 8,314, are enough. */
#define ZOHAPY_REPORT_WORDS_WITH_VOICES(n) \
    (2 + 3 * (size_t)(n) + 2 * (((size_t)(n) + 1) * ((size_t)(n) + 1) / 4))
#define ZOHAPY_COPY_WORDS_WITH_VOICES(t, v) (2 + 2 * (size_t)(t) + (size_t)(v))

/* The longest pause, in minutes, with which a link counts in version 1. */
#define ZOHAPY_LONGEST_PAUSE 360

/* The most episodes of a log with voices words, and the most voices of an episode. */
#define ZOHAPY_MOST_WITH_VOICES 120
#define ZOHAPY_MOST_VOICES 2

/* The version and the episodes of a head, and the head of a version below 16 and of episodes below 16,777,216. */
#define ZOHAPY_HEAD_VERSION(word) (((uint32_t)(word) >> 24) & 0xFu)
#define ZOHAPY_HEAD_EPISODES(word) ((uint32_t)(word) & 0xFFFFFFu)
#define ZOHAPY_HEAD_WORD(version, episodes) (0x10000000u | ((uint32_t)(version) << 24) | (uint32_t)(episodes))

/* The later episode and the pause of a to word, and the to word of an episode below 65,536 and a pause below 4,096. */
#define ZOHAPY_EPISODE(word) ((uint32_t)(word) & 0xFFFFu)
#define ZOHAPY_PAUSE(word) (((uint32_t)(word) >> 16) & 0xFFFu)
#define ZOHAPY_TO_WORD(episode, pause) (0x30000000u | ((uint32_t)(pause) << 16) | (uint32_t)(episode))

/* The voices of a voices word, of which ZOHAPY_EPISODE is the episode, and the voices word of an episode below 65,536 and of
 * voices below 4,096. */
#define ZOHAPY_VOICES(word) (((uint32_t)(word) >> 16) & 0xFFFu)
#define ZOHAPY_VOICES_WORD(episode, voices) (0x90000000u | ((uint32_t)(voices) << 16) | (uint32_t)(episode))

typedef struct {
    uint32_t number; /* 0, or the refusal's number, 1 to 10 or 18 to 21 */
    size_t place;    /* the refusal's place, in words from 0; else 0 */
    size_t episodes; /* n, where number is 0; else 0 */
    size_t links;    /* the count of to words, repeats and links that do not count included, where number is 0; else 0 */
} zohapy_read_answer;

typedef struct {
    uint32_t number; /* 0, or the refusal's number, 1 to 13 or 18 to 21 */
    size_t value;    /* the count of words written, or the link count, where number is 0; else the refusal's place */
} zohapy_answer;

typedef struct {
    uint32_t number; /* 0, 16: no whole report, or 17: no thread i */
    size_t start;    /* the place of the thread's first step in the report, where number is 0; else 0 */
    size_t length;   /* how many steps it has, where number is 0; else 0 */
} zohapy_thread_answer;

typedef struct {
    uint32_t number; /* 0, or the refusal's number, 1 to 15 or 18 to 21 */
    size_t value;    /* the count of the report's words, where number is 0; else the refusal's place */
    size_t bytes;    /* how many bytes the text has; 0 only where the text buffer is too short */
} zohapy_text_answer;

/* Reads a log: questions 1 to 10, and after 2 question 18: whether the version is 0 or 1. Of the head question 3 looks at the
 * episodes alone, and so does question 7 of a to word and of a voices word. Of each voices word between head and first from
 * word it is asked, in this order: 20, whether there are at most 120 episodes; 7; 19, whether its voices are at most 2; 21,
 * whether no voices word before it is of its episode. Behind a from word a voices word is refused by 4. */
zohapy_read_answer zohapy_read(const uint32_t *log, size_t log_words);

/* The link count of a log, as it is printed: how many different links that count it has, a link being an ordered pair of
 * episodes. A link that is given again is counted once; pauses matter only for which links count, voices not at all. It asks the
 * questions of the reading, so a log with a loop has a link count too. */
zohapy_answer zohapy_links(const uint32_t *log, size_t log_words);

/* The report on a log, by the links that count and the voices: a smallest path cover, in which at least as many threads pass each
 * episode as it has voices, and the right-most heaviest antichain of episodes that have voices. Its first word, of kind 4, gives
 * the count of threads, which is the sum of the members' voices; 0 to as many words of kind 5 give the members. The threads
 * stand in the members' order, for each member as many as it has voices. Pauses matter only for which links count. Refusals 1 to
 * 12 and 18 to 21 change no word. After 0 the output begins with the report, after 13 with a loop of links that count: a word of
 * kind 8 with its length, which is also the place, and its episodes. The output is unchanged behind them, the first 16,384 work
 * words are zero, and the others unchanged. */
zohapy_answer zohapy_report(const uint32_t *log, size_t log_words, uint32_t *out, size_t out_words, uint32_t *work,
                            size_t work_words);

/* The fair copy of a log: its version, a voices word for each episode that has other voices than 1, rising by episode, and each
 * link once, whether it counts or not, with its least pause, its to words rising by episode. It is one form for all logs with the
 * same version, the same n, the same voices of each episode, the same set of links and the same least pause of each. Refusals 1
 * to 12 and 18 to 21 change no word. After 0 the output begins with the copy; the rest of both buffers is as after a report. */
zohapy_answer zohapy_fair_copy(const uint32_t *log, size_t log_words, uint32_t *out, size_t out_words, uint32_t *work,
                               size_t work_words);

/* The trimmed copy of a log without loops: in the layout of the fair copy, with the same voices words, of version 0 and with
 * pause 0, only those links A-B that count and for which no other path of links that count leads from A to B. It is one form for
 * all such logs, of either version, with the same n, the same voices of each episode and the same ways. Refusals 1 to 12 and 18
 * to 21 change no word. After 0 the output begins with the copy, after 13 with a loop as after a report; the rest of both buffers
 * is as after a report. */
zohapy_answer zohapy_trimmed_copy(const uint32_t *log, size_t log_words, uint32_t *out, size_t out_words, uint32_t *work,
                                  size_t work_words);

/* The steps of thread i of a report, counted from 0: report[start] to report[start + length - 1], each a word of kind 7. The
 * words are a whole report if they have its layout: kind 4 with k, 0 to k words of kind 5, k threads, and the end. */
zohapy_thread_answer zohapy_thread(const uint32_t *report, size_t report_words, size_t i);

/* The printed text of a log, from its bytes: four to a word, the lowest first; they need no alignment. Asked before all else
 * is whether the text buffer has ZOHAPY_TEXT_BYTES bytes. Where it has fewer, the answer is 11 with value 42640 and 0 bytes,
 * and no byte and no word of the three buffers changes. Then 14: whether the log has at most 33,256 bytes, the place being
 * 33256; and 15: whether their count is a multiple of four, the place being the count. 14 and 15 change no word. Otherwise
 * number and value are those of a report on the words with the same output and work words, which are left as that leaves them.
 * The text buffer begins with the text, which no zero byte ends, and is unchanged behind it. The text of a report has the
 * lines episodes, links (the link count), width and apart, and a line thread for each thread; that of a refusal the line
 * refused N at P, and after 13 the line loop with the episodes of the loop. A line is its name, the figures with one space
 * before each, and a newline; figures are decimal without leading zeros. */
zohapy_text_answer zohapy_text(const uint8_t *log, size_t log_bytes, uint8_t *text, size_t text_bytes, uint32_t *out,
                               size_t out_words, uint32_t *work, size_t work_words);

#ifdef __cplusplus
}
#endif

#endif
