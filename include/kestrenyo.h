/*
 * Kestrenyo: a build planner whose every answer is proved. From ninja manifests, the header lists that a compiler left, a card
 * of file times and a list of targets it decides which steps to run, in which order, and what each one's command says. It runs
 * nothing itself.
 *
 * The library is libkestrenyo.a (in dist/, or by `tools/archive kestrenyo`), for x86-64 Linux. It needs memcpy and memset
 * alone, keeps nothing between calls, allocates nothing, opens nothing and never fails to return: any bytes get an answer.
 *
 * Stack: a call takes KESTRENYO_STACK bytes of the calling thread's stack at most. On a smaller stack it ends in a fault at
 * the guard page, not in a wrong answer.
 *
 * Threads: calls share nothing, so any number of threads may call at a time, each with buffers of its own.
 *
 * Pointers: each points to as many bytes or numbers as the length after it says, and may be NULL where that is 0. A lent
 * buffer overlaps no input and no other buffer.
 */
#ifndef KESTRENYO_H
#define KESTRENYO_H

#include <stddef.h>
#include <stdint.h>

#ifdef __cplusplus
extern "C" {
#endif

/* The least list buffer, in numbers, and the least text buffer, in bytes. */
#define KESTRENYO_LIST 512
#define KESTRENYO_TEXT 8192

/* The stack that a call may take, in bytes. */
#define KESTRENYO_STACK (640 * 1024)

/* Which text is wanted of a step. */
#define KESTRENYO_COMMAND 0
#define KESTRENYO_DESCRIPTION 1

/*
 * What a call says. number 0: value is the count of steps listed, of bytes written, or of texts written. Any other number is
 * a refusal, and text and value its place: with text 0, value is a number by itself; else value is an offset in the text of
 * the bundle's record text - 1. So 3 to 10 and a line's 19 tell record and offset, all others a number:
 *
 *    1  the lent buffer is below KESTRENYO_LIST numbers or KESTRENYO_TEXT bytes (place 0)
 *    2  the texts of the bundle have over 49,152 bytes together (place 0)
 *    3  a forbidden byte (0, tab, carriage return): its place; or no newline at a text's end: the text's length
 *    4  a line fits no form: where it starts, as for all up to 10 but 5
 *    5  a bad `$`: its place
 *    6  a keyword or key that is not yet in this edition
 *    7  an unknown rule, a rule declared twice, a key twice or unknown in a rule, no `command`
 *    8  an empty path, an output made twice, a default that is no earlier output
 *    9  over a limit: 512 steps, 1,024 files, 128 rules, 1,024 bindings, 4,096 path mentions, names of 64 bytes, paths of 255,
 *       values of 2,048, all paths and values 60,000 bytes together
 *   10  the required version is malformed or above 1.5.0
 *   11  the time card is not sound (place 0)
 *   12  the target list is malformed, or has a name that the manifest never mentions: where it starts in the list
 *   13  steps exist, but no target, no default, and every output is some input (place 0)
 *   14  the needed steps have no order: the length of the circle that the list buffer shows
 *   15  a needed source is missing: its file number, counted from 0 by first mention
 *   16  a rule's text, or a depfile's name, leads back to itself: the step
 *   17  the text, or a depfile's name, has over 8,192 bytes: the step; a status line: 0
 *   18  there is no such step, or it is phony: the step
 *   19  the bundle is malformed (place 0); or a line opens a file that is not in the bundle, a ninth at a time, or a 65th in
 *       all: where the line starts
 *   20  the bundle of header lists is malformed (place 0); or a step's list is malformed, its first target is not the step's
 *       first output, or what it lists goes over a limit of 9: the step
 *   21  a `%` of a status format begins no placeholder: its place in the format
 */
struct kestrenyo_said {
    size_t number;
    size_t text;
    size_t value;
};

/*
 * The plan: the numbers of the steps to run, counted from 0 as read, in their order. Refusals 1 to 17, 19 and 20; 16 and 17
 * are of the name of a step's depfile.
 *
 * bundle: the manifests by name, the top file first, then those that it and others open by `include NAME` and
 * `subninja NAME`. Numbers are little-endian. Four of 4 bytes: the count n of files (1 to 64), 16, 16 + 16n, the bundle's
 * whole length. Then a record of four numbers of 4 bytes for each file: where its name starts in what follows the records,
 * the name's length, 1 to 255, where its text starts there, the text's length. Then all names, end to end in record order,
 * none twice, and all texts likewise. One manifest alone is lent under any name; the program's is build.ninja.
 *
 * headers: the texts that a compiler left, each by the path that a step's `depfile` expands to, without quotes. The layout is
 * the bundle's, with 0 to 512 records; with none it is 16 bytes: 0, 16, 16, 16. A text is one rule with blank lines around it:
 * targets, a colon, names between spaces. A backslash before a space or a `#` gives that byte, before a newline it is a space,
 * `$$` gives `$`. What stands behind the first colon are further inputs of the step. A step whose depfile is not there is
 * stale, and so is one with a listed file that is missing and that no step makes. A text that no step names is not read.
 *
 * card: numbers are little-endian. Four of 4 bytes: the count n of files (1,024 at most), 16, 16 + 16n, the card's whole
 * length (49,152 at most). Then a record for each file: where its name starts in the names (4 bytes), the name's length, 1 to
 * 255 (4 bytes), its time, 1 to 2^63 - 1 (8 bytes). Then the names, end to end, rising by bytes. A file that is not on the
 * card is missing.
 *
 * targets: names of files, each ended by a newline, 4,096 bytes at most. With none, the manifests' defaults, and without
 * those every output that is no step's input.
 *
 * list: after an answer it starts with the steps, after a 14 with those of a circle, each of which has an input that the next
 * makes, and the last one that the first makes; all beyond is zero. After another refusal all of it is zero, but 1 touches
 * nothing.
 */
struct kestrenyo_said kestrenyo_plan(const uint8_t *bundle, size_t bundle_len, const uint8_t *headers, size_t headers_len,
                                     const uint8_t *card, size_t card_len, const uint8_t *targets, size_t targets_len,
                                     uint32_t *list, size_t list_len);

/*
 * A text of a step: its command where wanted is KESTRENYO_COMMAND, its description where it is any other number. The names
 * of its files stand in it as a shell reads them back: one of other bytes than letters, digits and _ + - . / in single quotes,
 * a single quote inside as quote, backslash, quote, quote. Refusals 1 to 10 and 16 to 19.
 *
 * buffer: after an answer it starts with the text, which no 0 ends, and all beyond is zero. After a refusal all of it is zero,
 * but 1 touches nothing.
 */
struct kestrenyo_said kestrenyo_text(const uint8_t *bundle, size_t bundle_len, size_t step, size_t wanted,
                                     uint8_t *buffer, size_t buffer_len);

/*
 * The texts of many steps, each as kestrenyo_text gives it, by one reading of the bundle. Refusals 1 to 10 and 16 to 19.
 *
 * steps: any numbers, any count of them, in any order, one of them several times if wanted. They are gone through in this
 * order. The first whose text is refused makes its refusal that of the call. The first whose text does not fit into what is
 * left of bytes, or whose end has no place in ends, ends the call: the texts before it are the answer, and no step behind it
 * is looked at. So value is the number of texts written, 1 at least where there is a step and a place in ends, and a further
 * call for the steps from there on gives the next ones.
 *
 * bytes: KESTRENYO_TEXT bytes at least, else 1. After an answer it starts with the texts, end to end, and all beyond is zero.
 * Of a buffer of over 2^32 - 1 bytes no more than that is used.
 *
 * ends: any length. After an answer it starts with where each text ends in bytes, counted from the start of bytes, and all
 * beyond is zero.
 *
 * After a refusal all of both is zero, but 1 touches nothing.
 */
struct kestrenyo_said kestrenyo_texts(const uint8_t *bundle, size_t bundle_len, const uint32_t *steps, size_t steps_len,
                                      size_t wanted, uint8_t *bytes, size_t bytes_len, uint32_t *ends, size_t ends_len);

/*
 * How far a build is, by value. kestrenyo_status makes one, the functions below give the next one, and nothing is kept
 * anywhere else. Times are milliseconds from the start of the build; one above 86,400,000 counts as that, one earlier than
 * the last as the last. elapsed and both rates are doubles, one rounding to each operation; a rate is unknown where its
 * flag is 0. window has the last sixteen finish times in milliseconds, the newest first.
 *
 * Any numbers are taken. More started than total count as total, more finished than started as those started, a time past
 * the day as the day; the doubles are taken as they are.
 */
struct kestrenyo_status {
    uint32_t total, jobs, started, finished;
    uint32_t last;
    uint32_t overall_known, current_known;
    double elapsed, overall, current;
    double window[16];
};

/* Before the first event: so many steps, and so many jobs at once. */
struct kestrenyo_status kestrenyo_status(uint32_t total, uint32_t jobs);

/* A step starts; one past the total changes nothing. A step finishes; with none running it changes nothing. */
struct kestrenyo_status kestrenyo_status_started(struct kestrenyo_status status, uint64_t milliseconds);
struct kestrenyo_status kestrenyo_status_finished(struct kestrenyo_status status, uint64_t milliseconds);

/* The clock moved to the time of printing, by which `%e` and `%o` go. */
struct kestrenyo_status kestrenyo_status_at(struct kestrenyo_status status, uint64_t milliseconds);

/*
 * The line of a status as it stands, by a format with the placeholders of the ninja manual: %s started, %t total, %p percent
 * started, %r running, %u not started, %f finished, %o and %c the overall and the current rate (steps a second in tenths,
 * `?` where unknown), %e the elapsed seconds with three decimals, %% a `%`. Refusals 1, then 21, then 17.
 *
 * buffer: as kestrenyo_text's.
 */
struct kestrenyo_said kestrenyo_status_line(struct kestrenyo_status status, const uint8_t *format, size_t format_len,
                                            uint8_t *buffer, size_t buffer_len);

#ifdef __cplusplus
}
#endif

#endif
