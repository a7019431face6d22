/*
 * notice.h: reads hospital notices written in Markdown. C99 and C++.
 *
 * A notice ("the note") is at most NOTICE_LIMIT bytes of UTF-8 text with LF line ends, without byte 0 and byte 13 (CR). It need
 * not end in a byte 0. Beside it a second text under the same limits is lent, the sheet: link reference definitions that many
 * notes share. Three entries read the two, and one compares labels:
 *
 *   notice_read         finds the definitions of both texts, and the note's links, images and code spans
 *   notice_render       does the same and writes the page, the HTML of the note's paragraphs
 *   notice_resolve      finds the destination that the two give to a label
 *   notice_same_label   says whether two labels are equal
 *
 * The definitions of both are one list: the note's in the order of the note, then the sheet's in the order of the sheet. A label
 * means the first definition in that list with an equal label, so that one in the note comes before any in the sheet. Nothing else
 * of the sheet counts: its own paragraphs are ignored. Each text is read by itself; no definition starts in the one and goes on in
 * the other.
 *
 * The sheet may be empty, that is, of length 0. Then the answers are those of the note alone, each definition row behind a
 * leading 0, and the text they name is NOTICE_NOTE.
 *
 * Labels are equal if their bytes agree after each character was folded, spaces, tabs and LFs at both ends were dropped, and each run
 * of them inside became one space. Backslashes are kept. Characters are folded by Unicode's CaseFolding 15.0, rows C and F, from
 * U+0000 to U+052F: A to Z, and Latin, Greek and Cyrillic letters become small ones, and a few become several, as U+00DF "ss". Later
 * characters match only themselves, U+1E9E, U+2126 and U+212A among them, and so does a byte that stands in no good character. Only
 * labels are folded, and the 999 characters of a label are counted before.
 *
 * An image is written as a link with "!" before its first bracket, and its tail is read as a link's. Its description, which stands
 * between its two brackets, may hold links, images and code spans. A link may hold images and code spans, but no link at any depth, in
 * its images neither. "\!" is an escape, after which a bracket opens no image; of "!!" before a bracket the second opens one with it.
 *
 * notice_read and notice_render take a setting, `release`: 0 is no, any other number yes. With yes, for a note that goes out, they
 * refuse definitions that conflict. Two definitions conflict if their labels are equal and they differ in the bytes of the
 * destination, in the bytes of the title, or in that only one has a title; both may stand in the note, both in the sheet, or one in
 * each. The bytes are compared as they are written, backslashes kept, without the delimiters around them: <b> and b are one
 * destination, "t" and (t) one title, and an empty title is a title. Repeats that are the same in all this are not refused.
 *
 * Places are counted in bytes from the start of the text in which they lie, from 0. A part of a text is given by two places: its
 * start, and its end, which is the place of the first byte after it. A part that is absent is 0, 0. The line of a place is one more
 * than the LFs before it in its own text, so that lines count from 1 in each. A text is named by a number, NOTICE_NOTE or
 * NOTICE_SHEET.
 *
 *
 * Memory
 *
 * A buffer is lent for the call only; nothing of it is kept. It is given by a pointer and a length. The length of a note, a
 * sheet, a label or a page counts bytes; the length of a table counts 32-bit numbers, not rows.
 *
 * - The pointer is valid for the whole length, and aligned for its type. The memory has been written before the call; with
 *   what does not matter.
 * - Where the length is 0, nothing is read or written through the pointer, and it may be NULL.
 * - `answer` is never NULL: it points to as many numbers as the declaration says. All of them are stored by every call.
 * - A buffer that the call may write to shares no byte with any other buffer of the call. Notes, sheets and labels are only read:
 *   they may overlap, and may be one and the same memory.
 * - Until the call returns nothing else writes to any of the buffers, and nothing else reads those that the call may write to.
 *
 * Nothing else is asked of the caller: every note, sheet, label, setting and length has an answer, and every call ends.
 * What the tables and the page buffer hold before the call does not matter.
 *
 * The library has no state, allocates no memory and calls nothing but memset and memcpy. Any number of threads may call it at
 * once, each with buffers of its own.
 *
 *
 * Cost
 *
 * Stack: a call takes less than 272 KiB for itself, and notice_render less than 328 KiB, whatever the texts (229,888 bytes at most
 * for notice_read, 295,648 for notice_render, 672 for notice_resolve, 256 for notice_same_label). Of notice_read's and
 * notice_render's 65,538 are the list of the note's paragraphs, 51,884 an index of over 256 definitions, and up to 65,532 more are
 * taken while it is built; a note of at most 4,096 bytes and a few definitions takes less. 65,536 of notice_render's are the table of
 * the places where links, images and code spans start. It was measured on the notes of the benchmark, beside their sheets and as their
 * own sheets, by running each entry on a stack that was marked before; the library's tests do so again.
 *
 * Time: reading costs what the lengths of the note and the sheet cost, and the page its own length besides. It was measured on virtual
 * cores of an AMD EPYC (x86-64), with release no, with 367,596 notes of the longest size beside an empty sheet, made of short words to be
 * slow: repeated, alone and after definitions, one after the other, around a text as deep as brackets may go, between what opens and
 * closes links and images, and in rising runs. The slowest took 95 ns a byte, 3.1 ms, with other work on the machine, but for two
 * single times of 190 where the other entry took 60 on the same note. No sheet beside an empty note was among the ten slowest. The slowest enquiry, for a label of 990 blanks, took 51 ns a byte of the two texts on an Intel Xeon,
 * before there was an index, which it does not use. The search counts 150 ns a byte, 5 ms for the longest note, as the most that a call
 * may take.
 *
 * Lookup is no exception: where a call looks up over three labels among over 16 definitions, it builds an index of them once, in which
 * a label is found by its key and a search by halves. 500 definitions and as many references to them as fit took 0.4 ms. Texts of
 * up to 10,922 definitions, the most that two can have, with labels chosen to be slow, as with one key for all, took at most some 110
 * ns a byte of the two texts. With release yes each definition is looked up too, by the index: definitions alone took at most
 * 2.4 times as long as with no. notice_resolve looks up one label, and compares it with one definition after the other.
 *
 * Tables with room to spare save time. Definitions are stored as they are found, and not counted before, where a third as many rows
 * are lent as the two texts have bytes (10,922 rows for 32,768 bytes in both); spans where as many rows are lent as the note's
 * paragraphs have "]" and runs of backticks, and their bytes show that fewer than NOTICE_DEPTH brackets can stay open.
 *
 * A comparison of two labels costs what they have in common: labels of 999 characters took 4 ns where they differ in the first, some
 * 50 ns where these are beyond ASCII, and 0.5 to 4 us where they are equal, 1.4 to 9 us in Cyrillic letters, and 17 us for U+00DF with
 * "SS".
 *
 *
 * Answers
 *
 * Each entry that reads a note returns the number of its answer, 0 or that of a refusal, and stores the numbers that go with it in
 * `answer`. On a refusal answer[0] is the value in this table. The last number of `answer` is the text that the answer names: the
 * one that a refusal 1 or 2 is about, the one where a destination lies that notice_resolve found, and NOTICE_NOTE for every other
 * answer. The other numbers are 0 on a refusal.
 *
 * The first refusal that applies is the answer: 1 of the note, 2 of the note, 1 of the sheet, 2 of the sheet, and then 3, 9, 4, 5, 6
 * in this order; notice_resolve has 8 and then 7 after those of the two texts. notice_same_label refuses nothing.
 *
 *   number  returned by    exactly when                                                value
 *   0       all            none of the others applies                                  see the entry
 *   1       all            the text is longer than NOTICE_LIMIT bytes                  its length
 *   2       all            the text has byte 0 or 13, or ill-formed UTF-8              where the first bad character starts in it
 *   3       read, render   fewer whole definition rows are lent than both texts have   rows needed, for both
 *                          definitions
 *   4       read, render   some paragraph of the note has over NOTICE_DEPTH brackets   place of the first bracket too many: its "["
 *                          open at once, "[" and "![" alike
 *   5       read, render   fewer whole span rows are lent than spans                   rows needed
 *   6       render         the page buffer is shorter than the HTML                    bytes needed
 *   7       resolve        no definition has an equal label                            0
 *   8       resolve        the bytes given are not exactly one label, or have byte 0   0
 *                          or 13 or ill-formed UTF-8
 *   9       read, render   release is yes and two definitions conflict                 number of the first definition that conflicts
 *                                                                                      with an earlier one, from 1, as its row counts
 */
#ifndef NOTICE_H
#define NOTICE_H

#include <stddef.h>
#include <stdint.h>

#ifdef __cplusplus
extern "C" {
#endif

/* The most bytes that a note may have, and a sheet; and the most brackets that may be open at once in a paragraph. */
#define NOTICE_LIMIT 32768
#define NOTICE_DEPTH 1024

/* The numbers of the two texts. */
#define NOTICE_NOTE 0
#define NOTICE_SHEET 1

/* The numbers of an answer. */
#define NOTICE_OK 0
#define NOTICE_TOO_LONG 1
#define NOTICE_BAD_TEXT 2
#define NOTICE_FEW_DEFINITION_ROWS 3
#define NOTICE_TOO_DEEP 4
#define NOTICE_FEW_SPAN_ROWS 5
#define NOTICE_SHORT_PAGE 6
#define NOTICE_UNDEFINED 7
#define NOTICE_NO_LABEL 8
#define NOTICE_CONFLICT 9

/*
 * A definition row is eight numbers. Definition k, counted from 1, is the row at definitions + (k - 1) * NOTICE_DEFINITION_WIDTH.
 * All definitions stand there, the note's and then the sheet's, each in the order of its text, repeats too. NOTICE_DEFINITION_TEXT
 * is the text where the definition stands, NOTICE_NOTE or NOTICE_SHEET: the places and the line of the row lie in that text. The
 * label is without its brackets, the destination and the title without their delimiters. NOTICE_DEFINITION_LINE is the line of the
 * label's opening bracket.
 */
#define NOTICE_DEFINITION_WIDTH 8

#define NOTICE_DEFINITION_TEXT 0
#define NOTICE_DEFINITION_LABEL_START 1
#define NOTICE_DEFINITION_LABEL_END 2
#define NOTICE_DEFINITION_DESTINATION_START 3
#define NOTICE_DEFINITION_DESTINATION_END 4
#define NOTICE_DEFINITION_TITLE_START 5
#define NOTICE_DEFINITION_TITLE_END 6
#define NOTICE_DEFINITION_LINE 7

/*
 * A span row is eleven numbers. The rows stand in increasing order of NOTICE_SPAN_END, so that an image comes after what it holds.
 * Spans are the note's: their places and lines lie in it. A span runs from its opening bracket or backtick, an image from its "!", to
 * the end of its tail or closing backticks. The text of a link or an image lies between its two brackets, that of a code span between
 * the backtick strings. NOTICE_SPAN_DEFINITION is the number of the definition that a reference uses, from 1, as its row counts; 0 for
 * a code span and an inline link or image. The destination and the title of a reference are those of that definition, and their places
 * lie in the text that its row names; those of an inline link or image lie in the note. NOTICE_SPAN_LINE is the line of the span's
 * start.
 */
#define NOTICE_SPAN_WIDTH 11

#define NOTICE_SPAN_KIND 0
#define NOTICE_SPAN_START 1
#define NOTICE_SPAN_END 2
#define NOTICE_SPAN_TEXT_START 3
#define NOTICE_SPAN_TEXT_END 4
#define NOTICE_SPAN_DEFINITION 5
#define NOTICE_SPAN_DESTINATION_START 6
#define NOTICE_SPAN_DESTINATION_END 7
#define NOTICE_SPAN_TITLE_START 8
#define NOTICE_SPAN_TITLE_END 9
#define NOTICE_SPAN_LINE 10

/* The kinds of a span: `code`, [text](destination), [text][label], [label][], [label]. */
#define NOTICE_CODE_SPAN 1
#define NOTICE_INLINE 2
#define NOTICE_FULL 3
#define NOTICE_COLLAPSED 4
#define NOTICE_SHORTCUT 5

/* Those of images: ![text](destination), ![text][label], ![label][], ![label]. */
#define NOTICE_INLINE_IMAGE 6
#define NOTICE_FULL_IMAGE 7
#define NOTICE_COLLAPSED_IMAGE 8
#define NOTICE_SHORTCUT_IMAGE 9

/*
 * Reads the note and the sheet and fills the two tables, or refuses. `release` is 0 for no, any other number for yes.
 *
 * answer[0]  on success 0; on a refusal the value in the table above
 * answer[1]  on success the count of definitions in both texts, else 0
 * answer[2]  on success the count of spans, else 0
 * answer[3]  after 1 and 2 the text that is refused, else NOTICE_NOTE
 *
 *   after    the definition table                    the span table
 *   0        its rows, the rest as before the call   its rows, the rest as before the call
 *   1, 2, 3  as before the call                      as before the call
 *   9, 4, 5  its rows, the rest as before the call   as before the call
 *
 * Answer 9 names NOTICE_NOTE wherever its definition stands: the text and the line of that are in its row.
 *
 * To learn how many rows a note and a sheet need, lend none: answer 3 tells the definition rows, and with these lent answer 5 tells
 * the span rows.
 */
uint32_t notice_read(const uint8_t *note, size_t note_len, const uint8_t *sheet, size_t sheet_len, uint32_t release,
                     uint32_t *definitions, size_t definitions_len, uint32_t *spans, size_t spans_len, uint64_t answer[4]);

/*
 * Reads the note and the sheet, fills the two tables and writes the note's page, or refuses. `release` is 0 for no, any other number
 * for yes.
 *
 * answer[0]  on success 0; on a refusal the value in the table above
 * answer[1]  on success the count of definitions in both texts, else 0
 * answer[2]  on success the count of spans, else 0
 * answer[3]  on success the length of the HTML, else 0
 * answer[4]  after 1 and 2 the text that is refused, else NOTICE_NOTE
 *
 *   after    the definition table                    the span table                          the page buffer
 *   0        its rows, the rest as before the call   its rows, the rest as before the call   the HTML, the rest as before the call
 *   1, 2, 3  as before the call                      as before the call                      as before the call
 *   9, 4, 5  its rows, the rest as before the call   as before the call                      as before the call
 *   6        its rows, the rest as before the call   its rows, the rest as before the call   as before the call
 *
 * An image is <img src="D" alt="A" title="T" />, where D and T are as for a link, without the last attribute where there is no title or
 * an empty one. A is what its description would be on the page, without tags: text with escapes undone, the content of code spans, the
 * text of links, the A of images.
 *
 * No byte 0 is written after the HTML. To learn how long the page is, lend a page buffer of length 0: answer 6 tells it.
 */
uint32_t notice_render(const uint8_t *note, size_t note_len, const uint8_t *sheet, size_t sheet_len, uint32_t release,
                       uint32_t *definitions, size_t definitions_len, uint32_t *spans, size_t spans_len, uint8_t *page,
                       size_t page_len, uint64_t answer[5]);

/*
 * Finds the destination that the note or, where it has none, the sheet gives to a label: that of the first definition with an equal
 * label, the note's before the sheet's. The label is given without its brackets.
 *
 * answer[0]  on success the destination's start; on a refusal the value in the table above
 * answer[1]  on success the destination's start, else 0
 * answer[2]  on success the destination's end, else 0
 * answer[3]  on success the text in which the destination lies; after 1 and 2 the text that is refused; else NOTICE_NOTE
 *
 * The destination is the part of that text from answer[1] to answer[2], as it stands there, backslashes kept. It may be empty. Only
 * the number that is returned tells an empty destination from a refusal.
 */
uint32_t notice_resolve(const uint8_t *note, size_t note_len, const uint8_t *sheet, size_t sheet_len, const uint8_t *label,
                        size_t label_len, uint64_t answer[4]);

/*
 * Compares two labels, each given without its brackets: returns 1 if they are equal, else 0.
 *
 * Any bytes of any length are compared, those too that are no label: spaces, tabs and LFs alone are equal to each other and to an
 * empty label. Equal labels that notice_resolve does not refuse with NOTICE_NO_LABEL get one answer from it, in every note with every
 * sheet. The bytes are read in step, up to the first difference, and nothing is copied.
 */
uint32_t notice_same_label(const uint8_t *a, size_t a_len, const uint8_t *b, size_t b_len);

#ifdef __cplusplus
}
#endif

#endif
