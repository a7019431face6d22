/* Runs the entries of notice.h on the whole example of document 01, alone and with its definition in a sheet, on every refusal of each
 * text, on empty buffers, on texts of several lines, on definitions that conflict and on images, each with release no and yes, and
 * compares each number and all lent memory with what documents 01 and 02 say. Writes "ok", or what differs, and then exits with 1. */
#include "notice.h"

#include <stdio.h>
#include <string.h>

/* What each lent number holds before a call: no place, kind, count or line of the notes here. */
#define GUARD 99999

/* What each byte of a page holds before a call: no byte of a page here. */
#define GUARD_BYTE 7

/* The numbers of a row of each table. */
#define DEFINITION NOTICE_DEFINITION_WIDTH
#define SPAN NOTICE_SPAN_WIDTH

/* The numbers of each table, three rows and part of another, and the bytes of a page. */
#define DEFINITIONS (3 * DEFINITION + 2)
#define SPANS (3 * SPAN + 3)
#define PAGE 96

/* A note and a sheet, and what is to be read in them; `conflict` is the number of the first definition that conflicts with an earlier
 * one, 0 for none. */
struct sample {
    const char *name;
    const uint8_t *note;
    size_t note_len;
    const uint8_t *sheet;
    size_t sheet_len;
    uint32_t definitions[3][DEFINITION];
    size_t definition_count;
    uint64_t conflict;
    uint32_t spans[3][SPAN];
    size_t span_count;
    const char *html;
};

/* What is lent to a call: numbers of each table, and bytes of a page. */
struct lent {
    size_t definitions;
    size_t spans;
    size_t page;
};

/* What a call is to answer, and whether each table, and the page, then hold what the sample says. */
struct wanted {
    uint32_t number;
    uint64_t value;
    uint64_t text;
    int defined;
    int spanned;
    int paged;
};

static const uint8_t EXAMPLE[] = "[max]: /q2/max \"June\"\n\nUse [max].\n";
static const char HTML[] = "<p>Use <a href=\"/q2/max\" title=\"June\">max</a>.</p>\n";
static const size_t FIRST_LINE = 22;
static const size_t WITHOUT_TITLE = 14;

/* The numbers that the setting is given as, the first for no, the others for yes. */
static const uint32_t RELEASES[] = {0, 1, 2, 256, 65536, 0x80000000u, UINT32_MAX};

static uint8_t room[NOTICE_LIMIT + 1];
static uint8_t more_room[NOTICE_LIMIT + 1];
static int failures = 0;

static void same(const char *what, const char *which, uint64_t got, uint64_t wanted) {
    if (got != wanted) {
        printf("%s: %s is %llu, not %llu\n", what, which, (unsigned long long)got, (unsigned long long)wanted);
        failures++;
    }
}

/* An answer of so many numbers; the one after them is the guard. */
static void same_answer(const char *what, const uint64_t *got, const uint64_t *wanted, size_t size) {
    size_t i;
    for (i = 0; i < size; i++) {
        same(what, "a number of the answer", got[i], wanted[i]);
    }
    same(what, "the number after the answer", got[size], GUARD);
}

/* The table starts with so many numbers of `rows`; every other number is the guard. */
static void same_table(const char *what, const char *which, const uint32_t *table, size_t size, const uint32_t *rows, size_t used) {
    size_t i;
    for (i = 0; i < size; i++) {
        same(what, which, table[i], i < used ? rows[i] : GUARD);
    }
}

static void guard(uint32_t *table, size_t size) {
    size_t i;
    for (i = 0; i < size; i++) {
        table[i] = GUARD;
    }
}

static void same_tables(const struct sample *sample, const uint32_t *definitions, const uint32_t *spans, struct wanted wanted) {
    size_t defined = wanted.defined ? sample->definition_count * DEFINITION : 0;
    size_t spanned = wanted.spanned ? sample->span_count * SPAN : 0;
    same_table(sample->name, "the definition table", definitions, DEFINITIONS, sample->definitions[0], defined);
    same_table(sample->name, "the span table", spans, SPANS, sample->spans[0], spanned);
}

/* What a call is to answer with this setting, which answers `wanted` with no: refusal 9 comes after 3. */
static struct wanted released(const struct sample *sample, uint32_t release, struct wanted wanted) {
    struct wanted conflict = {NOTICE_CONFLICT, sample->conflict, NOTICE_NOTE, 1, 0, 0};
    int before = wanted.number >= NOTICE_TOO_LONG && wanted.number <= NOTICE_FEW_DEFINITION_ROWS;
    return release == 0 || sample->conflict == 0 || before ? wanted : conflict;
}

static void read_with(const struct sample *sample, uint32_t release, struct lent lent, struct wanted wanted) {
    uint32_t definitions[DEFINITIONS];
    uint32_t spans[SPANS];
    uint64_t answer[5] = {GUARD, GUARD, GUARD, GUARD, GUARD};
    uint64_t numbers[4] = {wanted.value, 0, 0, wanted.text};
    if (wanted.number == NOTICE_OK) {
        numbers[1] = sample->definition_count;
        numbers[2] = sample->span_count;
    }
    guard(definitions, DEFINITIONS);
    guard(spans, SPANS);
    same(sample->name, "the reader's number",
         notice_read(sample->note, sample->note_len, sample->sheet, sample->sheet_len, release,
                     lent.definitions == 0 ? NULL : definitions, lent.definitions, lent.spans == 0 ? NULL : spans, lent.spans, answer),
         wanted.number);
    same_answer(sample->name, answer, numbers, 4);
    same_tables(sample, definitions, spans, wanted);
}

/* With each setting; `wanted` is for no. */
static void read_case(const struct sample *sample, struct lent lent, struct wanted wanted) {
    size_t i;
    for (i = 0; i < sizeof RELEASES / sizeof RELEASES[0]; i++) {
        read_with(sample, RELEASES[i], lent, released(sample, RELEASES[i], wanted));
    }
}

static void render_with(const struct sample *sample, uint32_t release, struct lent lent, struct wanted wanted) {
    uint32_t definitions[DEFINITIONS];
    uint32_t spans[SPANS];
    uint8_t page[PAGE];
    uint64_t answer[6] = {GUARD, GUARD, GUARD, GUARD, GUARD, GUARD};
    uint64_t numbers[5] = {wanted.value, 0, 0, 0, wanted.text};
    size_t i;
    if (wanted.number == NOTICE_OK) {
        numbers[1] = sample->definition_count;
        numbers[2] = sample->span_count;
        numbers[3] = strlen(sample->html);
    }
    guard(definitions, DEFINITIONS);
    guard(spans, SPANS);
    memset(page, GUARD_BYTE, PAGE);
    same(sample->name, "the page writer's number",
         notice_render(sample->note, sample->note_len, sample->sheet, sample->sheet_len, release,
                       lent.definitions == 0 ? NULL : definitions, lent.definitions, lent.spans == 0 ? NULL : spans, lent.spans,
                       lent.page == 0 ? NULL : page, lent.page, answer),
         wanted.number);
    same_answer(sample->name, answer, numbers, 5);
    same_tables(sample, definitions, spans, wanted);
    for (i = 0; i < PAGE; i++) {
        same(sample->name, "the page", page[i], wanted.paged && i < strlen(sample->html) ? (uint8_t)sample->html[i] : GUARD_BYTE);
    }
}

/* With each setting; `wanted` is for no. */
static void render_case(const struct sample *sample, struct lent lent, struct wanted wanted) {
    size_t i;
    for (i = 0; i < sizeof RELEASES / sizeof RELEASES[0]; i++) {
        render_with(sample, RELEASES[i], lent, released(sample, RELEASES[i], wanted));
    }
}

static void resolve_case(const struct sample *sample, const char *label, size_t label_len, uint32_t number, uint64_t value,
                         uint64_t end, uint64_t text) {
    uint64_t answer[5] = {GUARD, GUARD, GUARD, GUARD, GUARD};
    uint64_t numbers[4] = {value, number == NOTICE_OK ? value : 0, end, text};
    const char *what = label == NULL ? "no label" : label;
    same(what, "the enquiry's number",
         notice_resolve(sample->note, sample->note_len, sample->sheet, sample->sheet_len, (const uint8_t *)label, label_len, answer),
         number);
    same_answer(what, answer, numbers, 4);
}

/* Of each thing that is lent too little, just enough, and more. */
static void lending_cases(const struct sample *sample) {
    size_t rows = sample->definition_count * DEFINITION;
    size_t spans = sample->span_count * SPAN;
    size_t page = strlen(sample->html);
    struct wanted good = {NOTICE_OK, 0, NOTICE_NOTE, 1, 1, 1};
    struct wanted few_rows = {NOTICE_FEW_DEFINITION_ROWS, sample->definition_count, NOTICE_NOTE, 0, 0, 0};
    struct wanted few_spans = {NOTICE_FEW_SPAN_ROWS, sample->span_count, NOTICE_NOTE, 1, 0, 0};
    struct wanted short_page = {NOTICE_SHORT_PAGE, page, NOTICE_NOTE, 1, 1, 0};
    struct {
        struct lent lent;
        struct wanted read;
        struct wanted rendered;
    } cases[] = {
        {{rows, spans, page}, good, good},
        {{DEFINITIONS, SPANS, PAGE}, good, good},
        {{rows - 1, SPANS, PAGE}, few_rows, few_rows},
        {{0, 0, 0}, few_rows, few_rows},
        {{rows, spans - 1, PAGE}, few_spans, few_spans},
        {{DEFINITIONS, 0, 0}, few_spans, few_spans},
        {{rows, spans, page - 1}, good, short_page},
        {{rows, spans, 0}, good, short_page},
    };
    size_t i;
    for (i = 0; i < sizeof cases / sizeof cases[0]; i++) {
        read_case(sample, cases[i].lent, cases[i].read);
        render_case(sample, cases[i].lent, cases[i].rendered);
    }
}

/* The whole example: by itself, with its definition in a sheet, and as its own sheet, which then has the same memory or a part of it. */
static void whole_example(void) {
    static const uint8_t apart[] = "Use [max].\n";
    struct sample sample = {"the whole example", EXAMPLE, sizeof EXAMPLE - 1, NULL, 0,
                            {{NOTICE_NOTE, 1, 4, 7, 14, 16, 20, 1}, {NOTICE_SHEET, 1, 4, 7, 14, 16, 20, 1}}, 1, 0,
                            {{NOTICE_SHORTCUT, 27, 32, 28, 31, 1, 7, 14, 16, 20, 3}}, 1, HTML};
    struct sample in_sheet = {"the definition in the sheet", apart, sizeof apart - 1, EXAMPLE, FIRST_LINE,
                              {{NOTICE_SHEET, 1, 4, 7, 14, 16, 20, 1}}, 1, 0,
                              {{NOTICE_SHORTCUT, 4, 9, 5, 8, 1, 7, 14, 16, 20, 1}}, 1, HTML};
    same("the whole example", "its length", sample.note_len, 34);
    same("the whole example", "the length of its page", strlen(HTML), 51);
    lending_cases(&sample);
    lending_cases(&in_sheet);
    sample.name = "the example as its own sheet";
    sample.sheet = sample.note;
    sample.sheet_len = sample.note_len;
    sample.definition_count = 2;
    lending_cases(&sample);
    sample.name = "a part of the example as its sheet";
    sample.sheet_len = FIRST_LINE;
    lending_cases(&sample);
}

/* Definitions of one label in both texts, each text over lines of its own. */
static void both_texts(void) {
    static const uint8_t note[] = "[max]: /n\n\n[max] [min]";
    static const uint8_t sheet[] = "\n\n[min]: /s \"S\"\n[MAX]: /t\n\n[no link](x)";
    static const struct sample sample = {
        "both texts", note, sizeof note - 1, sheet, sizeof sheet - 1,
        {{NOTICE_NOTE, 1, 4, 7, 9, 0, 0, 1}, {NOTICE_SHEET, 3, 6, 9, 11, 13, 14, 3}, {NOTICE_SHEET, 17, 20, 23, 25, 0, 0, 4}}, 3, 3,
        {{NOTICE_SHORTCUT, 11, 16, 12, 15, 1, 7, 9, 0, 0, 3}, {NOTICE_SHORTCUT, 17, 22, 18, 21, 2, 9, 11, 13, 14, 3}}, 2,
        "<p><a href=\"/n\">max</a> <a href=\"/s\" title=\"S\">min</a></p>\n"};
    lending_cases(&sample);
    resolve_case(&sample, "Max", 3, NOTICE_OK, 7, 9, NOTICE_NOTE);
    resolve_case(&sample, "Min", 3, NOTICE_OK, 9, 11, NOTICE_SHEET);
    resolve_case(&sample, "no link", 7, NOTICE_UNDEFINED, 0, 0, NOTICE_NOTE);
}

/* Definitions of one label that differ, and one that is the same in other delimiters. */
static void conflicts(void) {
    static const uint8_t p12[] = "[foo]\n\n[foo]: first\n[foo]: second";
    static const uint8_t repeat[] = "[a]: /x 't'\n[A]: </x> (t)\n\n[a]";
    static const uint8_t empty_title[] = "[a]: /x \"\"\n[a]: /x\n\n[a]";
    static const uint8_t titled[] = "[a]: /x 't'\n\n[a]";
    static const uint8_t other_title[] = "[b]: /x\n[a]: /x 'u'";
    static const uint8_t cites[] = "[a]";
    static const uint8_t in_sheet[] = "[a]: /1\n[b]: /2\n[a]: /3";
    static const struct sample samples[] = {
        {"P12", p12, sizeof p12 - 1, NULL, 0, {{NOTICE_NOTE, 8, 11, 14, 19, 0, 0, 3}, {NOTICE_NOTE, 21, 24, 27, 33, 0, 0, 4}}, 2, 2,
         {{NOTICE_SHORTCUT, 0, 5, 1, 4, 1, 14, 19, 0, 0, 1}}, 1, "<p><a href=\"first\">foo</a></p>\n"},
        {"a repeat", repeat, sizeof repeat - 1, NULL, 0,
         {{NOTICE_NOTE, 1, 2, 5, 7, 9, 10, 1}, {NOTICE_NOTE, 13, 14, 18, 20, 23, 24, 2}}, 2, 0,
         {{NOTICE_SHORTCUT, 27, 30, 28, 29, 1, 5, 7, 9, 10, 4}}, 1, "<p><a href=\"/x\" title=\"t\">a</a></p>\n"},
        {"an empty title and none", empty_title, sizeof empty_title - 1, NULL, 0,
         {{NOTICE_NOTE, 1, 2, 5, 7, 9, 9, 1}, {NOTICE_NOTE, 12, 13, 16, 18, 0, 0, 2}}, 2, 2,
         {{NOTICE_SHORTCUT, 20, 23, 21, 22, 1, 5, 7, 9, 9, 4}}, 1, "<p><a href=\"/x\">a</a></p>\n"},
        {"titles in both texts", titled, sizeof titled - 1, other_title, sizeof other_title - 1,
         {{NOTICE_NOTE, 1, 2, 5, 7, 9, 10, 1}, {NOTICE_SHEET, 1, 2, 5, 7, 0, 0, 1}, {NOTICE_SHEET, 9, 10, 13, 15, 17, 18, 2}}, 3, 3,
         {{NOTICE_SHORTCUT, 13, 16, 14, 15, 1, 5, 7, 9, 10, 3}}, 1, "<p><a href=\"/x\" title=\"t\">a</a></p>\n"},
        {"a conflict in the sheet", cites, sizeof cites - 1, in_sheet, sizeof in_sheet - 1,
         {{NOTICE_SHEET, 1, 2, 5, 7, 0, 0, 1}, {NOTICE_SHEET, 9, 10, 13, 15, 0, 0, 2}, {NOTICE_SHEET, 17, 18, 21, 23, 0, 0, 3}}, 3, 3,
         {{NOTICE_SHORTCUT, 0, 3, 1, 2, 1, 5, 7, 0, 0, 1}}, 1, "<p><a href=\"/1\">a</a></p>\n"},
    };
    size_t i;
    for (i = 0; i < sizeof samples / sizeof samples[0]; i++) {
        lending_cases(&samples[i]);
    }
}

/* A definition and a link, each over lines, and two code spans. */
static void over_lines(void) {
    static const uint8_t note[] = "\n\n[a\nb]:\nc\n[d\n`e\nf`](g) `h`";
    static const struct sample sample = {
        "lines", note, sizeof note - 1, NULL, 0, {{NOTICE_NOTE, 3, 6, 9, 10, 0, 0, 3}}, 1, 0,
        {{NOTICE_CODE_SPAN, 14, 19, 15, 18, 0, 0, 0, 0, 0, 7}, {NOTICE_INLINE, 11, 23, 12, 19, 0, 21, 22, 0, 0, 6},
         {NOTICE_CODE_SPAN, 24, 27, 25, 26, 0, 0, 0, 0, 0, 8}}, 3,
        "<p><a href=\"g\">d\n<code>e f</code></a> <code>h</code></p>\n"};
    lending_cases(&sample);
}

/* Images of each kind, images and links inside each other; the sheet has a definition. */
static void images(void) {
    static const uint8_t sheet[] = "[s]: /s";
    static const uint8_t references[] = "![x][s] ![s][] ![S]";
    static const uint8_t in_image[] = "![a ![b](c)](d 't')";
    static const uint8_t in_link[] = "[![a](b)](c)";
    static const uint8_t around_link[] = "[![[a](b)](c)](d)";
    static const uint8_t none[] = "\\![s] !\\[s] ![t]";
    static const struct sample samples[] = {
        {"references to images", references, sizeof references - 1, sheet, sizeof sheet - 1,
         {{NOTICE_SHEET, 1, 2, 5, 7, 0, 0, 1}}, 1, 0,
         {{NOTICE_FULL_IMAGE, 0, 7, 2, 3, 1, 5, 7, 0, 0, 1}, {NOTICE_COLLAPSED_IMAGE, 8, 14, 10, 11, 1, 5, 7, 0, 0, 1},
          {NOTICE_SHORTCUT_IMAGE, 15, 19, 17, 18, 1, 5, 7, 0, 0, 1}}, 3,
         "<p><img src=\"/s\" alt=\"x\" /> <img src=\"/s\" alt=\"s\" /> <img src=\"/s\" alt=\"S\" /></p>\n"},
        {"an image in an image", in_image, sizeof in_image - 1, sheet, sizeof sheet - 1, {{NOTICE_SHEET, 1, 2, 5, 7, 0, 0, 1}}, 1, 0,
         {{NOTICE_INLINE_IMAGE, 4, 11, 6, 7, 0, 9, 10, 0, 0, 1}, {NOTICE_INLINE_IMAGE, 0, 19, 2, 11, 0, 13, 14, 16, 17, 1}}, 2,
         "<p><img src=\"d\" alt=\"a b\" title=\"t\" /></p>\n"},
        {"an image in a link", in_link, sizeof in_link - 1, sheet, sizeof sheet - 1, {{NOTICE_SHEET, 1, 2, 5, 7, 0, 0, 1}}, 1, 0,
         {{NOTICE_INLINE_IMAGE, 1, 8, 3, 4, 0, 6, 7, 0, 0, 1}, {NOTICE_INLINE, 0, 12, 1, 8, 0, 10, 11, 0, 0, 1}}, 2,
         "<p><a href=\"c\"><img src=\"b\" alt=\"a\" /></a></p>\n"},
        {"no link around a link in an image", around_link, sizeof around_link - 1, sheet, sizeof sheet - 1,
         {{NOTICE_SHEET, 1, 2, 5, 7, 0, 0, 1}}, 1, 0,
         {{NOTICE_INLINE, 3, 9, 4, 5, 0, 7, 8, 0, 0, 1}, {NOTICE_INLINE_IMAGE, 1, 13, 3, 9, 0, 11, 12, 0, 0, 1}}, 2,
         "<p>[<img src=\"c\" alt=\"a\" />](d)</p>\n"},
        {"no image", none, sizeof none - 1, sheet, sizeof sheet - 1, {{NOTICE_SHEET, 1, 2, 5, 7, 0, 0, 1}}, 1, 0,
         {{NOTICE_SHORTCUT, 2, 5, 3, 4, 1, 5, 7, 0, 0, 1}}, 1, "<p>!<a href=\"/s\">s</a> ![s] ![t]</p>\n"},
    };
    size_t i;
    for (i = 0; i < sizeof samples / sizeof samples[0]; i++) {
        lending_cases(&samples[i]);
    }
}

/* All three entries refuse the two texts, and leave what they are lent as it was. */
static void refused(const char *name, const uint8_t *note, size_t note_len, const uint8_t *sheet, size_t sheet_len, uint32_t number,
                    uint64_t value, uint64_t text) {
    struct sample sample = {name, note, note_len, sheet, sheet_len, {{0}}, 0, 0, {{0}}, 0, ""};
    struct lent lent = {DEFINITIONS, SPANS, PAGE};
    struct wanted wanted = {number, value, text, 0, 0, 0};
    read_case(&sample, lent, wanted);
    render_case(&sample, lent, wanted);
    resolve_case(&sample, "max", 3, number, value, 0, text);
}

static void refused_texts(void) {
    static const uint8_t bad[] = {'a', 0xc3, 0xa9, 0xc3};
    static const uint8_t cr[] = {'a', 13};
    static const uint8_t conflicting[] = "[a]: b\n[a]: c";
    size_t size = sizeof EXAMPLE - 1;
    memset(room, 'a', sizeof room);
    memset(more_room, '[', sizeof more_room);
    refused("a note too long", room, sizeof room, EXAMPLE, size, NOTICE_TOO_LONG, sizeof room, NOTICE_NOTE);
    refused("a sheet too long", EXAMPLE, size, room, sizeof room, NOTICE_TOO_LONG, sizeof room, NOTICE_SHEET);
    refused("both too long", room, sizeof room, more_room, sizeof more_room, NOTICE_TOO_LONG, sizeof room, NOTICE_NOTE);
    refused("bad text in the note", bad, sizeof bad, NULL, 0, NOTICE_BAD_TEXT, 3, NOTICE_NOTE);
    refused("bad text in the sheet", NULL, 0, bad, sizeof bad, NOTICE_BAD_TEXT, 3, NOTICE_SHEET);
    refused("a CR in the sheet", EXAMPLE, size, cr, sizeof cr, NOTICE_BAD_TEXT, 1, NOTICE_SHEET);
    refused("byte 0 in the sheet", EXAMPLE, size, EXAMPLE, sizeof EXAMPLE, NOTICE_BAD_TEXT, size, NOTICE_SHEET);
    refused("bad text in both", bad, sizeof bad, cr, sizeof cr, NOTICE_BAD_TEXT, 3, NOTICE_NOTE);
    refused("bad note, long sheet", cr, sizeof cr, room, sizeof room, NOTICE_BAD_TEXT, 1, NOTICE_NOTE);
    refused("a conflict, bad sheet", conflicting, sizeof conflicting - 1, cr, sizeof cr, NOTICE_BAD_TEXT, 1, NOTICE_SHEET);
    refused("too deep, bad sheet", more_room, NOTICE_DEPTH + 1, cr, sizeof cr, NOTICE_BAD_TEXT, 1, NOTICE_SHEET);
}

/* The reader alone, with these texts, where neither has a span. */
static void plain(const char *name, size_t note_len, const uint8_t *sheet, size_t sheet_len, uint32_t number, uint64_t value) {
    struct sample sample = {name, room, note_len, sheet, sheet_len, {{0}}, 0, 0, {{0}}, 0, ""};
    struct lent lent = {0, 0, 0};
    struct wanted wanted = {number, value, NOTICE_NOTE, 0, 0, 0};
    read_case(&sample, lent, wanted);
}

/* What may be in a text at most, and one more; the note's brackets are counted, the sheet's are not. */
static void limits(void) {
    struct sample deep = {"a definition in each text, and 1,025 brackets", room, 0, EXAMPLE, 0,
                          {{NOTICE_NOTE, 1, 4, 7, 14, 16, 20, 1}, {NOTICE_SHEET, 1, 4, 7, 14, 16, 20, 1}}, 2, 0, {{0}}, 0, ""};
    struct lent lent = {DEFINITIONS, SPANS, PAGE};
    struct wanted wanted = {NOTICE_TOO_DEEP, 0, NOTICE_NOTE, 1, 0, 0};
    size_t i;
    memset(room, 'a', sizeof room);
    memset(more_room, '[', sizeof more_room);
    plain("no note and no sheet", 0, NULL, 0, NOTICE_OK, 0);
    plain("the longest note and sheet", NOTICE_LIMIT, more_room, NOTICE_LIMIT, NOTICE_OK, 0);
    memset(room, '[', sizeof room);
    plain("1,024 brackets", NOTICE_DEPTH, more_room, NOTICE_DEPTH + 1, NOTICE_OK, 0);
    plain("1,025 brackets", NOTICE_DEPTH + 1, NULL, 0, NOTICE_TOO_DEEP, NOTICE_DEPTH);
    for (i = 0; i < NOTICE_DEPTH; i++) {
        room[2 * i] = '!';
    }
    plain("1,024 image openings", 2 * NOTICE_DEPTH, NULL, 0, NOTICE_OK, 0);
    plain("1,024 image openings and a bracket", 2 * NOTICE_DEPTH + 1, NULL, 0, NOTICE_TOO_DEEP, 2 * NOTICE_DEPTH);
    room[2 * NOTICE_DEPTH] = '!';
    plain("1,025 image openings", 2 * NOTICE_DEPTH + 2, NULL, 0, NOTICE_TOO_DEEP, 2 * NOTICE_DEPTH + 1);
    memset(room, '[', sizeof room);
    memcpy(room, EXAMPLE, sizeof EXAMPLE - 1);
    deep.note_len = sizeof EXAMPLE + NOTICE_DEPTH;
    deep.sheet_len = FIRST_LINE;
    wanted.value = deep.note_len - 1;
    read_case(&deep, lent, wanted);
    render_case(&deep, lent, wanted);
    deep.name = "a conflict, and 1,025 brackets";
    deep.sheet_len = WITHOUT_TITLE;
    deep.definitions[1][NOTICE_DEFINITION_TITLE_START] = 0;
    deep.definitions[1][NOTICE_DEFINITION_TITLE_END] = 0;
    deep.conflict = 2;
    read_case(&deep, lent, wanted);
    render_case(&deep, lent, wanted);
}

static void enquiries(void) {
    static const uint8_t empty[] = "[a]: <>";
    struct sample sample = {"an enquiry", EXAMPLE, sizeof EXAMPLE - 1, NULL, 0, {{0}}, 0, 0, {{0}}, 0, ""};
    resolve_case(&sample, "max", 3, NOTICE_OK, 7, 14, NOTICE_NOTE);
    resolve_case(&sample, (const char *)EXAMPLE + 1, 3, NOTICE_OK, 7, 14, NOTICE_NOTE);
    resolve_case(&sample, "\n MAX", 5, NOTICE_OK, 7, 14, NOTICE_NOTE);
    resolve_case(&sample, "min", 3, NOTICE_UNDEFINED, 0, 0, NOTICE_NOTE);
    resolve_case(&sample, NULL, 0, NOTICE_NO_LABEL, 0, 0, NOTICE_NOTE);
    resolve_case(&sample, "[max]", 5, NOTICE_NO_LABEL, 0, 0, NOTICE_NOTE);
    sample.sheet = empty;
    sample.sheet_len = sizeof empty - 1;
    resolve_case(&sample, "A", 1, NOTICE_OK, 6, 6, NOTICE_SHEET);
    sample.note = NULL;
    sample.note_len = 0;
    resolve_case(&sample, "a", 1, NOTICE_OK, 6, 6, NOTICE_SHEET);
    resolve_case(&sample, "max", 3, NOTICE_UNDEFINED, 0, 0, NOTICE_NOTE);
}

/* Compares the two labels both ways. */
static void same_label_case(const char *a, size_t a_len, const char *b, size_t b_len, uint32_t number) {
    same(a == NULL ? "no bytes" : a, "the comparison", notice_same_label((const uint8_t *)a, a_len, (const uint8_t *)b, b_len), number);
    same(b == NULL ? "no bytes" : b, "the comparison", notice_same_label((const uint8_t *)b, b_len, (const uint8_t *)a, a_len), number);
}

static void same_labels(void) {
    const char *example = (const char *)EXAMPLE;
    same_label_case("max", 3, "max", 3, 1);
    same_label_case("max", 3, "MAX", 3, 1);
    same_label_case("max", 3, "min", 3, 0);
    same_label_case("max", 3, "max rate", 8, 0);
    same_label_case(" Max\t\nrate\n", 11, "max RATE", 8, 1);
    same_label_case("max\\!", 5, "max!", 4, 0);
    same_label_case("max\0", 4, "max", 3, 0);
    same_label_case("\377\n\200", 3, "\377 \200 ", 4, 1);
    /* Alpha in both cases, a sharp s and SS, the ohm sign and omega, a lead byte alone before alpha. */
    same_label_case("\316\221", 2, "\316\261", 2, 1);
    same_label_case("\303\237", 2, "SS", 2, 1);
    same_label_case("\342\204\246", 3, "\317\211", 2, 0);
    same_label_case("\316\316\221", 3, "\316\316\261", 3, 1);
    same_label_case(NULL, 0, "", 0, 1);
    same_label_case(NULL, 0, " \t\n", 3, 1);
    same_label_case(NULL, 0, NULL, 0, 1);
    same_label_case(NULL, 0, "a", 1, 0);
    same_label_case(example + 1, 3, example + 28, 3, 1);
    same_label_case(example, 34, example, 34, 1);
}

int main(void) {
    whole_example();
    both_texts();
    conflicts();
    over_lines();
    images();
    refused_texts();
    limits();
    enquiries();
    same_labels();
    if (failures != 0) {
        return 1;
    }
    printf("ok\n");
    return 0;
}
