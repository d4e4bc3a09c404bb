/* The screen called from C: answers a stream of cases, a line each, in the form of bin/nightly, so that bin/c-example can
   compare the lines with the second program's. A case is a header line of words parted by tabs, then as many bytes as its
   last word says (of field FIXED bytes before them):

     judge FLOW LENGTH    value FLOW RECORD FIELD LENGTH    field TYPE MARK FIXED LENGTH    sum LENGTH
     step FLOW LENGTH     write FLOW ROOM LENGTH            read FLOW ROOM LENGTH              index FLOW ROOM LENGTH
     import ROOM LENGTH   export FLOW ROOM LENGTH           period FLOW PERIOD LENGTH

   FLOW is a flow's name, or that, a space and an edition. ROOM is a number of bytes, for index of entries. The line of an index
   is followed by a line for each entry.

   With the word `codes` it makes the calls that no case can state; codes.expected has their answers. It includes no header
   of the C library, so that any C compiler for x86-64 Linux will do. */
#include "screen.h"

int getchar(void);
int putchar(int c);
int printf(const char *form, ...);
int sscanf(const char *s, const char *form, ...);
int strcmp(const char *a, const char *b);

enum { MOST = 1114112, ASKED = 1000000000, FOLLOW = 96, ENTRIES = 8192 };

struct word { char *at; screen_size len; };

static char line[4096];
static struct word word[5];
static int words;
static screen_byte body[2 * MOST], room[MOST];
static screen_cell answer[4], cells[4 * ENTRIES];

/* What a lent byte holds before a call. */
static screen_byte pattern(screen_size place) { return (screen_byte)(place * 167 + 13); }

/* Fills the cells and so many bytes of room, so that it shows what a call leaves as it was. */
static void lend(screen_size size) {
    for (int i = 0; i < 4; i++) answer[i] = 77;
    for (screen_size i = 0; i < size; i++) room[i] = pattern(i);
}

/* 1 where all lent bytes from a place on are as before. */
static int kept(screen_size from, screen_size size) {
    for (screen_size i = from; i < size; i++)
        if (room[i] != pattern(i)) return 0;
    return 1;
}

/* What a lent cell holds before a call: no number of an index is so great. */
static screen_cell cell_pattern(screen_size place) { return ~(screen_cell)pattern(place); }

static void lend_cells(void) {
    for (screen_size i = 0; i < 4 * ENTRIES; i++) cells[i] = cell_pattern(i);
}

/* 1 where all cells from a place on are as before, those that were not lent too. */
static int cells_kept(screen_size from) {
    for (screen_size i = from; i < 4 * ENTRIES; i++)
        if (cells[i] != cell_pattern(i)) return 0;
    return 1;
}

/* ---- the answers' lines */

/* Says so of a cell that should be 0 and is not. No right line holds such words, so the comparison fails. */
static void rest_is_zero(int first) {
    for (int i = first; i < 4; i++)
        if (answer[i] != 0) printf("(cell %d is not 0)", i);
}

/* A word for a cell that is 0 or 1. */
static const char *either(screen_cell cell, const char *no, const char *yes) {
    return cell == 0 ? no : cell == 1 ? yes : "(neither 0 nor 1)";
}

static void put_bytes(const screen_byte *bytes, screen_size len) {
    for (screen_size i = 0; i < len; i++) putchar(bytes[i]);
}

/* Prints a refusal and answers 1, where there is one. */
static int refused(void) {
    if (answer[0] == 0) return 0;
    printf("refused\t%lu\t%lu\t%lu\t%lu", answer[0], answer[1], answer[2], answer[3]);
    return 1;
}

/* Prints a value; the places of a text are places in the bytes. */
static void put_value(const screen_byte *bytes) {
    if (refused()) return;
    switch (answer[1]) {
    case 1: printf("ok\t0\tempty\t"); rest_is_zero(2); break;
    case 2: printf("ok\t0\tnumber\t%s%lu", either(answer[3], "", "-"), answer[2]); break;
    case 3: printf("ok\t0\ttruth\t%s", either(answer[2], "F", "T")); rest_is_zero(3); break;
    case 4: printf("ok\t0\ttext\t"); put_bytes(bytes + answer[2], answer[3] - answer[2]); break;
    default: printf("(no such value)");
    }
}

/* ---- a call of each function */

static void judge(struct word flow, screen_size len) {
    lend(0);
    screen_judge((screen_byte *)flow.at, flow.len, body, len, answer);
    if (refused()) return;
    printf("ok\t0\t%lu\t0\t0", answer[1]);
    rest_is_zero(2);
}

/* Prints what was made in so many bytes of room, or a refusal. */
static void put_made(screen_size size) {
    if (refused()) {
        printf("\t%d", kept(0, size));
        return;
    }
    printf("ok\t0\t%lu\t%lu\t0\t%d", answer[1], answer[2], kept(answer[2], size));
    rest_is_zero(3);
    putchar('\n');
    put_bytes(room, answer[2]);
}

/* screen_write, screen_read and screen_export take and leave the same. */
typedef void transfer_call(const screen_byte *, screen_size, const screen_byte *, screen_size, screen_byte *, screen_size,
                           screen_cell *);

static void transfer(transfer_call *call, struct word flow, screen_size size, screen_size len) {
    lend(size);
    call((screen_byte *)flow.at, flow.len, body, len, room, size, answer);
    put_made(size);
}

static void import(screen_size size, screen_size len) {
    lend(size);
    screen_import(body, len, room, size, answer);
    put_made(size);
}

static void value(struct word flow, screen_size record, screen_size field, screen_size len) {
    lend(0);
    screen_value((screen_byte *)flow.at, flow.len, body, len, record, field, answer);
    put_value(body);
}

static void period(struct word flow, screen_size asked, screen_size len) {
    lend(0);
    screen_period((screen_byte *)flow.at, flow.len, body, len, asked, answer);
    put_value(body);
}

static void field(screen_code type, screen_size p, screen_size q, screen_code mark, screen_size fixed, screen_size len) {
    lend(0);
    screen_field(type, p, q, mark, body, fixed, body + fixed, len, answer);
    put_value(body + fixed);
}

static void step(struct word flow, screen_size len) {
    lend(FOLLOW);
    screen_step((screen_byte *)flow.at, flow.len, body, len, room, answer);
    screen_size named = answer[0] == 0 && answer[1] == 0 ? 3 * answer[2] : 0;
    if (!kept(named, FOLLOW)) printf("(follow is not as before)");
    if (refused()) return;
    if (answer[1] != 0) {
        printf("stopped\t0\t%lu\t0", answer[1]);
        rest_is_zero(2);
        return;
    }
    printf("ok\t0\t%s\t", either(answer[3], "open", "complete"));
    put_bytes(room, named);
}

static void index_file(struct word flow, screen_size count, screen_size len) {
    lend(0);
    lend_cells();
    screen_index((screen_byte *)flow.at, flow.len, body, len, cells, count, answer);
    if (refused()) {
        printf("\t%d", cells_kept(0));
        return;
    }
    printf("ok\t0\t%lu\t%lu\t0\t%d", answer[1], answer[2], cells_kept(4 * answer[2]));
    rest_is_zero(3);
    for (screen_size i = 0; i < 4 * answer[2]; i++) printf("%c%lu", i % 4 == 0 ? '\n' : '\t', cells[i]);
}

/* ---- the cases */

/* Reads the next header and ends its words by NULs. 0 at the end of the input. */
static int read_header(void) {
    screen_size n = 0;
    int c = getchar();
    if (c < 0) return 0;
    words = 1;
    word[0] = (struct word){ line, 0 };
    for (; c >= 0 && c != '\n' && n + 1 < sizeof line; c = getchar()) {
        line[n++] = c == '\t' ? 0 : (char)c;
        if (c != '\t') word[words - 1].len++;
        else if (words < 5) word[words++] = (struct word){ line + n, 0 };
    }
    line[n] = 0;
    return 1;
}

/* Reads so many bytes; 0 where the input has fewer. */
static int read_body(screen_size len) {
    for (screen_size i = 0; i < len; i++) {
        int c = getchar();
        if (c < 0) return 0;
        body[i] = (screen_byte)c;
    }
    return 1;
}

/* A word of one to ten digits as a number; 0 where it is none or is over the limit. */
static int number(int place, screen_size limit, screen_size *n) {
    *n = 0;
    for (screen_size i = 0; i < word[place].len; i++) {
        char c = word[place].at[i];
        if (c < '0' || c > '9' || i == 10) return 0;
        *n = *n * 10 + (screen_size)(c - '0');
    }
    return word[place].len > 0 && *n <= limit;
}

/* The code of a type in document 01's spelling, and its widths; one past the codes where it is none. */
static screen_code type_of(const char *s, screen_size *p, screen_size *q) {
    static const char *const plain[] = { "date", "datetime", "bol", "period", "null" };
    screen_code type = SCREEN_DATE;
    int end = 0;
    *p = *q = 0;
    if (sscanf(s, "text(%9lu)%n", p, &end) == 1 && end > 0 && s[end] == 0) return SCREEN_TEXT;
    if (sscanf(s, "int(%9lu)%n", p, &end) == 1 && end > 0 && s[end] == 0) return SCREEN_INT;
    if (sscanf(s, "dec(%9lu,%9lu)%n", p, q, &end) == 2 && end > 0 && s[end] == 0) return SCREEN_DEC;
    while (type <= SCREEN_NULL && strcmp(s, plain[type - SCREEN_DATE]) != 0) type++;
    return type;
}

/* The code of a mark; one past the codes where it is none. */
static screen_code mark_of(const char *s) {
    static const char *const marks[] = { "-", "opt", "=" };
    screen_code mark = SCREEN_BARE;
    while (mark <= SCREEN_FIXED && strcmp(s, marks[mark]) != 0) mark++;
    return mark;
}

/* Answers a case of field, whose body is the fixed bytes and then the field's; 0 where it is none. */
static int field_case(screen_size len) {
    screen_size p, q, fixed;
    screen_code type = type_of(word[1].at, &p, &q), mark = mark_of(word[2].at);
    if (type > SCREEN_NULL || mark > SCREEN_FIXED || !number(3, MOST, &fixed) || !read_body(fixed + len)) return 0;
    field(type, p, q, mark, fixed, len);
    return 1;
}

static int is(const char *part, int its_words) { return words == its_words && strcmp(word[0].at, part) == 0; }

/* Answers the case of the header that was read; 0 where it is none. */
static int answer_case(void) {
    screen_size len, asked, more;
    if (!number(words - 1, MOST, &len)) return 0;
    if (is("field", 5)) return field_case(len);
    if (!read_body(len)) return 0;
    if (is("judge", 3)) judge(word[1], len);
    else if (is("sum", 2)) printf("ok\t0\t%u\t0", screen_checksum(body, len));
    else if (is("step", 3)) step(word[1], len);
    else if (is("value", 5) && number(2, ASKED, &asked) && number(3, ASKED, &more)) value(word[1], asked, more, len);
    else if (is("period", 4) && number(2, ASKED, &asked)) period(word[1], asked, len);
    else if (is("write", 4) && number(2, MOST, &asked)) transfer(screen_write, word[1], asked, len);
    else if (is("read", 4) && number(2, MOST, &asked)) transfer(screen_read, word[1], asked, len);
    else if (is("export", 4) && number(2, MOST, &asked)) transfer(screen_export, word[1], asked, len);
    else if (is("import", 3) && number(1, MOST, &asked)) import(asked, len);
    else if (is("index", 4) && number(2, ENTRIES, &asked)) index_file(word[1], 4 * asked, len);
    else return 0;
    return 1;
}

/* Answers case after case, up to the end or a header that is none. */
static void answer_all(void) {
    while (read_header()) {
        if (!answer_case()) {
            printf("bad header\n");
            return;
        }
        putchar('\n');
    }
}

/* ---- the calls that no case can state */

/* Puts a text into body and gives its length. */
static screen_size put_in_body(const char *text) {
    screen_size len = 0;
    for (; text[len] != 0; len++) body[len] = (screen_byte)text[len];
    return len;
}

/* One field's bytes by numbers: codes that are none, and widths of which only the low half is one. The bytes are eight
   digits, which are a text, an int and a date. */
static void codes_of_field(void) {
    static const struct { screen_code type; screen_size p, q; screen_code mark; } call[] = {
        { 8, 8, 0, SCREEN_BARE },
        { 256 + SCREEN_TEXT, 8, 0, SCREEN_BARE },
        { ~(screen_code)0, 8, 0, SCREEN_BARE },
        { SCREEN_TEXT, 8, 0, 3 },
        { SCREEN_TEXT, 8, 0, 256 + SCREEN_BARE },
        { SCREEN_TEXT, 8, 0, ~(screen_code)0 },
        { SCREEN_NULL, 0, 0, 3 },
        { SCREEN_TEXT, (1UL << 32) + 8, 0, SCREEN_BARE },
        { SCREEN_INT, (1UL << 32) + 8, 0, SCREEN_BARE },
        { SCREEN_DEC, (1UL << 32) + 9, 1, SCREEN_BARE },
        { SCREEN_DEC, 9, (1UL << 32) + 1, SCREEN_BARE },
        { SCREEN_TEXT, 8, ~(screen_size)0, SCREEN_BARE },
        { SCREEN_INT, 8, ~(screen_size)0, SCREEN_BARE },
        { SCREEN_DATE, ~(screen_size)0, ~(screen_size)0, SCREEN_BARE },
    };
    screen_size len = put_in_body("20240229");
    for (screen_size i = 0; i < sizeof call / sizeof call[0]; i++) {
        printf("field\t%u\t%lu\t%lu\t%u\t", call[i].type, call[i].p, call[i].q, call[i].mark);
        field(call[i].type, call[i].p, call[i].q, call[i].mark, 0, len);
        putchar('\n');
    }
}

/* Fields of document 01's file by numbers of which only the low half is a record or field. */
static void numbers_of_value(void) {
    static const screen_size call[][2] = { { (1UL << 32) + 1, 1 }, { 1, (1UL << 32) + 1 }, { ~(screen_size)0, ~(screen_size)0 } };
    char name[] = "P0138001";
    struct word flow = { name, 8 };
    screen_size len = put_in_body("ZHD|P0138001|G|SVAA|Z|POOL|20240105120000\nSUB|B|||20231231|M\nTA2|1.0250\nZPT|4|812996689\n");
    for (screen_size i = 0; i < sizeof call / sizeof call[0]; i++) {
        printf("value\t%lu\t%lu\t", call[i][0], call[i][1]);
        value(flow, call[i][0], call[i][1], len);
        putchar('\n');
    }
}

/* Periods of a file, of its front up to the end of GSP 17, and by numbers of which only the low half is a period. */
static void numbers_of_period(void) {
    static const struct { char *flow; screen_size period, len; } call[] = {
        { "P0012001", 17, 143 },
        { "P0012001", 18, 143 },
        { "P0012001", 17, 109 },
        { "P0012001", 18, 109 },
        { "P0012001", 0, 143 },
        { "P0012001", 51, 143 },
        { "P0012001", (1UL << 32) + 17, 143 },
        { "P0012001", ~(screen_size)0, 143 },
        { "P0138001", 17, 143 },
        { "P0138001", 0, 143 },
    };
    put_in_body("ZHD|P0012001|G|SVAA|S|ABCD|20240105120000\nZPD|20240104|SF||7|_A\nHDR|12|SF|-3\nGSP|3|12|1.0000\n"
                "GSP|17|-4|3.0000\nGSP|40|0|0.5000\nZPT|7|1377724441\n");
    for (screen_size i = 0; i < sizeof call / sizeof call[0]; i++) {
        printf("period\t%s\t%lu\t%lu\t", call[i].flow, call[i].period, call[i].len);
        period((struct word){ call[i].flow, 8 }, call[i].period, call[i].len);
        putchar('\n');
    }
}

/* The index of a file with one entry, in cells that are no whole number of entries. */
static void counts_of_cells(void) {
    static const screen_size call[] = { 3, 4, 7 };
    char name[] = "P0133001";
    struct word flow = { name, 8 };
    screen_size len = put_in_body("ZHD|P0133001|Z|POOL|Z|SETT|20240105120000\nSB1|H|M|METER 01|20231231|M\nCM1|SF|1204|-1.5|12\n"
                                  "CM1||7|0.0|0\nZPT|5|521299993\n");
    for (screen_size i = 0; i < sizeof call / sizeof call[0]; i++) {
        printf("index\t%lu\t", call[i]);
        index_file(flow, call[i], len);
        putchar('\n');
    }
}

int main(int count, char **words_given) {
    if (count == 2 && strcmp(words_given[1], "codes") == 0) {
        codes_of_field();
        numbers_of_value();
        numbers_of_period();
        counts_of_cells();
        return 0;
    }
    answer_all();
    return 0;
}
