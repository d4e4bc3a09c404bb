// Times the screen and the peer side by side on good files of each flow. Prints a line for each flow, part and size: flow,
// part, bytes of the file, and the best time of one call in nanoseconds, of the peer and of the screen, parted by tabs. All
// files are gone through several times, since a machine that others share is slow for seconds at a time. Both must give the
// same answers and bytes, or the program ends with status 1.
#include "peer.h"
#include "../include/screen.h"
#include "timing.h"

#define MOST 1048576
#define MOST_TEXT 1048000
#define LINE 128
// How often all files are gone through, how long the rounds of one line go on each time, and how much one round takes at least.
#define PASSES 6
#define LINE_NS 60000000.0
#define ROUND_BYTES 262144

typedef unsigned char byte;

// A sheet grows line by line up to a size.
struct sheet { byte *at; size_t len, most; };

static byte sheet_bytes[MOST], file[MOST], text[3 * MOST], peer_out[MOST], screen_out[3 * MOST];

// Adds a line, its bars turned to tabs; 0 where there is no room for it.
static int add(struct sheet *s, const char *line) {
    size_t n = strlen(line);
    if (s->len + n > s->most) return 0;
    for (size_t i = 0; i < n; i++) s->at[s->len++] = line[i] == '|' ? '\t' : line[i];
    return 1;
}

static unsigned scatter(unsigned i) { return (i * 2654435761u) >> 8; }

// One set of each flow: the record that heads it and those below. 0 where the sheet is full.
static int add_p0012(struct sheet *s, unsigned set) {
    char line[LINE];
    if (set > 0) return 0;
    if (!add(s, "ZPD|20240105|R1||1234567|SF\n") || !add(s, "HDR|1234567890|_A|1234567890123\n")) return 0;
    for (unsigned i = 1; i <= 50; i++) {
        snprintf(line, LINE, "GSP|%u|%u|%u.%04u\n", i, scatter(i), scatter(i + 7), scatter(i) % 10000);
        if (!add(s, line)) return 0;
    }
    return 1;
}

static int add_p0181(struct sheet *s, unsigned set) {
    char line[LINE];
    if (!add(s, "GS7|_B\n")) return 0;
    for (unsigned i = 0; i < 10; i++) {
        // a SUP stands with its first BMU or not at all
        if (s->len + LINE > s->most) return 0;
        snprintf(line, LINE, "SUP|S%03u\n", i);
        add(s, line);
        for (unsigned j = 0; j < 20; j++) {
            snprintf(line, LINE, "BMU|T_UNIT-%04u|20240105|%s|%s\n", j, j % 3 ? "" : "20241231", set % 2 ? "T" : "F");
            if (!add(s, line)) return 0;
        }
    }
    return 1;
}

static int add_p0133(struct sheet *s, unsigned set) {
    char line[LINE];
    snprintf(line, LINE, "SB1|H|M|S%07u|20240105|M\n", set % 10000000);
    if (!add(s, line)) return 0;
    for (unsigned i = 0; i < 48; i++) {
        snprintf(line, LINE, "CM1|%s|%u|%u.%u|-%u\n", i % 4 ? "AB" : "", scatter(i) % 10000000, scatter(set + i) % 1000, i % 10, i + 1);
        if (!add(s, line)) return 0;
    }
    return 1;
}

static int add_p0134(struct sheet *s, unsigned set) {
    char line[LINE];
    snprintf(line, LINE, "SB2|M|S%07u|20240105|M\n", set % 10000000);
    if (!add(s, line)) return 0;
    for (unsigned i = 0; i < 48; i++) {
        snprintf(line, LINE, "CM2|%s|%u|%u|%u.%u|-%u.5\n", i % 4 ? "AB" : "", scatter(i) % 10000000, i, scatter(set + i) % 1000, i % 10, i + 1);
        if (!add(s, line)) return 0;
    }
    return 1;
}

static int add_p0138(struct sheet *s, unsigned set) {
    return set == 0 && add(s, "SUB|B|||20231231|M\n") && add(s, "TA2|1.0250\n");
}

static int add_p0164(struct sheet *s, unsigned set) {
    char line[LINE];
    snprintf(line, LINE, "SUB|B|X|S%03u|20240105|M\n", set % 1000);
    if (!add(s, line)) return 0;
    for (unsigned i = 1; i <= 28; i++) {
        snprintf(line, LINE, "SP7|_C|SUPP|F|202402%02u|SF|%u\n", i, scatter(set + i));
        if (!add(s, line)) return 0;
    }
    return 1;
}

struct flow { const char *name, *header; int (*add_set)(struct sheet *, unsigned); };

static const struct flow flows[] = {
    { "P0012001", "ZHD|P0012001|G|SVAA|Z|POOL|20240105120000\n", add_p0012 },
    { "P0181002", "ZHD|P0181002|G|SVAA|Z|POOL|20240105120000\n", add_p0181 },
    { "P0133001", "ZHD|P0133001|Z|SVAA|Z|POOL|20240105120000\n", add_p0133 },
    { "P0134001", "ZHD|P0134001|Z|SVAA|Z|POOL|20240105120000\n", add_p0134 },
    { "P0138001", "ZHD|P0138001|G|SVAA|Z|POOL|20240105120000\n", add_p0138 },
    { "P0164001", "ZHD|P0164001|G|SVAA|Z|POOL|20240105120000\n", add_p0164 },
};

// What is timed: a part on a file or its sheet. The peer's answer and the screen's are kept, to be compared.
static const byte *name;
static size_t sheet_len, file_len, text_len;
static struct peer_answer peer_said;
static screen_cell screen_said[4];

static void peer_judges(void) { peer_said = peer_judge(name, 8, file, file_len); }
static void screen_judges(void) { screen_judge(name, 8, file, file_len, screen_said); }
static void peer_writes(void) { peer_said = peer_write(name, 8, sheet_bytes, sheet_len, peer_out, MOST); }
static void screen_writes(void) { screen_write(name, 8, sheet_bytes, sheet_len, screen_out, MOST, screen_said); }
static void peer_reads(void) { peer_said = peer_read(name, 8, file, file_len, peer_out, MOST); }
static void screen_reads(void) { screen_read(name, 8, file, file_len, screen_out, MOST, screen_said); }
static void peer_sums(void) { peer_said = (struct peer_answer){ .record = peer_checksum(file, file_len) }; }
static void screen_sums(void) { screen_said[0] = 0, screen_said[1] = screen_checksum(file, file_len), screen_said[2] = 0; }

// Both accepted, and gave the same records and bytes.
static int same(void) {
    return !peer_said.refused && screen_said[0] == 0 && screen_said[1] == peer_said.record && screen_said[2] == peer_said.bytes
        && !memcmp(peer_out, screen_out, peer_said.bytes);
}

// The peer has neither index nor comma-separated text: the screen's own judge stands in its place, so that the ratio says what
// they cost beside judging.
static screen_cell cells[4 * 65536];
static void own_judges(void) {
    screen_judges();
    peer_said = (struct peer_answer){ .refused = screen_said[0] != 0, .record = screen_said[1] };
}
static void screen_indexes(void) { screen_index(name, 8, file, file_len, cells, sizeof cells / sizeof *cells, screen_said); }
static void screen_exports(void) { screen_export(name, 8, file, file_len, screen_out, sizeof screen_out, screen_said); }
static void screen_imports(void) { screen_import(text, text_len, screen_out, MOST, screen_said); }

// The judge and the part accepted with the same records.
static int as_judged(void) { return !peer_said.refused && screen_said[0] == 0 && screen_said[1] == peer_said.record; }

// The text gave the front of the sheet that the file was written from.
static int sheet_again(void) {
    return !peer_said.refused && screen_said[0] == 0 && screen_said[2] <= sheet_len && !memcmp(sheet_bytes, screen_out, screen_said[2]);
}

static const struct { const char *name; void (*peer)(void), (*screen)(void); int (*right)(void); } parts[] = {
    { "judge", peer_judges, screen_judges, same },
    { "write", peer_writes, screen_writes, same },
    { "read", peer_reads, screen_reads, same },
    { "checksum", peer_sums, screen_sums, same },
    { "index", own_judges, screen_indexes, as_judged },
    { "export", own_judges, screen_exports, as_judged },
    { "import", own_judges, screen_imports, sheet_again },
};

// The best times of one flow, part and size.
struct times { size_t bytes; double peer, screen; };

// Many rounds, the two taken in turn. 0 where their answers differ.
static int time_part(size_t p, struct times *best) {
    double began = now();
    unsigned calls = file_len < ROUND_BYTES ? ROUND_BYTES / file_len : 1;
    parts[p].peer();
    parts[p].screen();
    if (!parts[p].right()) return 0;
    best->bytes = file_len;
    for (int round = 0; round < 5 || now() - began < LINE_NS; round++) {
        double a = time_of(parts[p].peer, calls), b = time_of(parts[p].screen, calls);
        if (best->peer == 0 || a < best->peer) best->peer = a;
        if (best->screen == 0 || b < best->screen) best->screen = b;
    }
    return 1;
}

// The export of the file, as many whole lines of it as import takes.
static void make_text(void) {
    screen_export(name, 8, file, file_len, text, sizeof text, screen_said);
    text_len = screen_said[2];
    while (text_len > MOST_TEXT || (text_len > 0 && text[text_len - 1] != '\n')) text_len--;
}

// A good sheet, file and text of about this size; 0 where the flow has none so long.
static int make(const struct flow *f, size_t size) {
    struct sheet s = { sheet_bytes, 0, size - 32 };
    unsigned set = 0;
    add(&s, f->header);
    while (f->add_set(&s, set)) set++;
    name = (const byte *)f->name, sheet_len = s.len;
    struct peer_answer a = peer_write(name, 8, sheet_bytes, sheet_len, file, MOST);
    file_len = a.bytes;
    make_text();
    return !a.refused;
}

#define COUNT(a) (sizeof(a) / sizeof *(a))

static const size_t sizes[] = { 65536, 262144, 1048000 };
static struct times best[COUNT(flows)][COUNT(sizes)][COUNT(parts)];

// Each flow's files once; a size of which a flow has no file is left out.
static int pass(void) {
    for (size_t i = 0; i < COUNT(flows); i++) {
        size_t before = 0;
        for (size_t j = 0; j < COUNT(sizes); j++) {
            if (!make(&flows[i], sizes[j])) return 0;
            if (file_len == before) break;
            before = file_len;
            for (size_t p = 0; p < COUNT(parts); p++)
                if (!time_part(p, &best[i][j][p])) return 0;
        }
    }
    return 1;
}

int main(void) {
    for (int i = 0; i < PASSES; i++)
        if (!pass()) return 1;
    for (size_t i = 0; i < COUNT(flows); i++)
        for (size_t j = 0; j < COUNT(sizes); j++)
            for (size_t p = 0; p < COUNT(parts); p++) {
                struct times t = best[i][j][p];
                if (t.bytes) printf("%.8s\t%s\t%zu\t%.0f\t%.0f\n", flows[i].name, parts[p].name, t.bytes, t.peer, t.screen);
            }
    return 0;
}
