// The speed peer: the screen's answers in plain C, written as a C engineer would: one pass over the file, a record at a time, static tables.
#include "peer.h"

enum type { TEXT, INT, DEC, DATE, DATETIME, BOL, PERIOD, NUL };
enum mark { BARE, OPT, FIXED };
enum order { STRICT, EQUAL_ALLOWED };

struct rule { enum type type; int width, places; enum mark mark; const char *value; };
struct kind { char name[4]; unsigned follow; int fields; struct rule rule[7]; int key, head; enum order order; };
struct flow { char name[9]; int feed; unsigned first; int kinds; struct kind kind[7]; };

#define T(n) { TEXT, n, 0, BARE, 0 }
#define T_OPT(n) { TEXT, n, 0, OPT, 0 }
#define T_IS(n, v) { TEXT, n, 0, FIXED, v }
#define I(n) { INT, n, 0, BARE, 0 }
#define D(p, q) { DEC, p, q, BARE, 0 }
#define DAY { DATE, 0, 0, BARE, 0 }
#define NO_KEY 0, 0, STRICT
#define HEADER(flow, from, to, next) \
    { "ZHD", next, 6, { T_IS(8, flow), from, T(4), to, T(4), { DATETIME, 0, 0, BARE, 0 } }, NO_KEY }
#define FOOTER { "ZPT", 0, 2, { I(10), I(10) }, NO_KEY }
#define BIT(k) (1u << (k))

// P0133001, with the fields of its SB1.
#define P0133001(fields, ...) \
    { "P0133001", 0, BIT(1), 4, { \
        HEADER("P0133001", T_IS(1, "Z"), T_IS(1, "Z"), BIT(2) | BIT(4)), \
        { "SB1", BIT(2) | BIT(3) | BIT(4), fields, { __VA_ARGS__ }, NO_KEY }, \
        { "CM1", BIT(2) | BIT(3) | BIT(4), 4, { T_OPT(2), I(7), D(4, 1), I(7) }, NO_KEY }, \
        FOOTER } }

// Kinds count from 1; the last is the footer. A key field counts the kind as field 1; head is the kind that starts the key anew;
// order says whether a key may be equal to the one before.
static const struct flow flows[] = {
    { "P0012001", 1, BIT(1), 6, {
        HEADER("P0012001", T(1), T(1), BIT(2)),
        { "ZPD", BIT(3), 5, { DAY, T_OPT(2), T_OPT(2), I(7), T(2) }, NO_KEY },
        { "HDR", BIT(4) | BIT(5) | BIT(6), 3, { I(10), T(2), I(13) }, NO_KEY },
        { "GSP", BIT(4) | BIT(6), 3, { { PERIOD, 0, 0, BARE, 0 }, I(13), D(14, 4) }, 2, 0, STRICT },
        { "GS2", BIT(5) | BIT(6), 3, { { PERIOD, 0, 0, BARE, 0 }, { INT, 1, 0, FIXED, "0" }, D(14, 4) }, 2, 0, STRICT },
        FOOTER } },
    { "P0181002", 1, BIT(1), 5, {
        HEADER("P0181002", T(1), T(1), BIT(2)),
        { "GS7", BIT(2) | BIT(3) | BIT(5), 1, { T(2) }, NO_KEY },
        { "SUP", BIT(4), 1, { T(4) }, 2, 2, STRICT },
        { "BMU", BIT(2) | BIT(3) | BIT(4) | BIT(5), 4, { T(11), DAY, { DATE, 0, 0, OPT, 0 }, { BOL, 0, 0, BARE, 0 } }, 2, 3, STRICT },
        FOOTER } },
    P0133001(5, T_IS(1, "H"), T_IS(1, "M"), T(8), DAY, T_IS(1, "M")),
    { "P0134001", 0, BIT(1), 4, {
        HEADER("P0134001", T_IS(1, "Z"), T_IS(1, "Z"), BIT(2) | BIT(4)),
        { "SB2", BIT(2) | BIT(3) | BIT(4), 4, { T_IS(1, "M"), T(8), DAY, T_IS(1, "M") }, NO_KEY },
        { "CM2", BIT(2) | BIT(3) | BIT(4), 5, { T_OPT(2), I(7), I(7), D(4, 1), D(4, 1) }, NO_KEY },
        FOOTER } },
    { "P0138001", 0, BIT(1), 4, {
        HEADER("P0138001", T_IS(1, "G"), T_IS(1, "Z"), BIT(2)),
        { "SUB", BIT(3), 5, { T_IS(1, "B"), { NUL, 0, 0, BARE, 0 }, { NUL, 0, 0, BARE, 0 }, DAY, T_IS(1, "M") }, NO_KEY },
        { "TA2", BIT(4), 1, { D(5, 4) }, NO_KEY },
        FOOTER } },
    { "P0164001", 0, BIT(1), 4, {
        HEADER("P0164001", T_IS(1, "G"), T_IS(1, "Z"), BIT(2) | BIT(4)),
        { "SUB", BIT(2) | BIT(3) | BIT(4), 5, { T_IS(1, "B"), T_IS(1, "X"), T(4), DAY, T_IS(1, "M") }, NO_KEY },
        { "SP7", BIT(2) | BIT(3) | BIT(4), 6, { T(2), T(4), T(1), DAY, T(2), I(10) }, 5, 2, EQUAL_ALLOWED },
        FOOTER } },
};

// What P0133001 is in edition 711.
static const struct flow p0133_in_711 = P0133001(4, T_IS(1, "M"), T(8), DAY, T_IS(1, "M"));
static const char usual_edition[] = "533";

static const unsigned char text_character[256] = {
    [' '] = 1, ['.'] = 1, [','] = 1, ['-'] = 1, ['('] = 1, [')'] = 1, ['/'] = 1, ['\''] = 1, ['+'] = 1, [':'] = 1, ['='] = 1,
    ['?'] = 1, ['!'] = 1, ['"'] = 1, ['%'] = 1, ['&'] = 1, ['*'] = 1, [';'] = 1, ['<'] = 1, ['>'] = 1, ['_'] = 1,
    ['0' ... '9'] = 1, ['A' ... 'Z'] = 1, ['a' ... 'z'] = 1,
};

// The next line feed. By the C library, which looks at many bytes at once; with PLAIN a byte at a time, as a plain one-pass program does.
static const unsigned char *find_feed(const unsigned char *s, size_t n) {
#ifdef PLAIN
    for (size_t i = 0; i < n; i++)
        if (s[i] == '\n') return s + i;
    return 0;
#else
    return memchr(s, '\n', n);
#endif
}

static int is_digit(unsigned char c) { return (unsigned)(c - '0') < 10; }

static int all_digits(const unsigned char *s, size_t n) {
    for (size_t i = 0; i < n; i++)
        if (!is_digit(s[i])) return 0;
    return 1;
}

static uint64_t number(const unsigned char *s, size_t n) {
    uint64_t v = 0;
    for (size_t i = 0; i < n; i++) v = v * 10 + (s[i] - '0');
    return v;
}

static int is_date(uint64_t v) {
    static const int days[13] = { 0, 31, 28, 31, 30, 31, 30, 31, 31, 30, 31, 30, 31 };
    unsigned y = v / 10000, m = v / 100 % 100, d = v % 100;
    if (y < 1 || m < 1 || m > 12 || d < 1) return 0;
    return d <= (unsigned)(m == 2 && y % 4 == 0 && (y % 100 != 0 || y % 400 == 0) ? 29 : days[m]);
}

// Digits with a minus before if negative: 8 or 0, and how many digits.
static int int_form(const unsigned char *s, size_t n, size_t *digits) {
    size_t minus = n > 0 && s[0] == '-';
    s += minus, n -= minus;
    *digits = n;
    if (n == 0 || !all_digits(s, n)) return 8;
    if (s[0] == '0' && (n > 1 || minus)) return 8;
    return 0;
}

static int check_int(const unsigned char *s, size_t n, size_t width) {
    size_t digits;
    if (int_form(s, n, &digits)) return 8;
    return digits > width ? 9 : 0;
}

static int check_dec(const unsigned char *s, size_t n, size_t p, size_t q) {
    size_t minus = s[0] == '-', later = 0;
    s += minus, n -= minus;
    if (n < q + 2 || s[n - q - 1] != '.') return 8;
    size_t whole = n - q - 1;
    if (!all_digits(s, whole) || !all_digits(s + whole + 1, q)) return 8;
    if (s[0] == '0' && whole > 1) return 8;
    if (minus && s[0] == '0') {
        for (size_t i = 0; i < q; i++) later |= s[whole + 1 + i] != '0';
        if (!later) return 8;
    }
    return whole + q > p ? 9 : 0;
}

static int check_text(const unsigned char *s, size_t n, size_t width) {
    if (s[0] == ' ' || s[n - 1] == ' ') return 8;
    for (size_t i = 0; i < n; i++)
        if (!text_character[s[i]]) return 8;
    return n > width ? 9 : 0;
}

static int check_datetime(const unsigned char *s, size_t n) {
    if (n != 14 || !all_digits(s, 14)) return 8;
    uint64_t v = number(s, 14), time = v % 1000000;
    return is_date(v / 1000000) && time / 10000 < 24 && time / 100 % 100 < 60 && time % 100 < 60 ? 0 : 9;
}

static int check_period(const unsigned char *s, size_t n) {
    size_t digits;
    if (int_form(s, n, &digits)) return 8;
    return s[0] == '-' || digits > 2 || number(s, n) < 1 || number(s, n) > 50 ? 9 : 0;
}

static int check_field(const struct rule *r, const unsigned char *s, size_t n) {
    int fault = 0;
    if (r->type == NUL) return n ? 10 : 0;
    if (n == 0) return r->mark == OPT ? 0 : 7;
    switch (r->type) {
    case TEXT: fault = check_text(s, n, r->width); break;
    case INT: fault = check_int(s, n, r->width); break;
    case DEC: fault = check_dec(s, n, r->width, r->places); break;
    case DATE: fault = n != 8 || !all_digits(s, 8) ? 8 : is_date(number(s, 8)) ? 0 : 9; break;
    case DATETIME: fault = check_datetime(s, n); break;
    case BOL: fault = n == 1 && (s[0] == 'T' || s[0] == 'F') ? 0 : 8; break;
    case PERIOD: fault = check_period(s, n); break;
    case NUL: break;
    }
    if (fault) return fault;
    if (r->mark == FIXED && (strlen(r->value) != n || memcmp(r->value, s, n))) return 10;
    return 0;
}

// The key against the old one: less than 0 below, 0 equal, more than 0 above.
static int compare_keys(enum type t, const unsigned char *s, size_t n, const unsigned char *old, size_t m) {
    if (t != TEXT) {
        uint64_t key = number(s, n), before = number(old, m);
        return (key > before) - (key < before);
    }
    int c = memcmp(s, old, n < m ? n : m);
    return c ? c : (n > m) - (n < m);
}

// The running checksum with one record more, its separators counted as bars.
static uint32_t add_record(uint32_t sum, const unsigned char *s, size_t n, unsigned char sep) {
    unsigned char piece[4];
    size_t i = 0;
    if (sep == '|')
        for (; i + 4 <= n; i += 4) {
            uint32_t w;
            memcpy(&w, s + i, 4);
            sum ^= __builtin_bswap32(w);
        }
    for (; i < n; i += 4) {
        for (size_t j = 0; j < 4; j++) piece[j] = i + j >= n ? 0 : s[i + j] == sep ? '|' : s[i + j];
        sum ^= (uint32_t)piece[0] << 24 | (uint32_t)piece[1] << 16 | (uint32_t)piece[2] << 8 | piece[3];
    }
    return sum;
}

struct state { size_t count; int last; uint32_t sum; size_t seen[7]; const unsigned char *key[7]; size_t key_len[7]; };

static int refuse(struct peer_answer *a, int number, size_t record, size_t field, size_t place) {
    *a = (struct peer_answer){ .refused = 1, .number = number, .record = record, .field = field, .place = place };
    return 0;
}

// One record: 3 to 13, their place counted from the record's first byte, or the state moved on.
static int check_record(const struct flow *f, struct state *st, const unsigned char *s, size_t n, unsigned char sep, struct peer_answer *a) {
    size_t at = st->count + 1, bars = 0, name = 0;
    int k;
    if (n > 512) return refuse(a, 3, at, 0, 0);
    while (name < n && s[name] != sep) name++;
    for (k = f->kinds; k > 0; k--)
        if (name == 3 && !memcmp(f->kind[k - 1].name, s, 3)) break;
    if (k == 0) return refuse(a, 4, at, 1, 0);
    if (!((st->last ? f->kind[st->last - 1].follow : f->first) & BIT(k))) return refuse(a, 5, at, 1, 0);
    const struct kind *kind = &f->kind[k - 1];
    for (size_t i = name; i < n; i++) bars += s[i] == sep;
    if (bars != (size_t)kind->fields) return refuse(a, 6, at, 0, 0);
    const unsigned char *field[8] = { 0 };
    size_t len[8] = { 0 }, from = name + 1;
    for (int i = 0; i < kind->fields; i++) {
        size_t to = from;
        while (to < n && s[to] != sep) to++;
        field[i] = s + from, len[i] = to - from;
        int fault = check_field(&kind->rule[i], field[i], len[i]);
        if (fault) return refuse(a, fault, at, i + 2, from);
        from = to + 1;
    }
    if (kind->key) {
        int i = kind->key - 2;
        if (st->seen[k] > st->seen[kind->head]) {
            int c = compare_keys(kind->rule[i].type, field[i], len[i], st->key[k], st->key_len[k]);
            if (c < 0 || (c == 0 && kind->order == STRICT)) return refuse(a, 11, at, kind->key, field[i] - s);
        }
        st->key[k] = field[i], st->key_len[k] = len[i];
    }
    if (k == f->kinds) {
        if (field[0][0] == '-' || number(field[0], len[0]) != at) return refuse(a, 12, at, 2, field[0] - s);
        if (field[1][0] == '-' || number(field[1], len[1]) != st->sum) return refuse(a, 13, at, 3, field[1] - s);
    }
    st->seen[k] = at, st->count = at, st->last = k, st->sum = add_record(st->sum, s, n, sep);
    return 1;
}

// The flow of a name, or of a name, a space and an edition; or a refusal.
static const struct flow *find_flow(const unsigned char *words, size_t n, struct peer_answer *a) {
    const struct flow *named = 0;
    for (size_t i = 0; n >= 8 && i < sizeof flows / sizeof *flows; i++)
        if (!memcmp(flows[i].name, words, 8)) named = &flows[i];
    if (!named || (n > 8 && words[8] != ' ')) return refuse(a, 1, 0, 0, 0), (const struct flow *)0;
    const void *edition = n > 8 ? words + 9 : (const unsigned char *)usual_edition;
    size_t len = n > 8 ? n - 9 : 3;
    if (len == 3 && !memcmp(edition, "533", 3)) return named;
    if (len == 3 && !memcmp(edition, "711", 3)) return memcmp(named->name, "P0133001", 8) ? named : &p0133_in_711;
    return refuse(a, 21, 0, 0, 0), (const struct flow *)0;
}

static int check_records(const struct flow *f, struct state *st, const unsigned char *s, size_t n, unsigned char sep, struct peer_answer *a) {
    for (size_t at = 0; at < n;) {
        const unsigned char *feed = find_feed(s + at, n - at);
        size_t len = feed ? (size_t)(feed - s) - at : n - at;
        if (!check_record(f, st, s + at, len, sep, a)) {
            a->place += at;
            return 0;
        }
        at += len + 1;
    }
    return 1;
}

// Where the last line of some bytes starts.
static size_t last_line(const unsigned char *s, size_t n) {
    while (n > 0 && s[n - 1] != '\n') n--;
    return n;
}

struct peer_answer peer_judge(const unsigned char *name, size_t name_len, const unsigned char *s, size_t n) {
    struct peer_answer a = { 0 };
    struct state st = { 0 };
    const struct flow *f = find_flow(name, name_len, &a);
    if (!f) return a;
    if (n > 1048576) return refuse(&a, 2, 0, 0, 0), a;
    if (!check_records(f, &st, s, n, '|', &a)) return a;
    if (st.last != f->kinds) return refuse(&a, 14, st.count + 1, 0, n), a;
    if (f->feed && s[n - 1] != '\n') return refuse(&a, 15, st.count, 0, last_line(s, n)), a;
    a.record = st.count;
    return a;
}

static size_t put_number(unsigned char *out, uint64_t v) {
    unsigned char digits[20];
    size_t n = 0;
    do digits[n++] = '0' + v % 10; while (v /= 10);
    for (size_t i = 0; i < n; i++) out[i] = digits[n - 1 - i];
    return n;
}

struct peer_answer peer_write(const unsigned char *name, size_t name_len, const unsigned char *s, size_t n, unsigned char *out, size_t room) {
    struct peer_answer a = { 0 };
    struct state st = { 0 };
    unsigned char footer[32] = "ZPT|";
    const struct flow *f = find_flow(name, name_len, &a);
    if (!f) return a;
    if (n > 1048000) return refuse(&a, 2, 0, 0, 0), a;
    const unsigned char *bar = memchr(s, '|', n);
    size_t line = 1;
    for (const unsigned char *p = s; bar && p < bar; p++) line += *p == '\n';
    if (bar) return refuse(&a, 16, line, 0, last_line(s, bar - s)), a;
    if (n && s[n - 1] != '\n') {
        for (size_t i = 0; i < n; i++) line += s[i] == '\n';
        return refuse(&a, 15, line, 0, last_line(s, n)), a;
    }
    if (!check_records(f, &st, s, n, '\t', &a)) return a;
    if (!((st.last ? f->kind[st.last - 1].follow : f->first) & BIT(f->kinds))) return refuse(&a, 5, st.count + 1, 1, n), a;
    size_t foot = 4;
    foot += put_number(footer + foot, st.count + 1);
    footer[foot++] = '|';
    foot += put_number(footer + foot, st.sum);
    footer[foot++] = '\n';
    if (n + foot > room) return refuse(&a, 17, 0, 0, 0), a;
    for (size_t i = 0; i < n; i++) out[i] = s[i] == '\t' ? '|' : s[i];
    memcpy(out + n, footer, foot);
    a.record = st.count + 1, a.bytes = n + foot;
    return a;
}

struct peer_answer peer_read(const unsigned char *name, size_t name_len, const unsigned char *s, size_t n, unsigned char *out, size_t room) {
    struct peer_answer a = peer_judge(name, name_len, s, n);
    if (a.refused) return a;
    size_t end = last_line(s, n - (s[n - 1] == '\n'));
    if (end > room) return refuse(&a, 17, 0, 0, 0), a;
    for (size_t i = 0; i < end; i++) out[i] = s[i] == '|' ? '\t' : s[i];
    a.bytes = end;
    return a;
}

uint32_t peer_checksum(const unsigned char *s, size_t n) {
    uint32_t sum = 0;
    for (size_t at = 0; at < n;) {
        const unsigned char *feed = find_feed(s + at, n - at);
        size_t len = feed ? (size_t)(feed - s) - at : n - at;
        sum = add_record(sum, s + at, len, '|');
        at += len + 1;
    }
    return sum;
}
