// answers < STREAM: the peer's answers to a stream of cases, as `second compare` reads them. A case is a header line of words
// parted by tabs (judge FLOW LENGTH, sum LENGTH, write FLOW ROOM LENGTH, read FLOW ROOM LENGTH), then LENGTH bytes. Exit
// status 2 at a header that is none of these.
#include "peer.h"

#define MOST 1114112

typedef unsigned char byte;

struct bytes { byte *at; size_t len; };

static byte room[MOST];

static struct bytes all_input(void) {
    struct bytes in = { 0, 0 };
    size_t size = 1 << 20;
    long got;
    in.at = malloc(size);
    while (in.at && (got = read(0, in.at + in.len, size - in.len)) > 0) {
        in.len += got;
        if (in.len == size) in.at = realloc(in.at, size *= 2);
    }
    return in;
}

// A number of digits alone that is at most MOST; else MOST + 1.
static size_t number_of(struct bytes w) {
    size_t v = 0;
    for (size_t i = 0; i < w.len; i++) {
        if (w.at[i] < '0' || w.at[i] > '9' || v > MOST) return MOST + 1;
        v = v * 10 + (w.at[i] - '0');
    }
    return w.len == 0 || v > MOST ? MOST + 1 : v;
}

static byte pattern(size_t place) { return place * 167 + 13; }

static void put_line(struct peer_answer a) {
    if (a.refused) printf("refused\t%d\t%zu\t%zu\t%zu\n", a.number, a.record, a.field, a.place);
    else printf("ok\t0\t%zu\t0\t0\n", a.record);
}

typedef struct peer_answer transfer(const byte *, size_t, const byte *, size_t, byte *, size_t);

// The bytes written, and whether all others of the room were kept.
static void put_transfer(transfer *part, struct bytes flow, size_t size, struct bytes body) {
    int kept = 1;
    for (size_t i = 0; i < size; i++) room[i] = pattern(i);
    struct peer_answer a = part(flow.at, flow.len, body.at, body.len, room, size);
    for (size_t i = a.refused ? 0 : a.bytes; i < size; i++) kept &= room[i] == pattern(i);
    if (a.refused) {
        printf("refused\t%d\t%zu\t%zu\t%zu\t%d\n", a.number, a.record, a.field, a.place, kept);
        return;
    }
    printf("ok\t0\t%zu\t%zu\t0\t%d\n", a.record, a.bytes, kept);
    for (size_t i = 0; i < a.bytes; i++) putchar(room[i]);
    putchar('\n');
}

static int is(struct bytes w, const char *name) { return w.len == strlen(name) && !memcmp(w.at, name, w.len); }

// Answers one case; 0 where its header is none of the known.
static int answer(struct bytes *word, int words, struct bytes body) {
    if (words == 3 && is(word[0], "judge")) put_line(peer_judge(word[1].at, word[1].len, body.at, body.len));
    else if (words == 2 && is(word[0], "sum")) printf("ok\t0\t%u\t0\n", peer_checksum(body.at, body.len));
    else if (words == 4 && number_of(word[2]) > MOST) return 0;
    else if (words == 4 && is(word[0], "write")) put_transfer(peer_write, word[1], number_of(word[2]), body);
    else if (words == 4 && is(word[0], "read")) put_transfer(peer_read, word[1], number_of(word[2]), body);
    else return 0;
    return 1;
}

int main(void) {
    struct bytes in = all_input();
    for (size_t at = 0; at < in.len;) {
        byte *feed = memchr(in.at + at, '\n', in.len - at);
        struct bytes word[5] = { { in.at + at, 0 } };
        int words = 1;
        if (!feed) return 2;
        for (byte *p = in.at + at; p < feed; p++) {
            if (*p != '\t') word[words - 1].len++;
            else if (words == 5) return 2;
            else word[words++] = (struct bytes){ p + 1, 0 };
        }
        size_t start = feed + 1 - in.at, length = number_of(word[words - 1]);
        if (length > in.len - start) return 2;
        if (!answer(word, words, (struct bytes){ in.at + start, length })) return 2;
        at = start + length;
    }
    return 0;
}
