// Times the screen on the question whether a period is in a file: a good file of P0012001 with 50 GSP, and the same with its footer
// again and again behind it. Prints a line for each size: the bytes of the file, and the best time of one call in nanoseconds with the
// stop at the first GSP and at the last, parted by tabs. Where the period is not found the program ends with status 1.
#include "c.h"
#include "../include/screen.h"
#include "timing.h"

#define MOST 1048576
// How often all files are gone through, and how long the rounds of one go on each time.
#define PASSES 6
#define FILE_NS 60000000.0
#define CALLS 100
#define COUNT(a) (sizeof(a) / sizeof *(a))

static const screen_byte flow[] = "P0012001";
static screen_byte sheet[4096], file[MOST];
static size_t sheet_len, file_len;
static unsigned period;
static screen_cell said[4];

static void find(void) { screen_period(flow, 8, file, file_len, period, said); }
static int found(void) { return said[0] == 0 && said[1] == 3 && said[2] == 1; }

// A good file; 0 where it is not accepted.
static int make(void) {
    char *at = (char *)sheet;
    at += snprintf(at, 256, "ZHD\tP0012001\tG\tSVAA\tZ\tPOOL\t20240105120000\nZPD\t20240105\tR1\t\t1234567\tSF\nHDR\t1234567890\t_A\t1234567890123\n");
    for (unsigned i = 1; i <= 50; i++) at += snprintf(at, 64, "GSP\t%u\t%u\t%u.%04u\n", i, 1000000 + i, 7000000 + i, i);
    sheet_len = at - (char *)sheet;
    screen_write(flow, 8, sheet, sheet_len, file, MOST, said);
    file_len = said[2];
    return said[0] == 0;
}

// Many rounds of one period. 0 where it is not found.
static int time_period(unsigned asked, double *best) {
    double began = now();
    period = asked;
    find();
    if (!found()) return 0;
    while (now() - began < FILE_NS) {
        double took = time_of(find, CALLS);
        if (*best == 0 || took < *best) *best = took;
    }
    return 1;
}

static struct { size_t bytes; double first, last; } times[] = { { 0, 0, 0 }, { 65536, 0, 0 }, { 262144, 0, 0 }, { MOST, 0, 0 } };

int main(void) {
    if (!make()) return 1;
    size_t footer = 1;
    while (file[file_len - footer - 1] != '\n') footer++;
    times[0].bytes = file_len;
    for (size_t i = file_len; i < MOST; i++) file[i] = file[i - footer];
    for (int pass = 0; pass < PASSES; pass++)
        for (size_t j = 0; j < COUNT(times); j++) {
            file_len = times[j].bytes;
            if (!time_period(1, &times[j].first) || !time_period(50, &times[j].last)) return 1;
        }
    for (size_t j = 0; j < COUNT(times); j++) printf("%zu\t%.0f\t%.0f\n", times[j].bytes, times[j].first, times[j].last);
    return 0;
}
