/* Works a sheet file out and prints its clocks, its links and its rooms: size-c SHEET
   Built by: cc -Iinclude examples/c/size.c crates/export/out/libexport.a -o size-c */
#include <inttypes.h>
#include <stdio.h>

#include "txoribeltza.h"

static const char *const verdicts[] = {"accepted", "rates", "early"};
static const char *const states[] = {"open", "closed"};

/* One byte more than a sheet has, so that one that is too long is refused and not cut. */
static uint8_t sheet[TXORI_SHEET_MOST + 1];
static int64_t clocks[TXORI_PER_CLOCK * TXORI_CLOCKS_MOST];
static int64_t links[TXORI_PER_LINK * TXORI_LINKS_MOST];

static void print_clock(uint64_t i, const int64_t *c)
{
    printf("clock %" PRIu64 ": k %" PRId64 " K %" PRId64 " l %" PRId64 " n %" PRId64 "\n", i, c[0], c[1], c[2], c[3]);
}

static void print_link(uint64_t i, const int64_t *l)
{
    printf("link %" PRIu64 ": %s size %" PRId64 " %s\n", i, verdicts[l[0]], l[1], states[l[2]]);
}

int main(int count, char **words)
{
    if (count != 2) {
        fprintf(stderr, "size-c SHEET\n");
        return 2;
    }
    FILE *file = fopen(words[1], "rb");
    if (file == NULL) {
        perror(words[1]);
        return 2;
    }
    size_t length = fread(sheet, 1, sizeof sheet, file);
    int failed = ferror(file);
    fclose(file);
    if (failed) {
        fprintf(stderr, "%s: not read\n", words[1]);
        return 2;
    }

    TxoriWorkOut r = txori_work_out(sheet, length, clocks, sizeof clocks / sizeof *clocks, links, sizeof links / sizeof *links);
    if (r.number != TXORI_OK) {
        printf("refused %" PRIu64 " at %" PRIu64 "\n", r.number, r.place);
        return 1;
    }
    for (uint64_t i = 0; i < r.clocks; i++)
        print_clock(i, clocks + TXORI_PER_CLOCK * i);
    for (uint64_t i = 0; i < r.links; i++)
        print_link(i, links + TXORI_PER_LINK * i);
    printf("room: open %" PRIu64 " whole %" PRIu64 "\n", r.opened, r.whole);
    return 0;
}
