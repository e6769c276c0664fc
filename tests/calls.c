/* Each entry point from C, on document 01's sheet and pattern figures: prints every reply and what was written. */
#include <inttypes.h>
#include <stdio.h>
#include <string.h>

#include "txoribeltza.h"

/* Stands where nothing is written. */
enum { LEFT = 77 };

static uint8_t sheet[TXORI_SHEET_MOST], out[TXORI_LISTING_MOST];
static size_t length;

static void print_bytes(const char *name, const uint8_t *bytes, size_t count)
{
    printf("%s", name);
    for (size_t i = 0; i < count; i++)
        printf(" %02x", bytes[i]);
    printf("\n");
}

static void print_reply(const char *name, TxoriReply r)
{
    printf("%s: %" PRIu64 " at %" PRIu64 "\n", name, r.number, r.place);
}

static void print_written(const char *name, TxoriWritten r)
{
    printf("%s: %" PRIu64 " at %" PRIu64 ", %" PRIu64 " bytes\n", name, r.number, r.place, r.length);
}

static void work_out(size_t clocks_length, size_t links_length)
{
    int64_t clocks[13], links[10];
    for (int i = 0; i < 13; i++)
        clocks[i] = LEFT;
    for (int i = 0; i < 10; i++)
        links[i] = LEFT;
    TxoriWorkOut r = txori_work_out(sheet, length, clocks, clocks_length, links, links_length);
    printf("work_out: %" PRIu64 " at %" PRIu64 ", %" PRIu64 " clocks, %" PRIu64 " links, room %" PRIu64 " of %" PRIu64 "\n",
           r.number, r.place, r.clocks, r.links, r.opened, r.whole);
    for (int i = 0; i < 13; i++)
        printf(" %" PRId64, clocks[i]);
    for (int i = 0; i < 10; i++)
        printf(" %" PRId64, links[i]);
    printf("\n");
}

static void sheets(void)
{
    work_out(13, 10);
    work_out(12, 8);
    memset(out, 0xEE, sizeof out);
    print_written("quote 0", txori_quote(sheet, length, 0, out, 3));
    print_bytes("part", out, 4);
    print_written("quote 2", txori_quote(sheet, length, 2, out, 4));
    print_bytes("part", out, 5);
    print_written("quote 2, too short", txori_quote(sheet, length, 2, out, 3));
    print_written("quote 3", txori_quote(sheet, length, 3, out, sizeof out));
    print_bytes("part", out, 5);
    TxoriWritten text = txori_list(sheet, length, out, sizeof out);
    print_written("list", text);
    fwrite(out, 1, text.length, stdout);
    memset(out, 0xEE, sizeof out);
    print_written("list, too short", txori_list(sheet, length, out, text.length - 1));
    print_written("list, a byte more", txori_list(sheet, length + 1, out, sizeof out));
    print_written("list, a byte more, no room", txori_list(sheet, length + 1, out, 0));
    print_bytes("text", out, 5);
    print_written("list, just room", txori_list(sheet, length, out, text.length));
    print_bytes("text's end", out + text.length - 2, 3);
    print_reply("close 1", txori_close(sheet, length, 1));
    print_reply("close 1", txori_close(sheet, length, 1));
    print_reply("close 3", txori_close(sheet, length, 3));
    print_bytes("sheet", sheet, length);
    print_reply("close, a byte more", txori_close(sheet, length + 1, 1));
}

/* 2 3 2 1 at length 5: 00010, 00011, 00100, 00101. */
static void patterns(void)
{
    uint8_t pattern[5] = {9, 9, 9, 9, 9};
    print_reply("check", txori_check(2, 3, 2, 1, pattern, 5));
    TxoriReply r = txori_first(2, 3, 2, 1, pattern, 5);
    print_reply("first", r);
    while (r.number == TXORI_OK) {
        print_bytes("pattern", pattern, 5);
        r = txori_next(2, 3, 2, 1, pattern, 5);
    }
    print_reply("next", r);
    print_bytes("pattern", pattern, 5);
    print_reply("check", txori_check(2, 3, 2, 1, pattern, 5));
    pattern[1] = 1;
    print_reply("check", txori_check(2, 3, 2, 1, pattern, 5));
    print_reply("check", txori_check(-2, 0, 4, 2, pattern, 5));
    print_reply("first", txori_first(INT64_MIN, INT64_MAX, 1, 1, pattern, 0));
    print_reply("first", txori_first(-5, 3, 5, 3, pattern, 0));
}

int main(int count, char **words)
{
    FILE *file = count == 2 ? fopen(words[1], "rb") : NULL;
    if (file == NULL)
        return 2;
    length = fread(sheet, 1, sizeof sheet, file);
    fclose(file);
    sheets();
    patterns();
    return 0;
}
