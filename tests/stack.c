/* How much stack each entry point touches: each is called on a painted stack of 64 KiB with demanding input, and what
 * lies above the lowest byte that changed is counted, the call itself and its caller's frame included. Prints a line
 * for each, and fails where one answers another number than is due, touches more than its bound, or so much less that a
 * copy of the smaller table would stay within it.
 */
#include <inttypes.h>
#include <stdio.h>
#include <string.h>

#include "txoribeltza.h"

enum { ROOM = 65536, PAINT = 0xA5 };

/* The most for a deep sheet, for a shallow one and for a pattern; what the words' table takes, the smaller of the two. */
enum { DEEP = TXORI_STACK_MOST, SHALLOW = 4900, PATTERN = 1000, TABLE = 1024 };

static unsigned char stack[ROOM] __attribute__((aligned(64)));
static uint8_t sheet[TXORI_SHEET_MOST], text[TXORI_LISTING_MOST], pattern[TXORI_PATTERN_MOST];
static int64_t clocks[TXORI_PER_CLOCK * TXORI_CLOCKS_MOST], links[TXORI_PER_LINK * TXORI_LINKS_MOST];
static size_t length;
static uint64_t number;

/* ---- sheets */

static void put(uint32_t value, int bytes)
{
    for (; bytes > 0; bytes--, value >>= 8)
        sheet[length++] = value & 255;
}

/* Word 0 is (10), any other (1). */
static void put_words(int count)
{
    put(count, 2);
    for (int i = 0; i < count; i++) {
        put(64, 1);
        put(64, 1);
        for (int j = 0; j < 128; j++)
            put(i > 0 || j % 2 == 0, 1);
    }
}

static void put_word_node(int word)
{
    put(1, 1);
    put(word, 2);
}

/* (1) on (1) on .., halved at each node. */
static void put_tree(int leaves)
{
    if (leaves == 1) {
        put_word_node(1);
        return;
    }
    put(4, 1);
    put_tree(leaves / 2);
    put_tree(leaves - leaves / 2);
}

/* Down to word 0 at depth 1: nots, then ons, a tree beside the first of them; to the left or to the right. */
static void put_spine(int depth, int nots, int leaves, int right)
{
    if (depth == 1) {
        put_word_node(0);
        return;
    }
    if (nots > 0) {
        put(3, 1);
        put_spine(depth - 1, nots - 1, leaves, right);
        return;
    }
    put(4, 1);
    if (right)
        put_tree(leaves);
    put_spine(depth - 1, 0, 1, right);
    if (!right)
        put_tree(leaves);
}

/* So deep, and of just so many bytes: a not has one besides its part, an on and a word together four. */
static void put_clock(int depth, int bytes, int right)
{
    int nots = (bytes - 3) % 4, ons = (bytes - 3) / 4;
    put(0, 1);
    put_spine(depth, nots, ons - (depth - 2) + nots, right);
}

static void put_links(int apart, int count)
{
    put(TXORI_LINKS_MOST, 2);
    for (int i = 0; i < TXORI_LINKS_MOST; i++) {
        put(apart ? i % count : count - 2, 2);
        put(apart ? (i + 1) % count : count - 1, 2);
    }
}

/* The longest sheet, with as many words, clocks and links as there may be; the last clock so deep, the others 12. */
static void make_deep(int last)
{
    length = 0;
    put_words(64);
    put(TXORI_CLOCKS_MOST, 2);
    for (int i = 0; i < TXORI_CLOCKS_MOST; i++)
        put_clock(i < TXORI_CLOCKS_MOST - 1 ? 12 : last, i < 122 ? 182 : 181, i % 2);
    put_links(1, TXORI_CLOCKS_MOST);
}

static void put_declared(int32_t k, int32_t K, uint32_t l, uint32_t n)
{
    put(1, 1);
    put(2, 1);
    put((uint32_t)k, 4);
    put((uint32_t)K, 4);
    put(l, 4);
    put(n, 4);
}

/* The largest numbers to list, in the longest listing: 18,081 bytes. The last two clocks give the largest size. */
static void make_wide(void)
{
    length = 0;
    put_words(0);
    put(TXORI_CLOCKS_MOST, 2);
    for (int i = 2; i < TXORI_CLOCKS_MOST; i++)
        put_declared(-1000000000, 1000000000, 1000000, 999999);
    put_declared(-1000000000, 1000000000, 1, 1);
    put_declared(1000000000, 1000000000, 1, 1);
    put_links(0, TXORI_CLOCKS_MOST);
}

/* ---- the calls */

static void nothing(void)
{
    number = TXORI_OK;
}

static void work_out(void)
{
    number = txori_work_out(sheet, length, clocks, sizeof clocks / 8, links, sizeof links / 8).number;
}

static void close_last(void)
{
    number = txori_close(sheet, length, TXORI_CLOCKS_MOST - 1).number;
}

static void quote_last(void)
{
    number = txori_quote(sheet, length, TXORI_CLOCKS_MOST - 1, text, sizeof text).number;
}

static void list(void)
{
    number = txori_list(sheet, length, text, sizeof text).number;
}

static void first(void)
{
    number = txori_first(-1000, 1000, 1000, 999, pattern, sizeof pattern).number;
}

static void next(void)
{
    number = txori_next(-1000, 1000, 1000, 999, pattern, sizeof pattern).number;
}

static void check(void)
{
    number = txori_check(-1000, 1000, 1000, 999, pattern, sizeof pattern).number;
}

/* ---- the measurement */

static void on_painted_stack(void (*call)(void))
{
    memset(stack, PAINT, sizeof stack);
    __asm__ volatile("movq %%rsp, %%rbx\n\t"
                     "movq %0, %%rsp\n\t"
                     "call *%1\n\t"
                     "movq %%rbx, %%rsp"
                     :
                     : "r"(stack + sizeof stack), "r"(call)
                     : "rax", "rbx", "rcx", "rdx", "rsi", "rdi", "r8", "r9", "r10", "r11",
                       "xmm0", "xmm1", "xmm2", "xmm3", "xmm4", "xmm5", "xmm6", "xmm7", "xmm8", "xmm9", "xmm10", "xmm11",
                       "xmm12", "xmm13", "xmm14", "xmm15", "memory", "cc");
}

static int measure(const char *name, void (*call)(void), uint64_t due, size_t most)
{
    size_t clean = 0, touched;
    on_painted_stack(call);
    while (clean < sizeof stack && stack[clean] == PAINT)
        clean++;
    touched = sizeof stack - clean;
    printf("%-48s %6zu\n", name, touched);
    if (number != due)
        printf("%s: answers %" PRIu64 ", not %" PRIu64 "\n", name, number, due);
    if (touched > most)
        printf("%s: touches more than %zu\n", name, most);
    if (touched + TABLE <= most)
        printf("%s: a copy of a table would touch no more than %zu\n", name, most);
    return number != due || touched > most || touched + TABLE <= most;
}

int main(void)
{
    int failed = measure("a call of nothing", nothing, TXORI_OK, PATTERN);
    make_deep(12);
    if (length != TXORI_SHEET_MOST) {
        printf("the longest sheet has %zu bytes\n", length);
        return 1;
    }
    failed |= measure("txori_work_out, longest sheet, depth 12", work_out, TXORI_OK, DEEP);
    failed |= measure("txori_close, longest sheet, depth 12", close_last, TXORI_OK, DEEP);
    failed |= measure("txori_quote, longest sheet, depth 12", quote_last, TXORI_OK, DEEP);
    failed |= measure("txori_list, longest sheet, depth 12", list, TXORI_OK, DEEP);
    make_deep(13);
    failed |= measure("txori_work_out, refused at depth 13", work_out, TXORI_TOO_DEEP, DEEP);
    failed |= measure("txori_close, refused at depth 13", close_last, TXORI_TOO_DEEP, DEEP);
    failed |= measure("txori_quote, refused at depth 13", quote_last, TXORI_TOO_DEEP, DEEP);
    failed |= measure("txori_list, refused at depth 13", list, TXORI_TOO_DEEP, DEEP);
    make_wide();
    failed |= measure("txori_list, largest numbers", list, TXORI_OK, SHALLOW);
    failed |= measure("txori_first, 4,096 bytes", first, TXORI_OK, PATTERN);
    failed |= measure("txori_next, 4,096 bytes", next, TXORI_OK, PATTERN);
    failed |= measure("txori_check, 4,096 bytes", check, TXORI_OK, PATTERN);
    return failed;
}
