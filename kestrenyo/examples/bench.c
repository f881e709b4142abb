/*
 * Plans the bench example of document 01, its rule in a file of its own, and prints what the program prints:
 * cc -I ../../include bench.c ../../crates/kestrenyo/out/libkestrenyo.a -o bench && ./bench
 */
#include "kestrenyo.h"

#include <stdio.h>
#include <string.h>

struct text {
    const char *name;
    const char *bytes;
};

static const struct text TEXTS[] = {{"build.ninja", "cflags = -O1\n"
                                                    "include rules.ninja\n"
                                                    "build b.o: cc b.c\n"
                                                    "build a.o: cc a.c | t.h\n"
                                                    "  cflags = -O2\n"
                                                    "build axis: phony a.o b.o\n"
                                                    "default axis\n"},
                                    {"rules.ninja", "rule cc\n"
                                                    "  command = cc $cflags -c $in -o $out\n"}};

struct file {
    const char *name;
    uint64_t time;
};

static uint8_t *number(uint8_t *to, uint64_t value, int bytes)
{
    for (int i = 0; i < bytes; i++)
        *to++ = (uint8_t)(value >> (8 * i));
    return to;
}

static uint8_t *string(uint8_t *to, const char *string)
{
    memcpy(to, string, strlen(string));
    return to + strlen(string);
}

/* Writes the bundle of texts, the top one first; says its length. */
static size_t write_bundle(uint8_t *bundle, const struct text *texts, size_t count)
{
    size_t names = 0, total = 16 + 16 * count;
    for (size_t i = 0; i < count; i++) {
        names += strlen(texts[i].name);
        total += strlen(texts[i].name) + strlen(texts[i].bytes);
    }
    uint8_t *to = number(bundle, count, 4);
    to = number(to, 16, 4);
    to = number(to, 16 + 16 * count, 4);
    to = number(to, total, 4);
    size_t name = 0, text = names;
    for (size_t i = 0; i < count; i++) {
        to = number(to, name, 4);
        to = number(to, strlen(texts[i].name), 4);
        to = number(to, text, 4);
        to = number(to, strlen(texts[i].bytes), 4);
        name += strlen(texts[i].name);
        text += strlen(texts[i].bytes);
    }
    for (size_t i = 0; i < count; i++)
        to = string(to, texts[i].name);
    for (size_t i = 0; i < count; i++)
        to = string(to, texts[i].bytes);
    return total;
}

/* Writes the card of files that rise by name; says its length. */
static size_t write_card(uint8_t *card, const struct file *files, size_t count)
{
    size_t total = 16 + 16 * count, offset = 0;
    for (size_t i = 0; i < count; i++)
        total += strlen(files[i].name);
    uint8_t *to = number(card, count, 4);
    to = number(to, 16, 4);
    to = number(to, 16 + 16 * count, 4);
    to = number(to, total, 4);
    for (size_t i = 0; i < count; i++) {
        to = number(to, offset, 4);
        to = number(to, strlen(files[i].name), 4);
        to = number(to, files[i].time, 8);
        offset += strlen(files[i].name);
    }
    for (size_t i = 0; i < count; i++)
        to = string(to, files[i].name);
    return total;
}

/* Prints the texts that an ask wrote, which end at these places; `before` of all `count` are printed already. */
static void print(const uint8_t *bytes, const uint32_t *ends, size_t written, size_t before, size_t count)
{
    size_t from = 0;
    for (size_t i = 0; i < written; i++) {
        printf("[%zu/%zu] %.*s\n", before + i + 1, count, (int)(ends[i] - from), (const char *)bytes + from);
        from = ends[i];
    }
}

static int refused(struct kestrenyo_said said)
{
    if (said.text != 0)
        printf("refused %zu at %zu:%zu\n", said.number, said.text - 1, said.value);
    else
        printf("refused %zu at %zu\n", said.number, said.value);
    return 1;
}

int main(void)
{
    static const struct file files[] = {{"a.c", 5}, {"a.o", 7}, {"b.c", 5}, {"t.h", 9}};
    /* no header lists: a count of 0, then 16, 16 and the length */
    static const uint8_t headers[16] = {0, 0, 0, 0, 16, 0, 0, 0, 16, 0, 0, 0, 16, 0, 0, 0};
    uint8_t bundle[512], card[256];
    uint32_t list[KESTRENYO_LIST];
    uint8_t bytes[KESTRENYO_TEXT];
    uint32_t ends[KESTRENYO_LIST];

    size_t length = write_bundle(bundle, TEXTS, sizeof TEXTS / sizeof *TEXTS);
    size_t card_length = write_card(card, files, sizeof files / sizeof *files);
    struct kestrenyo_said plan = kestrenyo_plan(bundle, length, headers, sizeof headers, card, card_length, NULL, 0,
                                                list, KESTRENYO_LIST);
    if (plan.number != 0)
        return refused(plan);
    /* a call writes as many texts as there is room for, one at least; the next call goes on behind them */
    for (size_t done = 0; done < plan.value;) {
        struct kestrenyo_said said = kestrenyo_texts(bundle, length, list + done, plan.value - done, KESTRENYO_COMMAND,
                                                     bytes, KESTRENYO_TEXT, ends, KESTRENYO_LIST);
        if (said.number != 0)
            return refused(said);
        print(bytes, ends, said.value, done, plan.value);
        done += said.value;
    }
    return 0;
}
