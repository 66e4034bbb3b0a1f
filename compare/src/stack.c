/* How much stack each call takes: each is made on a stack of its own that was painted before, and the paint that is left is counted. Prints a
 * line for each call: its name, the bytes on the largest input tried, and on a rule of three nodes. */
#define _GNU_SOURCE
#include <pthread.h>
#include <stdio.h>
#include <stdlib.h>
#include <string.h>
#include <sys/mman.h>
#include "prune.h"

#define STACK (4u << 20)
#define PAINT 0xA5
#define NODES 2048

static const uint8_t stores[] = "\2\0\10\0\0\2\3\5nasvault";
static const uint8_t list[] = "\1\0\3\0\0\3nas";
static const size_t stores_len = sizeof stores - 1, list_len = sizeof list - 1;

static const uint8_t small_text[] = "older_than(30d) && readable(1)";
static uint8_t large_text[2048];
static uint8_t small_image[PRUNE_IMAGE_BYTES], deep_image[PRUNE_IMAGE_BYTES];
static size_t small_len, deep_len;
static uint8_t out[PRUNE_TEXT_BYTES];

/* What a call is made with. */
struct input {
    const uint8_t *text, *image;
    size_t text_len, image_len;
};

static uint64_t nothing(const struct input *in) { return in->text_len; }
static uint64_t read_call(const struct input *in) { return prune_read(in->text, in->text_len, out, sizeof out); }
static uint64_t decide_call(const struct input *in) {
    return prune_decide(in->image, in->image_len, stores, stores_len, UINT64_MAX, list, list_len);
}
static uint64_t check_call(const struct input *in) { return prune_check(in->image, in->image_len, stores, stores_len); }
static uint64_t judge_call(const struct input *in) { return prune_judge(in->text, in->text_len, stores, stores_len); }
static uint64_t print_call(const struct input *in) { return prune_print(in->image, in->image_len, out, sizeof out); }

struct run {
    uint64_t (*call)(const struct input *);
    const struct input *in;
    uint64_t answer;
};

static void *start(void *given) {
    struct run *run = given;
    run->answer = run->call(run->in);
    return NULL;
}

/* The bytes of stack that a call takes with what starts it. */
static size_t taken(uint64_t (*call)(const struct input *), const struct input *in) {
    uint8_t *stack = mmap(NULL, STACK, PROT_READ | PROT_WRITE, MAP_PRIVATE | MAP_ANONYMOUS | MAP_STACK, -1, 0);
    if (stack == MAP_FAILED) exit(2);
    memset(stack, PAINT, STACK);
    struct run run = {call, in, 0};
    pthread_attr_t attr;
    pthread_t thread;
    if (pthread_attr_init(&attr) || pthread_attr_setstack(&attr, stack, STACK) || pthread_create(&thread, &attr, start, &run)) exit(2);
    pthread_join(thread, NULL);
    if (PRUNE_NUMBER(run.answer)) {
        fprintf(stderr, "stack: a call was refused with %u\n", PRUNE_NUMBER(run.answer));
        exit(2);
    }
    size_t left = 0;
    while (left < STACK && stack[left] == PAINT) left++;
    munmap(stack, STACK);
    return STACK - left;
}

/* The rule that is an all of an all of .. of readable(1), as deep as an image can be. */
static void make_deep(void) {
    uint8_t *tags = deep_image + 4, *args = tags + 4 * NODES;
    deep_image[0] = NODES & 255, deep_image[1] = NODES >> 8;
    for (unsigned i = 0; i < NODES; i++) {
        uint32_t tag = (i == 0 ? 2 : 4) + 256 * (i + 1);
        memcpy(tags + 4 * i, &tag, 4);
    }
    args[0] = 1;
    deep_len = 4 + 12 * NODES;
}

/* A text of 2,048 bytes that reads and passes, with 64 brackets open. */
static void make_large(void) {
    size_t at = 0;
    for (int i = 0; i < 64; i++) memcpy(large_text + at, "all(", 4), at += 4;
    while (at + 4 + 3 + 64 <= sizeof large_text) memcpy(large_text + at, "nas,", 4), at += 4;
    memcpy(large_text + at, "nas", 3), at += 3;
    memset(large_text + at, ')', 64), at += 64;
    memset(large_text + at, ' ', sizeof large_text - at);
}

int main(void) {
    make_deep();
    make_large();
    small_len = PRUNE_VALUE(prune_read(small_text, sizeof small_text - 1, small_image, sizeof small_image));
    struct input most = {large_text, deep_image, sizeof large_text, deep_len};
    struct input least = {small_text, small_image, sizeof small_text - 1, small_len};
    struct {
        const char *name;
        uint64_t (*call)(const struct input *);
    } calls[] = {{"read", read_call}, {"decide", decide_call}, {"check", check_call}, {"judge", judge_call}, {"print", print_call}};
    size_t base = taken(nothing, &(struct input){0});
    for (size_t i = 0; i < sizeof calls / sizeof *calls; i++)
        printf("%-6s %7zu %6zu\n", calls[i].name, taken(calls[i].call, &most) - base, taken(calls[i].call, &least) - base);
}
