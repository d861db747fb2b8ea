/* stack FUNCTION TABLE LOG ROOM: how many bytes of stack one call of a function of judge.h takes (`judge` or `reached`), on the table and the log
 * of two files and with so much room for what is written. The call is made on a thread whose stack is painted beforehand. */
#define _DEFAULT_SOURCE
#include "judge.h"
#include <pthread.h>
#include <stdio.h>
#include <stdlib.h>
#include <string.h>
#include <sys/mman.h>

enum { PAINT = 0x5c, STACK = 1 << 20 };

typedef struct {
    uint8_t *bytes;
    size_t n;
} text_t;

/* What is asked, the stack that it is asked on, and where that stands at the call. */
typedef struct {
    int is_judge;
    text_t table, log, out;
    uint8_t *stack, *called;
} call_t;

static void give_up(const char *why) {
    fprintf(stderr, "%s\n", why);
    exit(1);
}

static text_t lend(size_t n) {
    text_t text = {malloc(n + 1), n};
    if (!text.bytes) give_up("no memory");
    return text;
}

static text_t load(const char *path) {
    FILE *file = fopen(path, "rb");
    if (!file || fseek(file, 0, SEEK_END) != 0) give_up("a file does not open");
    long n = ftell(file);
    if (n < 0) give_up("a file has no length");
    text_t text = lend((size_t)n);
    rewind(file);
    if (fread(text.bytes, 1, text.n, file) != text.n) give_up("a file ends early");
    fclose(file);
    return text;
}

static void *make_call(void *asked) {
    call_t *call = asked;
    uint64_t refusal[2];
    uint8_t here;
    call->called = &here;
    if (call->is_judge)
        judge(call->table.bytes, call->table.n, call->log.bytes, call->log.n, call->out.bytes, call->out.n);
    else
        reached(call->table.bytes, call->table.n, call->log.bytes, call->log.n, call->out.bytes, call->out.n, refusal, 2);
    return NULL;
}

int main(int count, char **words) {
    if (count != 5) give_up("stack judge|reached TABLE LOG ROOM");
    call_t call = {strcmp(words[1], "judge") == 0, load(words[2]), load(words[3]), lend(strtoull(words[4], NULL, 10)), NULL, NULL};
    void *stack = mmap(NULL, STACK, PROT_READ | PROT_WRITE, MAP_PRIVATE | MAP_ANONYMOUS, -1, 0);
    if (stack == MAP_FAILED) give_up("no memory");
    call.stack = stack;
    memset(call.stack, PAINT, STACK);
    pthread_attr_t attributes;
    pthread_t thread;
    if (pthread_attr_init(&attributes) != 0 || pthread_attr_setstack(&attributes, stack, STACK) != 0) give_up("no thread");
    if (pthread_create(&thread, &attributes, make_call, &call) != 0 || pthread_join(thread, NULL) != 0) give_up("no thread");
    const uint8_t *reached_down_to = call.stack;
    while (*reached_down_to == PAINT) reached_down_to++;
    printf("%zu\n", (size_t)(call.called - reached_down_to));
    return 0;
}
