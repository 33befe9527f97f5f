/* How far below its call torwhisk_pair writes its stack: each sheet file that is named is paired on a thread whose stack
 * was filled with one byte before. What it does not write it does not count: a place that is only skipped, and one into
 * which the same byte is written. */
#include "torwhisk.h"

#include <pthread.h>
#include <stdio.h>
#include <stdlib.h>
#include <string.h>

#define STACK_BYTES (1024 * 1024)
#define PAINT 0xA5

static uint8_t sheet[TORWHISK_MOST_BYTES + 1];
static uint8_t out[TORWHISK_MOST_TEXT];
static _Alignas(4096) uint8_t stack[STACK_BYTES];

struct task {
    size_t len;
    int64_t told;
    const uint8_t *call;
};

static void *pair(void *given) {
    struct task *task = given;
    task->call = __builtin_frame_address(0);
    task->told = torwhisk_pair(sheet, task->len, out, sizeof out);
    return NULL;
}

/* The bytes written below the call on one sheet. */
static size_t written(struct task *task) {
    pthread_attr_t attr;
    pthread_t thread;
    memset(stack, PAINT, sizeof stack);
    if (pthread_attr_init(&attr) || pthread_attr_setstack(&attr, stack, sizeof stack) ||
        pthread_create(&thread, &attr, pair, task) || pthread_join(thread, NULL)) {
        fputs("stack: no thread\n", stderr);
        exit(1);
    }
    const uint8_t *lowest = stack;
    while (*lowest == PAINT)
        lowest++;
    return (size_t)(task->call - lowest);
}

int main(int count, char **paths) {
    size_t most = 0;
    for (int i = 1; i < count; i++) {
        FILE *file = fopen(paths[i], "rb");
        if (!file) {
            perror(paths[i]);
            return 1;
        }
        struct task task = {fread(sheet, 1, sizeof sheet, file), 0, NULL};
        fclose(file);
        size_t bytes = written(&task);
        const char *name = strrchr(paths[i], '/');
        printf("%8zu bytes  returned %5lld  %s\n", bytes, (long long)task.told, name ? name + 1 : paths[i]);
        if (bytes > most)
            most = bytes;
    }
    printf("%8zu bytes at most\n", most);
    return 0;
}
