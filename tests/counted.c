/* Counts the library's requests for memory and the blocks that it holds, and refuses the request of a number, counted from 0: the linker's --wrap
   puts these before malloc, realloc and free. Makes a call in a thread with so much stack; by the convention of x86-64 one that takes fewer numbers
   than it is given passes over the others. */
#include <pthread.h>
#include <stdint.h>

struct work {
    uint64_t (*call)(uint64_t, uint64_t, uint64_t, uint64_t, uint64_t, uint64_t, uint64_t, uint64_t, uint64_t, uint64_t, uint64_t, uint64_t);
    uint64_t given[12], answer;
};

long until_refusal = -1, requests, held;

void *__real_malloc(size_t size), *__real_realloc(void *block, size_t size), __real_free(void *block);
void *__wrap_malloc(size_t size), *__wrap_realloc(void *block, size_t size), __wrap_free(void *block);

static int is_refused(void) {
    requests++;
    return until_refusal >= 0 && until_refusal-- == 0;
}

void *__wrap_malloc(size_t size) {
    void *block = is_refused() ? NULL : __real_malloc(size);
    held += block != NULL;
    return block;
}

void *__wrap_realloc(void *block, size_t size) {
    void *grown = is_refused() ? NULL : __real_realloc(block, size);
    held += block == NULL && grown != NULL;
    return grown;
}

void __wrap_free(void *block) {
    held -= block != NULL;
    __real_free(block);
}

static void *make(void *of) {
    struct work *work = of;
    const uint64_t *it = work->given;
    work->answer = work->call(it[0], it[1], it[2], it[3], it[4], it[5], it[6], it[7], it[8], it[9], it[10], it[11]);
    return NULL;
}

int make_on_stack(struct work *work, size_t room) {
    pthread_attr_t attributes;
    pthread_t thread;
    return pthread_attr_init(&attributes) || pthread_attr_setstacksize(&attributes, room) || pthread_create(&thread, &attributes, make, work) ||
           pthread_join(thread, NULL);
}
