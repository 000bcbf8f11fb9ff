/*
 * The stack that the header promises to be enough is enough for a reading: the deepest nesting, one
 * deeper, and both below more records than a reading keeps. A thread reads on a stack of just that
 * size; memory below it is marked, so that a deeper one would be seen.
 */
#define _XOPEN_SOURCE 700

#include "check.h"
#include "comaltzex.h"
#include "nest.h"

#include <pthread.h>
#include <string.h>

#define STACK ((size_t)96 * 1024) /* the header's figure */
#define BELOW ((size_t)1024 * 1024)
#define PAGE 4096
#define MARK 0xA5

/* Lines that are asked for more than others are. */
#define DEEP "                                        "
#define LINES DEEP "#+begin_z\n" DEEP ":z:\n" DEEP "#+k: v\n" DEEP "| r\n"
#define RECORDS 3 /* keyword, table and row */

#define ORDER "* a\n:properties:\n:a: b\n:end:\n"
#define ORDERS 1000

/* A reading, and its answer. */
struct call {
    const char *text;
    size_t length;
    comaltzex_reading answer;
};

static char book[COMALTZEX_TEXT_LIMIT];
static uint32_t table[COMALTZEX_RECORD_SIZE * 4200];
static unsigned char *memory;
static size_t most;

static void *run(void *argument)
{
    struct call *call = argument;
    call->answer = comaltzex_read((const uint8_t *)call->text, call->length, table, LENGTH(table));
    return NULL;
}

/* Runs the call in a thread whose stack is the memory's upper end. */
static void run_on_the_stack(struct call *call)
{
    pthread_attr_t attributes;
    pthread_t thread;
    check("attributes", (size_t)pthread_attr_init(&attributes), 0);
    check("stack", (size_t)pthread_attr_setstack(&attributes, memory + BELOW, STACK), 0);
    check("thread", (size_t)pthread_create(&thread, &attributes, run, call), 0);
    check("join", (size_t)pthread_join(thread, NULL), 0);
    pthread_attr_destroy(&attributes);
}

/* How much of the memory's upper end is no longer as it was marked. */
static size_t used(void)
{
    size_t i = 0;
    while (i < BELOW + STACK && memory[i] == MARK)
        i++;
    return BELOW + STACK - i;
}

static void check_read(const char *what, size_t length, uint32_t number, size_t count)
{
    struct call call = {book, length, {0, 0}};
    memset(memory, MARK, BELOW + STACK);
    run_on_the_stack(&call);
    check(what, call.answer.number, number);
    check(what, call.answer.count, count);
    if (used() > most)
        most = used();
    check("the stack is enough", used() <= STACK, 1);
}

/* Reads the nest by itself, and after more records than a reading keeps. */
static void check_nest(const char *what, int depth, int with_blocks, uint32_t number,
                       size_t records)
{
    size_t i, length = nest_lists(book, depth, with_blocks, LINES);
    check_read(what, length, number, number == COMALTZEX_OK ? 2 + records : 0);
    for (i = 0; i < ORDERS; i++)
        memcpy(book + i * (sizeof(ORDER) - 1), ORDER, sizeof(ORDER) - 1);
    length = ORDERS * (sizeof(ORDER) - 1);
    length += nest_lists(book + length, depth, with_blocks, LINES);
    check_read(what, length, number, number == COMALTZEX_OK ? 1 + 4 * ORDERS + records : 0);
}

int main(void)
{
    void *aligned;
    check("memory", (size_t)posix_memalign(&aligned, PAGE, BELOW + STACK), 0);
    memory = aligned;
    check_nest("32 lists", 32, 0, COMALTZEX_OK, 3 * 32 + RECORDS);
    check_nest("33 lists", 33, 0, COMALTZEX_TOO_DEEP, 0);
    /* the openers are a paragraph of the innermost block */
    check_nest("32 lists and blocks", 32, 1, COMALTZEX_OK, 3 * 16 + 16 + 1 + RECORDS);
    check_nest("33 lists and blocks", 33, 1, COMALTZEX_TOO_DEEP, 0);
    check_nest("200 lists", 200, 0, COMALTZEX_TOO_DEEP, 0);
    free(memory);
    printf("c: stack: %lu of %lu bytes were used at most\n", (unsigned long)most,
           (unsigned long)STACK);
    return all_passed("stack");
}
