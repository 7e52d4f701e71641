/* Answers calls of the library over standard input and output, so that a comparison can ask it where it is code for another
   processor and an emulator runs this program. Everything that a call is lent stands between two guards, bytes at an odd
   address, and a call can be made on a painted stack to see how deep it goes. */
#include <stddef.h>
#include <stdint.h>

#include "arrabolzu.h"

long read(int file, void *to, size_t length);
long write(int file, const void *from, size_t length);
void *malloc(size_t length);
void free(void *cells);
void exit(int status);
uint64_t on_stack(void *argument, uint64_t (*function)(void *), void *top);

enum { GUARD = 61, GUARD_BYTE = 0x5c, PAINT_BYTE = 0xa5, STACK = 1 << 18 };

/* NOTHING is no call: what a measurement has beside the call. */
enum { NOTHING, READ, ADD, MINE, CHECK, JUDGE };

/* What comes first in a request; the lent cells follow, as many as length says and each as many bytes wide as width says. */
struct request {
    uint64_t call, at, null_for_nothing, paint, slices, length[3], width[3];
};

/* What comes first in a reply; the lent cells follow. */
struct reply {
    uint64_t answer, guards_hold, stack;
};

struct lent {
    struct request asked;
    uint8_t *cells[3];
    void *at[3];
};

static void get(void *to, size_t length) {
    for (size_t done = 0; done < length;) {
        long more = read(0, (uint8_t *)to + done, length - done);
        if (more <= 0) exit(more < 0 || done > 0);
        done += more;
    }
}

static void put(const void *from, size_t length) {
    for (size_t done = 0; done < length;) {
        long more = write(1, (const uint8_t *)from + done, length - done);
        if (more <= 0) exit(1);
        done += more;
    }
}

static void fill(uint8_t *cells, size_t length, uint8_t byte) {
    for (size_t i = 0; i < length; i++) ((volatile uint8_t *)cells)[i] = byte;
}

static int filled(const uint8_t *cells, size_t length, uint8_t byte) {
    for (size_t i = 0; i < length; i++)
        if (cells[i] != byte) return 0;
    return 1;
}

/* The bytes of what is lent, and of the guard on each side of it. */
static size_t bytes(const struct lent *lent, int number) {
    return lent->asked.length[number] * lent->asked.width[number];
}

static size_t guard(const struct lent *lent, int number) {
    return GUARD * lent->asked.width[number];
}

static void lend(struct lent *lent, int number) {
    size_t length = bytes(lent, number), beside = guard(lent, number);
    uint8_t *cells = malloc(length + 2 * beside);
    if (!cells) exit(1);
    fill(cells, length + 2 * beside, GUARD_BYTE);
    get(cells + beside, length);
    lent->cells[number] = cells;
    lent->at[number] = length == 0 && lent->asked.null_for_nothing ? NULL : cells + beside;
}

static int guards_hold(const struct lent *lent, int number) {
    size_t beside = guard(lent, number);
    const uint8_t *cells = lent->cells[number];
    return filled(cells, beside, GUARD_BYTE) && filled(cells + beside + bytes(lent, number), beside, GUARD_BYTE);
}

static uint64_t call(void *argument) {
    struct lent *lent = argument;
    void **at = lent->at;
    const uint64_t *length = lent->asked.length;
    switch (lent->asked.call) {
    case NOTHING: return 0;
    case READ: return arrabolzu_read(at[0], length[0], lent->asked.at);
    case ADD: return arrabolzu_add(at[0], length[0], at[1], length[1]);
    case MINE: return arrabolzu_mine(at[0], length[0], at[1], length[1], at[2], length[2]);
    case CHECK: return arrabolzu_check(at[0], length[0]);
    case JUDGE: return arrabolzu_judge(at[0], length[0], at[1], length[1], at[2], length[2]);
    }
    exit(2);
    return 0;
}

static uint8_t painted[STACK] __attribute__((aligned(16)));

/* Makes the call on the painted stack; the stack's use is counted from the call's own frame on. */
static uint64_t call_on_paint(struct lent *lent, uint64_t *stack) {
    fill(painted, STACK, PAINT_BYTE);
    uint64_t answer = on_stack(lent, call, painted + STACK);
    size_t untouched = 0;
    while (untouched < STACK && painted[untouched] == PAINT_BYTE) untouched++;
    *stack = STACK - untouched;
    return answer;
}

static void serve(struct lent *lent) {
    struct reply reply = {0, 1, 0};
    int slices = lent->asked.slices;
    for (int i = 0; i < slices; i++) lend(lent, i);
    reply.answer = lent->asked.paint ? call_on_paint(lent, &reply.stack) : call(lent);
    for (int i = 0; i < slices; i++) reply.guards_hold &= guards_hold(lent, i);
    put(&reply, sizeof reply);
    for (int i = 0; i < slices; i++) {
        put(lent->cells[i] + guard(lent, i), bytes(lent, i));
        free(lent->cells[i]);
    }
}

int main(void) {
    for (;;) {
        struct lent lent;
        get(&lent.asked, sizeof lent.asked);
        serve(&lent);
    }
}
