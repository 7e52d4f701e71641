/* Reads a log on standard input, mines its tree, and judges every episode of the log and one more against it. */
#include <stdio.h>

#include "arrabolzu.h"

static uint8_t log_bytes[ARRABOLZU_LOG + 1];
static uint8_t tree[ARRABOLZU_BLOCK];
static uint8_t mine_work[ARRABOLZU_MINE_WORK];
static uint64_t judge_work[ARRABOLZU_JUDGE_WORK];

/* Prints a refusal and answers whether there was one. */
static int refused(const char *call, uint64_t answer) {
    if (ARRABOLZU_REFUSAL(answer) == 0) {
        return 0;
    }
    printf("%s refused %u at %u\n", call, ARRABOLZU_REFUSAL(answer), (unsigned)ARRABOLZU_VALUE(answer));
    return 1;
}

static int judge(const uint8_t *episode, size_t length) {
    uint64_t answer = arrabolzu_judge(tree, sizeof tree, episode, length, judge_work, ARRABOLZU_JUDGE_WORK);
    return !refused("judging", answer) && ARRABOLZU_VALUE(answer) == 1;
}

/* How many episodes of a block fit. */
static unsigned fitting(const uint8_t *block) {
    unsigned fits = 0;
    size_t at = 1;
    for (unsigned record = 0; record < block[0]; record++) {
        uint64_t answer = arrabolzu_read(block, ARRABOLZU_BLOCK, at);
        if (refused("reading", answer)) {
            return fits;
        }
        size_t next = ARRABOLZU_VALUE(answer);
        fits += judge(block + at + 1, next - at - 1) ? 1 : 0;
        at = next;
    }
    return fits;
}

int main(void) {
    size_t length = fread(log_bytes, 1, sizeof log_bytes, stdin);
    uint64_t mined = arrabolzu_mine(log_bytes, length, tree, sizeof tree, mine_work, sizeof mine_work);
    if (refused("mining", mined)) {
        return 1;
    }
    printf("mined %u nodes\n", (unsigned)ARRABOLZU_VALUE(mined));
    unsigned episodes = 0;
    unsigned fits = 0;
    for (size_t base = 0; base < length; base += ARRABOLZU_BLOCK) {
        episodes += log_bytes[base];
        fits += fitting(log_bytes + base);
    }
    printf("%u of %u episodes fit\n", fits, episodes);
    static const uint8_t other[] = {30};
    printf("the episode 30 %s\n", judge(other, sizeof other) ? "fits" : "does not fit");
    return 0;
}
