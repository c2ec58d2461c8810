/* The paper's rig, driven from C: a start and four events, each answered by four lines as the rig's program prints them. */
#include <stdio.h>

#include "grafcet.h"

static const char chart[] =
    "chart=1\n"
    "steps=4\n"
    "initial=0\n"
    "inputs=2\n"
    "outputs=2\n"
    "limit=16\n"
    "move=0>1:ui0\n"
    "move=1>2:1\n"
    "move=2>3:200/x2\n"
    "move=3>0:!i0\n"
    "hold=1:0:1\n"
    "hold=3:0:i1\n"
    "latch=1:u:1:1\n"
    "latch=3:d:1:0\n"
    "end=8\n";

static const struct event {
    uint32_t elapsed, inputs;
} events[] = {{0, 1}, {199, 1}, {1, 3}, {0, 0}};

/* What the calls lend: the state goes from one call to the next. */
static uint32_t state[GRAFCET_STATE_WORDS];
static uint32_t out[GRAFCET_ANSWER_WORDS];
static uint32_t trace[16];

static void show(void) {
    printf("ans=%lu\nn=%lu\nsit=%lu\nout=%lu\n", (unsigned long)out[GRAFCET_NUMBER], (unsigned long)out[GRAFCET_COUNT],
           (unsigned long)state[GRAFCET_SITUATION], (unsigned long)out[GRAFCET_OUTPUTS]);
}

int main(void) {
    const uint8_t *text = (const uint8_t *)chart;
    const size_t length = sizeof chart - 1;
    const size_t situations = sizeof trace / sizeof trace[0];
    size_t i;

    if (grafcet_start(text, length, 0, state, GRAFCET_STATE_WORDS, out, GRAFCET_ANSWER_WORDS, trace, situations) != GRAFCET_MADE)
        return 1;
    show();
    if (out[GRAFCET_NUMBER] != 0)
        return 0;
    for (i = 0; i < sizeof events / sizeof events[0]; i++) {
        if (grafcet_event(text, length, events[i].elapsed, events[i].inputs, state, GRAFCET_STATE_WORDS, out, GRAFCET_ANSWER_WORDS,
                          trace, situations) != GRAFCET_MADE)
            return 1;
        show();
    }
    return 0;
}
