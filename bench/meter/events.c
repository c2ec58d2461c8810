/* Stack and instructions of one start or event, chart text in and answer out, as a host program calls it: bin/measure events */
#include "meter.h"
#include "texts.h"

#include "grafcet.h"

static u64 room = 1024;
static u32 situation, inputs, state[GRAFCET_STATE_WORDS], out[GRAFCET_ANSWER_WORDS], trace[1024];
/* the given state: steps of age 0, no input on before, no output latched */
static void call_event(void) {
    memset(state, 0, sizeof state);
    state[GRAFCET_SITUATION] = situation;
    grafcet_event(chart, chart_length, 0, inputs, state, GRAFCET_STATE_WORDS, out, GRAFCET_ANSWER_WORDS, trace, room);
}
static void call_start(void) { grafcet_start(chart, chart_length, inputs, state, GRAFCET_STATE_WORDS, out, GRAFCET_ANSWER_WORDS, trace, room); }

static u64 event_before, start_before;
static void print(const char *name, struct reading r) {
    printf("| %-47s | %5lu | %6u | %7u | %5lu | ", name, chart_length, out[GRAFCET_NUMBER], out[GRAFCET_COUNT], r.stack);
    if (r.instructions) printf("%12lu |\n", r.instructions);
    else printf("%12s |\n", "");
}
static void show_event(const char *name) { print(name, meter(call_event, grafcet_event)), event_before = meter_before; }
static void show_start(const char *name) { print(name, meter(call_start, grafcet_start)), start_before = meter_before; }
/* calls of some 18 million instructions */
static void show_long_event(const char *name) { print(name, meter_stack(call_event, event_before)); }
static void show_long_start(const char *name) { print(name, meter_stack(call_start, start_before)); }

/* the bytes `x0.x1. .. .xN-1`, joined to what follows by a dot */
static void put_ones(u32 first, u32 end, const char *after) {
    for (u32 i = first; i < end; i++) {
        if (i > first) put(".");
        put("x"), put_number(i);
    }
    put(after);
}
/* a binary counter in steps 0 to 9: one step is set and those below it are cleared at each firing. When all are active step 11 is set, and it rests:
   1,024 firings from none of them on */
static void counter_chart(void) {
    chart_length = 0;
    put("chart=1\nsteps=12\ninitial=10\ninputs=0\noutputs=0\nlimit=1024\n");
    for (u32 k = 0; k < 10; k++) {
        put("move=>"), put_number(k), put(":");
        if (k) put_ones(0, k, ".");
        put("!x"), put_number(k), put("\n");
    }
    for (u32 k = 0; k < 9; k++) {
        put("move="), put_number(k), put(">:");
        put_ones(0, k + 1, ".!("), put_ones(k + 1, 10, ")\n");
    }
    put("move=>11:"), put_ones(0, 10, ".!x11\n");
    put("end=20\n");
}
/* two steps that hand over to each other without end */
static void restless_chart(void) {
    chart_length = 0;
    put("chart=1\nsteps=2\ninitial=0\ninputs=0\noutputs=0\nlimit=1024\nmove=0>1:1\nmove=1>0:1\nend=2\n");
}
/* one move whose condition is 31 brackets deep, and 63 lines more of each kind */
static void deep_chart(void) {
    large_chart(64);
    for (u64 i = 0; i + 64 < chart_length; i++)
        if (chart[i] == ':' && chart[i + 65] == '\n' && chart[i + 1] == 'x' && chart[i + 4] == '.') {
            u8 *c = chart + i + 1;
            for (int k = 0; k < 31; k++) c[k] = '(', c[33 + k] = ')';
            c[31] = 'x', c[32] = '9';
        }
}

int main(void) {
    meter_begin();
    printf("| %-47s | bytes | answer | firings | stack | instructions |\n|---|---|---|---|---|---|\n", "Call");
    rig_chart(), situation = 1, inputs = 1, show_event("event: the paper's rig, `ev=0:1`");
    inputs = 0, show_event("event: the paper's rig, nothing happens");
    show_start("start: the paper's rig");
    situation = 0x3fffffff;
    large_chart(16), show_event("event: 16 lines of each kind, all steps active");
    large_chart(32), show_event("event: 32 lines of each kind, all steps active");
    large_chart(64), show_event("event: 64 lines of each kind, all steps active");
    deep_chart(), show_event("event: the same with 31 brackets each");
    initial_steps = 30;
    large_chart(64), show_start("start: 64 lines of each kind, all steps initial");
    deep_chart(), show_start("start: the same with 31 brackets each");
    counter_chart();
    situation = 1024 + 1023 - 7, show_event("event: a counter, 8 firings to go");
    situation = 1024 + 1023 - 15, show_event("event: a counter, 16 firings to go");
    situation = 1024, show_long_event("event: a counter, 1,024 firings to go");
    show_long_start("start: the same counter");
    restless_chart(), situation = 1, show_event("event: two steps without rest, limit 1,024");
    room = 0;
    rig_chart(), inputs = 1, show_event("no trace lent: the paper's rig, `ev=0:1`");
    counter_chart(), inputs = 0;
    situation = 1024 + 1023 - 7, show_event("no trace lent: a counter, 8 firings to go");
    situation = 1024 + 1023 - 15, show_event("no trace lent: a counter, 16 firings to go");
    restless_chart(), situation = 1, show_event("no trace lent: two steps without rest");
    return 0;
}
