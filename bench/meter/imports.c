/* Stack of one import, SFC text in and chart text out, as a host program calls it: bin/measure imports. Instructions: bin/compare import-ratios */
#include "meter.h"
#include "texts.h"

#include "grafcet.h"

static u8 room[GRAFCET_IMPORT_ROOM];
static u32 out[GRAFCET_IMPORT_WORDS];
static void call_import(void) { grafcet_import(chart, chart_length, room, sizeof room, out, GRAFCET_IMPORT_WORDS); }

static u64 before;
static void show(const char *name) {
    struct reading r = meter_stack(call_import, before);
    printf("| %-44s | %5lu | %6u | %5lu |\n", name, chart_length, out[GRAFCET_NUMBER], r.stack);
}

static void press_text(void) {
    chart_length = 0;
    put("INITIAL_STEP Rest: Lamp(N); END_STEP\nTRANSITION FROM Rest TO (Up, Down) := go AND NOT (stop OR FALSE); END_TRANSITION\n"
        "STEP Down: Valve(R); END_STEP\nSTEP Up: Valve(S); lamp(n); END_STEP\nTRANSITION FROM (Down, Up) TO rest := TRUE; END_TRANSITION\n");
}
/* a ring of steps, each with a transition to the next and two actions */
static void ring_text(u32 steps) {
    chart_length = 0;
    for (u32 i = 0; i < steps; i++) {
        put(i ? "STEP Station_" : "INITIAL_STEP Station_"), put_number(i), put(":\n    Lamp_"), put_number(i % 16), put("(N);\n    Valve_"), put_number(i % 16);
        put("(S);\nEND_STEP\nTRANSITION FROM Station_"), put_number(i), put(" TO Station_"), put_number((i + 1) % steps), put(" :=\n    Sensor_");
        put_number(i), put(" AND NOT (Sensor_"), put_number((i + 1) % steps), put(" OR Sensor_"), put_number((i + 2) % steps), put(");\nEND_TRANSITION\n");
    }
}
/* a condition of 31 brackets */
static void deep_text(void) {
    chart_length = 0;
    put("INITIAL_STEP A: END_STEP\nTRANSITION FROM A TO A := ");
    for (u32 i = 0; i < 31; i++) put("(");
    put("x");
    for (u32 i = 0; i < 31; i++) put(")");
    put(";\nEND_TRANSITION\n");
}
/* as many declarations as a text has room for, in one line */
static void crowd_text(void) {
    chart_length = 0;
    for (u32 i = 0; chart_length < sizeof chart - 32; i++) put("STEP S"), put_number(i), put(": END_STEP ");
}

int main(void) {
    meter_begin();
    press_text(), meter(call_import, grafcet_import), before = meter_before;
    printf("| SFC text                                     | bytes | answer | stack |\n|---|---|---|---|\n");
    show("a press: three steps, two transitions");
    ring_text(30), show("a ring of 30 steps");
    deep_text(), show("a condition of 31 brackets");
    crowd_text(), show("declarations in one line, the 31st refused");
    return 0;
}
