/* Stack and instructions of the condition layer's two calls: bin/measure conditions */
#include "meter.h"
u8 meter_holds(const u8 *text, u64 length, const u32 *view);
u32 meter_judge(const u8 *text, u64 length, u32 steps, u32 inputs, u8 hold);

static u8 text[64];
static u64 length;
static u32 view[37];
static volatile u32 answer;
static void call_holds(void) { answer = meter_holds(text, length, view); }
static void call_judge(void) { answer = meter_judge(text, length, 30, 32, 0); }

static void add(const char *part, int times) {
    while (times--)
        for (const char *p = part; *p; p++) text[length++] = *p;
}
static void show(const char *name) {
    struct reading holds = meter(call_holds, meter_holds), judge = meter(call_judge, meter_judge);
    u64 tenths = holds.instructions * 10 / length;
    printf("| %-28s | %2lu | %5lu | %5lu | %5lu | %5lu | %3lu.%lu |\n", name, length, holds.stack, holds.instructions, judge.stack, judge.instructions, tenths / 10, tenths % 10);
    length = 0;
}

int main(void) {
    meter_begin();
    printf("| Condition                    | bytes | holds: stack | instructions | judge: stack | instructions | holds, per byte |\n|---|---|---|---|---|---|---|\n");
    add("1", 1), show("`1`");
    add("ui0", 1), show("`ui0`");
    add("!i0", 1), show("`!i0`");
    add("200/x2", 1), show("`200/x2`");
    add("x1.!x5", 1), show("`x1.!x5`");
    add("!(x3.x5)", 1), show("`!(x3.x5)`");
    add("(", 1), add("x1", 1), add(")", 1), show("1 bracket, `(x1)`");
    add("(", 2), add("x1", 1), add(")", 2), show("2 brackets, `((x1))`");
    add("(", 31), add("x1", 1), add(")", 31), show("31 brackets");
    add("!", 63), add("1", 1), show("63 `!`");
    add("1+", 31), add("1", 1), show("32 terms, `1+1+..`");
    add("1.", 31), add("1", 1), show("32 factors, `1.1...`");
    add("(1+", 15), add("(1)", 1), add(")", 15), show("`(1+(1+..`");
    add("!(", 20), add("!ux1", 1), add(")", 20), show("`!(!(..`");
    add("(", 26), add("3600000/x29", 1), add(")", 26), show("a delay in 26 brackets");
    add("(", 30), add("ui0", 1), add(")", 30), show("an edge in 30 brackets");
    add("x1.i2+", 10), add("x21", 1), show("`x1.i2+..`");
    add("3600000/x29.!ui31+(dx12.x11+!i30).(x0+x1+x2).!(x28.x27)+di0", 1), show("a mixture");
    return 0;
}
