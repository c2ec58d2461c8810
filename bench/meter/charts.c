/* Stack and instructions of the chart reader's check: bin/measure charts */
#include "meter.h"
#include "texts.h"
u32 meter_check(const u8 *text, u64 length);

static volatile u32 answer;
static void call_check(void) { answer = meter_check(chart, chart_length); }

static void show(const char *name) {
    struct reading r = meter(call_check, meter_check);
    u64 tenths = r.instructions * 10 / chart_length;
    printf("| %-28s | %5lu | %u | %5lu | %7lu | %3lu.%lu |\n", name, chart_length, answer, r.stack, r.instructions, tenths / 10, tenths % 10);
}

int main(void) {
    meter_begin();
    printf("| Chart                        | bytes | answer | stack | instructions | per byte |\n|---|---|---|---|---|---|\n");
    rig_chart(), show("the paper's rig");
    large_chart(16), show("16 lines of each kind");
    large_chart(32), show("32 lines of each kind");
    large_chart(64), show("64 lines of each kind");
    return 0;
}
