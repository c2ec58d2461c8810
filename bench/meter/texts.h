/* Chart texts of three sizes: the paper's rig, and charts with 30 steps and as many lines of each kind as asked, every condition 64 bytes long.
   With 64 lines of each kind the text is filled up to exactly 16,384 bytes. */
static u8 chart[16384];
static u64 chart_length;
static u32 initial_steps = 1; /* of the large charts: steps 0 on */

static void put(const char *s) {
    while (*s) chart[chart_length++] = *s++;
}
static void put_number(u32 n) {
    if (n > 9) put_number(n / 10);
    chart[chart_length++] = '0' + n % 10;
}
static void put_steps(u32 first, u32 count) {
    for (u32 i = 0; i < count; i++) {
        if (i) put(",");
        put_number(first + i);
    }
}
/* 64 bytes, false in every view of these charts: no move fires */
static void put_condition(void) { put("x29.!x29.(i31+x0.x1+ui0.!dx3)+0.(3600000/x29+!(x28.x27)).x1+0.x0"); }
static void put_hold_condition(void) { put("x29.!x29.(i31+x0.x1+!i0.!x13)+0.(3600000/x29+!(x28.x27)).x1+0.x0"); }

static void rig_chart(void) {
    chart_length = 0;
    put("chart=1\nsteps=4\ninitial=0\ninputs=2\noutputs=2\nlimit=16\n"
        "move=0>1:ui0\nmove=1>2:1\nmove=2>3:200/x2\nmove=3>0:!i0\n"
        "hold=1:0:1\nhold=3:0:i1\nlatch=1:u:1:1\nlatch=3:d:1:0\nend=8\n");
}
/* a move whose steps after are `count` from `first` on */
static void put_move(u32 first, u32 count) {
    put("move="), put_steps(0, 30), put(">"), put_steps(first, count), put(":"), put_condition(), put("\n");
}
static void large_chart(u32 lines) {
    chart_length = 0;
    put("chart=1\nsteps=30\ninitial="), put_steps(0, initial_steps), put("\ninputs=32\noutputs=32\nlimit=1024\n");
    /* what 64 lines of each kind leave of 16,384 bytes: each step more of a list takes three; a list from 8 or 9 on is two or one shorter */
    u32 left = lines == 64 ? 16384 - (u32)chart_length - 64 * (159 + 76 + 16) - 8 : 0;
    u32 first = left % 3 == 1 ? 8 : left % 3 == 2 ? 9 : 10;
    left += 10 - first;
    for (u32 i = 0; i < lines; i++) {
        u32 more = left / 3 < 17 ? left / 3 : 17;
        put_move(i ? 10 : first, 3 + more);
        left -= 3 * more;
    }
    for (u32 i = 0; i < lines; i++) put("hold="), put_number(10 + i % 20), put(":"), put_number(16 + i % 16), put(":"), put_hold_condition(), put("\n");
    for (u32 i = 0; i < lines; i++) put("latch="), put_number(10 + i % 20), put(i % 2 ? ":d:" : ":u:"), put_number(10 + i % 6), put(":"), put_number(i / 2 % 2), put("\n");
    put("end="), put_number(3 * lines), put("\n");
}
