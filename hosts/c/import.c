/* The quarter-turn rig brought in from SFC text, from C: the answer, the chart's text and the map of names, as the import program prints them. */
#include <stdio.h>

#include "grafcet.h"

static const char sfc[] =
    "(* The quarter-turn rig as another shop writes it: shoot the riser, roll the step a quarter turn, shoot the tread. *)\n"
    "INITIAL_STEP Rest:\n"
    "    Clamp(R);\n"
    "END_STEP\n"
    "\n"
    "TRANSITION FROM Rest TO Riser := start AND NOT (door OR stop);\n"
    "END_TRANSITION\n"
    "\n"
    "STEP Riser:\n"
    "    Clamp(S);\n"
    "    Shutter(N);\n"
    "END_STEP\n"
    "\n"
    "TRANSITION FROM Riser TO Roll := shot;\n"
    "END_TRANSITION\n"
    "\n"
    "STEP Roll:\n"
    "    Motor(S);\n"
    "END_STEP\n"
    "\n"
    "TRANSITION FROM Roll TO Tread := turned AND NOT shot;\n"
    "END_TRANSITION\n"
    "\n"
    "STEP Tread:\n"
    "    Motor(R);\n"
    "    Shutter(N);\n"
    "END_STEP\n"
    "\n"
    "TRANSITION FROM Tread TO Rest := shot OR stop;\n"
    "END_TRANSITION\n";

/* What the calls lend: the chart's text is written to the room. */
static uint8_t room[GRAFCET_IMPORT_ROOM];
static uint32_t out[GRAFCET_IMPORT_WORDS];
static uint32_t part[GRAFCET_PAIR_WORDS];

static void show_bytes(const uint8_t *bytes, size_t count) {
    size_t i;

    for (i = 0; i < count; i++)
        printf("%c", bytes[i]);
}

/* The names of a kind by their numbers, up to the first number that has none. */
static void show_names(const uint8_t *text, size_t length, uint32_t kind, const char *key) {
    uint32_t k;

    for (k = 0; grafcet_name(text, length, kind, k, part, GRAFCET_PAIR_WORDS) == GRAFCET_MADE && part[GRAFCET_LENGTH] != 0; k++) {
        printf("%s=%lu:", key, (unsigned long)k);
        show_bytes(text + part[GRAFCET_START], part[GRAFCET_LENGTH]);
        printf("\n");
    }
}

int main(void) {
    const uint8_t *text = (const uint8_t *)sfc;
    const size_t length = sizeof sfc - 1;

    if (grafcet_import(text, length, room, sizeof room, out, GRAFCET_IMPORT_WORDS) != GRAFCET_MADE)
        return 1;
    printf("ans=%lu\nn=%lu\n", (unsigned long)out[GRAFCET_NUMBER], (unsigned long)out[GRAFCET_LINE]);
    if (out[GRAFCET_NUMBER] != 0)
        return 0;
    show_bytes(room, out[GRAFCET_IMPORT_LENGTH]);
    show_names(text, length, GRAFCET_STEPS, "step");
    show_names(text, length, GRAFCET_INPUT_NAMES, "input");
    show_names(text, length, GRAFCET_OUTPUT_NAMES, "output");
    return 0;
}
