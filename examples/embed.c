/* A keeper in a C program: power on, watch the local channel, heat it past its THERM limit of 70 degrees, read the status; why
   the fans run as they do after each event, and since when; the panel after the last, and before the first.
   Then three keepers on one alert line, two of which pull it: who answers, until nobody does. */
#include <stdio.h>

#include "snezhulka.h"

enum { POWER, WRITE, POINT, READ, SAMPLE, TACH, PIN, CLOCK };

static void say_fan(int fan, struct snezhulka_fan_speed speed) {
    if (speed.its_case == SNEZHULKA_SPEED)
        printf(", fan %d %.1f rpm", fan, speed.speed);
    else
        printf(", fan %d %s", fan, speed.its_case == SNEZHULKA_STALLED ? "stalled" : "not measured");
}

/* Says the panel after some events, or the answer where there is none. */
static void say_panel(const int32_t *numbers, size_t count) {
    struct snezhulka_panel_record panel;
    size_t answer = snezhulka_panel_of(numbers, count, &panel);
    if (answer == 0) {
        printf("local %.3f, remote 1 %.3f, remote 2 %.3f degrees", panel.local, panel.remote1, panel.remote2);
        say_fan(1, panel.fan1);
        say_fan(2, panel.fan2);
        printf("\n");
    } else {
        printf("no panel, answer %d\n", (int)answer);
    }
}

/* Asks at the alert response address, 0x0C; says the answer, and each keeper with 1 while it pulls the line. */
static uint8_t ask(struct snezhulka_alert_entry *row, size_t count) {
    uint8_t data = 0;
    uint8_t answer = snezhulka_alert(row, count, &data);
    printf("answer %d data %d row", answer, data);
    for (size_t i = 0; i < count; i++)
        printf(" %d:%d", row[i].address, row[i].asserting);
    printf("\n");
    return answer;
}

int main(void) {
    const int32_t events[][4] = {
        {POWER, 44, 0, 0},     {WRITE, 44, 0x00, 0x95}, {CLOCK, 0, 0, 0},       {SAMPLE, 0, 0, 8 * 71},
        {CLOCK, 0, 0, 0},      {CLOCK, 0, 0, 0},        {POINT, 44, 0x03, 0},   {READ, 44, 0, 0},
        {READ, 44, 0, 0},      {SAMPLE, 0, 0, 8 * 65},  {SAMPLE, 0, 0, 8 * 64},
    };
    uint8_t outcomes[sizeof events / sizeof *events][7];
    uint8_t reasons[sizeof events / sizeof *events][2][4];
    uint16_t ages[sizeof events / sizeof *events][3];
    size_t end = snezhulka_steps(*events, sizeof events / sizeof **events, *outcomes, sizeof outcomes);
    size_t told = snezhulka_reasons(*events, sizeof events / sizeof **events, **reasons, sizeof reasons);
    size_t aged = snezhulka_ages(*events, sizeof events / sizeof **events, *ages, sizeof ages / sizeof **ages);
    if (end == SNEZHULKA_WRONG_SIZE || told == SNEZHULKA_WRONG_SIZE || aged == SNEZHULKA_WRONG_SIZE)
        return 1;
    for (size_t i = 0; i < end / 7; i++)
        printf("answer %d data %d therm %d duties %d %d because %d %d stamp %d ages %d %d\n", outcomes[i][0], outcomes[i][1],
               outcomes[i][3], outcomes[i][5], outcomes[i][6], reasons[i][0][0], reasons[i][1][0], ages[i][0], ages[i][1],
               ages[i][2]);
    say_panel(*events, sizeof events / sizeof **events);
    say_panel(*events, 0);
    struct snezhulka_alert_entry row[] = {{46, true}, {44, false}, {45, true}};
    while (ask(row, sizeof row / sizeof *row) == 0) {
        /* here the keeper that answered is given the event alert */
    }
    return 0;
}
