/* The fan keeper for C: link with -lsnezhulka, which `rt lib` in crates/snezhulka writes to its out/.
   No pointer may be null, and two buffers of one call may not overlap. Nothing is kept between calls. */
#ifndef SNEZHULKA_H
#define SNEZHULKA_H

#include <stdbool.h>
#include <stddef.h>
#include <stdint.h>

#ifdef __cplusplus
extern "C" {
#endif

/* What snezhulka_replay, snezhulka_steps, snezhulka_reasons, snezhulka_ages and snezhulka_wrong_line give where input or
   buffer has the wrong size (reply 11); the buffer is then as it was. */
#define SNEZHULKA_WRONG_SIZE SIZE_MAX

/* Replays a trace text of at most 65,536 bytes into `report` and gives the length of the report.
   3 bytes for each byte of text, and 26 more, are always enough. */
size_t snezhulka_replay(const uint8_t *text, size_t text_len, uint8_t *report, size_t report_len);

/* Steps a keeper that never had power through a list of events, four numbers each: the kind from 0 (power) to 10 (diode) in
   the order of the trace format, who, arg, val. Puts seven bytes for each event into `outcomes`: answer, data, int, therm,
   fault, duty1, duty2. The answer is 0 or the number of the refusal, 1 to 9 or 13: a sample of a channel whose diode is in
   error, which power and the event diode report. Gives how many bytes those are; the events end before the first that has
   another kind. `count` is the number of numbers; `outcomes` must have room for the outcomes of all events. */
size_t snezhulka_steps(const int32_t *numbers, size_t count, uint8_t *outcomes, size_t outcomes_len);

/* Why both fans have their duties after each of the same events. Puts eight bytes for each event into `reasons`: for fan 1,
   then for fan 2, the number of the reason and its three values, 0 where it has fewer:
     1 output disabled; 2 THERM pulled low from outside; 3 a THERM latch: the lowest channel whose latch is on; 4 target 0;
     5 spinning up: the clock events left; 6 on the ramp: the slots left, 1 for up or 0 for down, the target; 7 set by hand;
     8 demand of a channel: the lowest one that demands the most; one whose diode is in error demands 240 slots.
   Channels are 0 local, 1, 2 remote.
   Before the first accepted power they are 0, the reply number 1, 0, 0. Gives how many bytes those are; the events end before
   the first that has another kind. `reasons` must have room for the reasons after all events. */
size_t snezhulka_reasons(const int32_t *numbers, size_t count, uint8_t *reasons, size_t reasons_len);

/* Since when both fans run, after each of the same events, in clock events, a tenth of a second each; refused ones do not
   count. Puts three numbers for each event into `ages`: the stamp, which counts them since power, and the ages of fan 1 and
   fan 2. An age counts them since the duty of its fan last went from 0 to more, or since a later power or software reset; it
   goes on at duty 0. A software reset keeps the stamp. All three are modulo 65,536, so that an age is the true count while
   fewer than 65,536 have passed, 1 h 49 min 13.6 s. Before the first accepted power they are 0. Gives how many numbers those
   are, three an event; the events end before the first that has another kind. `ages_len` counts numbers, not bytes; `ages`
   must have room for those after all events. */
size_t snezhulka_ages(const int32_t *numbers, size_t count, uint16_t *ages, size_t ages_len);

/* Steps a keeper that never had power through the same events and puts its register image into the first 64 bytes of
   `image`: at each place what a read of that address would return, 0 where there is no register. Gives the reply number:
   0; 1 before the first accepted power; 10 where an event has another kind; 11 where the numbers are no whole events or
   `image` has fewer than 64 bytes. But for 0 the buffer is then as it was. */
size_t snezhulka_image(const int32_t *numbers, size_t count, uint8_t *image, size_t image_len);

/* The cases of a fan's speed: count 0; count 255; any other count, which gives a speed. */
#define SNEZHULKA_NOT_MEASURED 0
#define SNEZHULKA_STALLED 1
#define SNEZHULKA_SPEED 2

/* Steps a keeper that never had power through the same events and puts its panel into the first 5 places of `figures` and the
   first 2 of `cases`. The figures are the temperatures of local, remote 1 and remote 2 in degrees, exactly, and the speeds of
   fan 1 and fan 2 in revolutions a minute, 0.0 where the case of that fan, in `cases`, is not SNEZHULKA_SPEED.
   A temperature is that of the last sample with its offset, also while the diode is in error; 0.0 where there was no sample
   since the last power or reset. A speed is the double nearest to 675,000 over the product of the count, as 0x08 or 0x09 has
   it, and the range, which is 1, 2, 4 or 8 by bits 7:6 of 0x20 or 0x21.
   Gives the reply number: 0; 11 where the numbers are no whole events or a buffer is too short; else 10 where an event has
   another kind; else 1 before the first accepted power. But for 0 both buffers are then as they were. */
size_t snezhulka_panel(const int32_t *numbers, size_t count, double *figures, size_t figures_len, uint8_t *cases,
                       size_t cases_len);

/* A panel with names: of a fan its case, and its speed, which is 0.0 where the case is not SNEZHULKA_SPEED. */
struct snezhulka_fan_speed {
    uint8_t its_case;
    double speed;
};

struct snezhulka_panel_record {
    double local, remote1, remote2;
    struct snezhulka_fan_speed fan1, fan2;
};

/* Puts the panel of snezhulka_panel into `*panel` and gives its reply number. But for 0 `*panel` is as it was. */
static inline size_t snezhulka_panel_of(const int32_t *numbers, size_t count, struct snezhulka_panel_record *panel) {
    double figures[5] = {0};
    uint8_t cases[2] = {0};
    size_t number = snezhulka_panel(numbers, count, figures, 5, cases, 2);
    if (number == 0) {
        panel->local = figures[0];
        panel->remote1 = figures[1];
        panel->remote2 = figures[2];
        panel->fan1.its_case = cases[0];
        panel->fan1.speed = figures[3];
        panel->fan2.its_case = cases[1];
        panel->fan2.speed = figures[4];
    }
    return number;
}

/* Reads the events of a trace text and writes each of them again into `copy`, from its start, up to the first that is not
   well-formed or does not fit. Gives how many bytes that are: the same that the text starts with, since an event has one
   text only. The other bytes of `copy` are as they were. */
size_t snezhulka_rewrite(const uint8_t *text, size_t text_len, uint8_t *copy, size_t copy_len);

/* Puts the first wrong line of a trace text, without its newline, into `line`, from its start, and gives its length: 0 where
   no line is wrong, or the wrong one is empty or missing. The other bytes of `line` are as they were. */
size_t snezhulka_wrong_line(const uint8_t *text, size_t text_len, uint8_t *line, size_t line_len);

/* A keeper on a shared alert line: its address, 44 to 46, and whether it asserts the line. */
struct snezhulka_alert_entry {
    uint8_t address;
    bool asserting;
};

/* Answers a read of the SMBus alert response address, 0x0C: looks through a row of keepers for the lowest address that
   asserts the line. Gives the reply number: 0; 6 where an address is outside 44 to 46; else 12 where no entry asserts, also
   where there is none, or two have one address, asserting or not. With 0 that address is in `*data` and its entry asserts no
   more; give that keeper the event alert. The other entries are as they were, and but for 0 so are all of them and `*data`.
   `count` is the number of entries. */
uint8_t snezhulka_alert(struct snezhulka_alert_entry *row, size_t count, uint8_t *data);

#ifdef __cplusplus
}
#endif

#endif
