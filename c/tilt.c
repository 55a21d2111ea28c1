/*
 * The board in C: a new board is powered up, the display sets the speed limit and stores it, a program is
 * loaded, checked and run, and an ignition cycle shows which values were only working ones.
 */
#include "dhikmarul.h"

#include <inttypes.h>
#include <stdio.h>
#include <stdlib.h>

/* A board is what the caller lends. */
static int32_t registers[DHIKMARUL_REGISTERS];
static uint8_t program[DHIKMARUL_PROGRAM_LENGTH];
static uint8_t cells[DHIKMARUL_CELLS_LENGTH];
static uint8_t reply[DHIKMARUL_FRAME_LENGTH];

/* Ends the example with what went wrong. */
static void expect(int holds, const char *what)
{
    if (!holds) {
        printf("unexpected: %s\n", what);
        exit(1);
    }
}

/* The display sends a command and reads the reply; answers the reply's status, and its value. */
static int tell(uint8_t command, uint8_t type, uint8_t motor, int32_t value, int32_t *answer)
{
    uint8_t frame[DHIKMARUL_FRAME_LENGTH];
    int32_t numbers[DHIKMARUL_REPLY_NUMBERS];
    dhikmarul_build_command(frame, sizeof frame, DHIKMARUL_BOARD_ADDRESS, command, type, motor, value);
    uint8_t status = dhikmarul_datagram(registers, program, sizeof program, cells, sizeof cells,
                                        reply, sizeof reply, frame, sizeof frame);
    expect(dhikmarul_replied(status), "no reply");
    expect(dhikmarul_read_reply(reply, sizeof reply, numbers) == DHIKMARUL_STATUS_DONE, "a damaged reply");
    *answer = numbers[DHIKMARUL_REPLY_VALUE];
    return numbers[DHIKMARUL_REPLY_STATUS];
}

static void say(const char *what, uint8_t command, uint8_t type, uint8_t motor, int32_t value)
{
    int32_t answer;
    int status = tell(command, type, motor, value, &answer);
    printf("%-44s status %3d, value %" PRId32 "\n", what, status, answer);
}

/* The program: move to 10000, wait until there, light output 0, stop. */
static void load(void)
{
    say("start download at 0", DHIKMARUL_START_DOWNLOAD, DHIKMARUL_UNUSED, DHIKMARUL_UNUSED, 0);
    say("  MVP ABS, 0, 10000", DHIKMARUL_MVP, DHIKMARUL_MVP_ABS, DHIKMARUL_MOTOR, 10000);
    say("  WAIT POS, 0, 500", DHIKMARUL_WAIT, DHIKMARUL_WAIT_POS, DHIKMARUL_MOTOR, 500);
    say("  SIO 0, 2, 1", DHIKMARUL_SIO, DHIKMARUL_PORT_0, DHIKMARUL_BANK_OUTPUTS, DHIKMARUL_ON);
    say("  STOP", DHIKMARUL_STOP, DHIKMARUL_UNUSED, DHIKMARUL_UNUSED, DHIKMARUL_UNUSED);
    say("end download", DHIKMARUL_END_DOWNLOAD, DHIKMARUL_UNUSED, DHIKMARUL_UNUSED, DHIKMARUL_UNUSED);
}

/* What the bracket's sensors say: at the position, nothing pressed, 24 V. */
static const int32_t arrived[DHIKMARUL_SAMPLE_FIELDS] = {
    [DHIKMARUL_SAMPLE_RAMP_POSITION] = 10000,
    [DHIKMARUL_SAMPLE_ACTUAL_POSITION] = 10000,
    [DHIKMARUL_SAMPLE_REACHED] = DHIKMARUL_ON,
    [DHIKMARUL_SAMPLE_SUPPLY_VOLTAGE] = 240,
};

static void run(const char *what)
{
    size_t steps;
    uint8_t status = dhikmarul_run(registers, program, sizeof program, cells, sizeof cells,
                                   DHIKMARUL_BUDGET_MOST, &steps);
    printf("%-44s status %3d, %zu steps, address %" PRId32 ", output 0 is %" PRId32 "\n", what, status, steps,
           registers[DHIKMARUL_AT_ADDRESS], registers[DHIKMARUL_AT_OUTPUTS]);
}

int main(void)
{
    uint16_t address;
    uint8_t depth;

    expect(dhikmarul_new_cells(cells, sizeof cells) == DHIKMARUL_STATUS_DONE, "cells");
    expect(dhikmarul_power_up(registers, cells, sizeof cells) == DHIKMARUL_STATUS_DONE, "power-up");

    say("SAP maximum velocity, 3000 (stored below)", DHIKMARUL_SAP, DHIKMARUL_AXIS_MAXIMUM_VELOCITY,
        DHIKMARUL_MOTOR, 3000);
    say("STAP maximum velocity", DHIKMARUL_STAP, DHIKMARUL_AXIS_MAXIMUM_VELOCITY, DHIKMARUL_MOTOR, DHIKMARUL_UNUSED);
    say("SAP acceleration, 1500 (not stored)", DHIKMARUL_SAP, DHIKMARUL_AXIS_ACCELERATION, DHIKMARUL_MOTOR, 1500);
    load();

    uint8_t verdict = dhikmarul_check(program, sizeof program, &address, &depth);
    printf("%-44s %s\n", "program check", verdict == DHIKMARUL_STATUS_DONE ? "passed" : "refused");
    expect(verdict == DHIKMARUL_STATUS_DONE, "the program is refused");

    say("run from 0", DHIKMARUL_RUN_PROGRAM, DHIKMARUL_RUN_FROM, DHIKMARUL_UNUSED, 0);
    run("on the way");
    expect(dhikmarul_sample(registers, arrived) == DHIKMARUL_STATUS_DONE, "the sample");
    expect(dhikmarul_tick(registers) == DHIKMARUL_STATUS_DONE, "the tick");
    run("there");

    expect(dhikmarul_power_up(registers, cells, sizeof cells) == DHIKMARUL_STATUS_DONE, "power-up");
    say("after ignition: GAP maximum velocity", DHIKMARUL_GAP, DHIKMARUL_AXIS_MAXIMUM_VELOCITY,
        DHIKMARUL_MOTOR, DHIKMARUL_UNUSED);
    say("after ignition: GAP acceleration", DHIKMARUL_GAP, DHIKMARUL_AXIS_ACCELERATION,
        DHIKMARUL_MOTOR, DHIKMARUL_UNUSED);
    return 0;
}
