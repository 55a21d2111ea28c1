/*
 * The tilt bracket's drive board, for C: its events, the program check and the display's side.
 *
 * The functions are proved (README.md, docs/PROMISES.md): each takes every input, has one answer for it,
 * and leaves every lent byte as the proof says. No caller checks first. They keep no state and allocate
 * nothing; a board is what the caller lends:
 *
 *     int32_t registers[DHIKMARUL_REGISTERS];       the registers' image, see DHIKMARUL_AT_*
 *     uint8_t program[DHIKMARUL_PROGRAM_LENGTH];    the program store: 1,024 records of 7 bytes
 *     uint8_t cells[DHIKMARUL_CELLS_LENGTH];        the parameter store: 91 cells of 4 bytes
 *     uint8_t reply[DHIKMARUL_FRAME_LENGTH];        the reply buffer
 *
 * Working values live in `registers`, stored values in `cells`; nothing keeps one for the other.
 *
 * What the caller owes is what C always asks: each pointer has as many elements behind it as its length
 * (or its array's size) says, what is written is lent to nobody else meanwhile, and no pointer is null
 * unless its length is 0. Two calls on different boards may run at once.
 *
 * Build: `rt lib` in crates/dhikmarul, then link crates/dhikmarul/out/libdhikmarul.a (x86-64).
 */
#ifndef DHIKMARUL_H
#define DHIKMARUL_H

#include <stddef.h>
#include <stdint.h>

#ifdef __cplusplus
extern "C" {
#endif

/* ---- Lengths */

#define DHIKMARUL_REGISTERS                          137   /* numbers of the registers' image */
#define DHIKMARUL_PROGRAM_LENGTH                     7168   /* bytes of the program store */
#define DHIKMARUL_RECORDS                            1024   /* records of the program store */
#define DHIKMARUL_RECORD_LENGTH                      7   /* bytes of a record: command, type, motor, value */
#define DHIKMARUL_CELLS_LENGTH                       364   /* bytes of the parameter store */
#define DHIKMARUL_CELLS                              91   /* cells of the parameter store */
#define DHIKMARUL_FRAME_LENGTH                       9   /* bytes of a command and of a reply */
#define DHIKMARUL_SAMPLE_FIELDS                      16   /* fields of a sample */
#define DHIKMARUL_REPLY_NUMBERS                      5   /* numbers of a reply that was read */
#define DHIKMARUL_BUDGET_MOST                        1000   /* most steps of one run */
#define DHIKMARUL_DEPTH_MOST                         8   /* entries of the call stack */
#define DHIKMARUL_USER_VARIABLES                     56

/* ---- Numbers answered */

#define DHIKMARUL_STATUS_NO_REPLY                    0   /* datagram: another length, or not our address */
#define DHIKMARUL_STATUS_CHECKSUM                    1   /* checksum wrong */
#define DHIKMARUL_STATUS_UNKNOWN                     2   /* command unknown or not built */
#define DHIKMARUL_STATUS_WRONG_TYPE                  3   /* type wrong, or access not allowed */
#define DHIKMARUL_STATUS_WRONG_VALUE                 4   /* motor or bank wrong; value wrong */
#define DHIKMARUL_STATUS_LOCKED                      5   /* stored settings or program locked */
#define DHIKMARUL_STATUS_NOT_NOW                     6   /* not available now */
#define DHIKMARUL_STATUS_LENGTH                      20   /* a lent store or buffer of another length */
#define DHIKMARUL_STATUS_SAMPLE_RANGE                21   /* a sample field out of range */
#define DHIKMARUL_STATUS_BUDGET                      22   /* a budget above DHIKMARUL_BUDGET_MOST */
#define DHIKMARUL_STATUS_HANDED_IN                   23   /* registers handed in out of range */
#define DHIKMARUL_STATUS_DONE                        100   /* done */
#define DHIKMARUL_STATUS_STORED                      101   /* put in program memory */

/* ---- Commands */

#define DHIKMARUL_ROR                                1   /* rotate right: value is the velocity */
#define DHIKMARUL_ROL                                2   /* rotate left */
#define DHIKMARUL_MST                                3   /* motor stop */
#define DHIKMARUL_MVP                                4   /* move to position */
#define DHIKMARUL_SAP                                5   /* set axis parameter */
#define DHIKMARUL_GAP                                6   /* get axis parameter: the working value */
#define DHIKMARUL_STAP                               7   /* store axis parameter in its cell */
#define DHIKMARUL_RSAP                               8   /* restore axis parameter from its cell */
#define DHIKMARUL_SGP                                9   /* set global parameter */
#define DHIKMARUL_GGP                                10   /* get global parameter */
#define DHIKMARUL_STGP                               11   /* store user variable */
#define DHIKMARUL_RSGP                               12   /* restore user variable */
#define DHIKMARUL_SIO                                14   /* set output */
#define DHIKMARUL_GIO                                15   /* get input or output */
#define DHIKMARUL_CALC                               19   /* calculate with a value */
#define DHIKMARUL_COMP                               20   /* compare the accumulator */
#define DHIKMARUL_JC                                 21   /* jump conditional (programs only) */
#define DHIKMARUL_JA                                 22   /* jump always (programs only) */
#define DHIKMARUL_CSUB                               23   /* call subroutine (programs only) */
#define DHIKMARUL_RSUB                               24   /* return (programs only) */
#define DHIKMARUL_WAIT                               27   /* wait (programs only) */
#define DHIKMARUL_STOP                               28   /* stop (programs only) */
#define DHIKMARUL_CALCX                              33   /* calculate with X */
#define DHIKMARUL_AAP                                34   /* accumulator to axis parameter */
#define DHIKMARUL_AGP                                35   /* accumulator to global parameter */
#define DHIKMARUL_CLE                                36   /* clear error flags */
#define DHIKMARUL_STOP_PROGRAM                       128   /* stop the program */
#define DHIKMARUL_RUN_PROGRAM                        129   /* run the program */
#define DHIKMARUL_STEP_PROGRAM                       130   /* one step */
#define DHIKMARUL_RESET_PROGRAM                      131   /* stop, address 0, stack empty */
#define DHIKMARUL_START_DOWNLOAD                     132   /* store what follows, from the address in value */
#define DHIKMARUL_END_DOWNLOAD                       133
#define DHIKMARUL_READ_PROGRAM                       134   /* read the record at the address in value */
#define DHIKMARUL_GET_STATUS                         135   /* running 0 or 1 */
#define DHIKMARUL_FACTORY_DEFAULTS                   137   /* value DHIKMARUL_SURE */
#define DHIKMARUL_RESET_BOARD                        255   /* as power-up; value DHIKMARUL_SURE */
#define DHIKMARUL_SURE                               1234   /* the value that 137 and 255 want */

/* ---- Type words */

#define DHIKMARUL_MVP_ABS                            0
#define DHIKMARUL_MVP_REL                            1
#define DHIKMARUL_CALC_ADD                           0   /* CALC and CALCX */
#define DHIKMARUL_CALC_SUB                           1
#define DHIKMARUL_CALC_MUL                           2
#define DHIKMARUL_CALC_DIV                           3
#define DHIKMARUL_CALC_MOD                           4
#define DHIKMARUL_CALC_AND                           5
#define DHIKMARUL_CALC_OR                            6
#define DHIKMARUL_CALC_XOR                           7
#define DHIKMARUL_CALC_NOT                           8
#define DHIKMARUL_CALC_LOAD                          9   /* CALC: value to accumulator; CALCX: accumulator to X */
#define DHIKMARUL_CALCX_SWAP                         10   /* accumulator and X change places */
#define DHIKMARUL_JC_ZE                              0   /* accumulator 0 */
#define DHIKMARUL_JC_NZ                              1
#define DHIKMARUL_JC_EQ                              2   /* the last COMP */
#define DHIKMARUL_JC_NE                              3
#define DHIKMARUL_JC_GT                              4
#define DHIKMARUL_JC_GE                              5
#define DHIKMARUL_JC_LT                              6
#define DHIKMARUL_JC_LE                              7
#define DHIKMARUL_JC_ETO                             8   /* timeout flag */
#define DHIKMARUL_JC_EAL                             9   /* alarm flag */
#define DHIKMARUL_JC_EDV                             10   /* deviation flag */
#define DHIKMARUL_JC_EPO                             11   /* position flag */
#define DHIKMARUL_WAIT_TICKS                         0   /* value in 10 ms */
#define DHIKMARUL_WAIT_POS                           1   /* position reached */
#define DHIKMARUL_WAIT_REFSW                         2   /* home switch */
#define DHIKMARUL_WAIT_LIMSW                         3   /* right or left switch */
#define DHIKMARUL_CLE_ALL                            0
#define DHIKMARUL_CLE_ETO                            1
#define DHIKMARUL_CLE_EAL                            2
#define DHIKMARUL_CLE_EDV                            3
#define DHIKMARUL_CLE_EPO                            4
#define DHIKMARUL_RUN_HERE                           0   /* 129: from the present address */
#define DHIKMARUL_RUN_FROM                           1   /* 129: from the address in value */
#define DHIKMARUL_PROGRAM_VALUE                      0   /* 134: the record's value */
#define DHIKMARUL_PROGRAM_COMMAND                    1   /* 134: command x 65,536 + type x 256 + motor */

/* ---- Values with a meaning of their own */

#define DHIKMARUL_WAIT_ACCUMULATOR                   (-1)   /* WAIT TICKS: as many ticks as the accumulator says */
#define DHIKMARUL_OFF                                0   /* of an output, input, switch, alarm or flag */
#define DHIKMARUL_ON                                 1
#define DHIKMARUL_LESS                               (-1)   /* of DHIKMARUL_AT_COMPARISON */
#define DHIKMARUL_EQUAL                              0
#define DHIKMARUL_GREATER                            1
#define DHIKMARUL_UNUSED                             0   /* a field that the command does not use */
#define DHIKMARUL_BOARD_ADDRESS                      1   /* where a new board answers */
#define DHIKMARUL_HOST_ADDRESS                       2   /* where a new board replies to */

/* ---- Motors, banks and ports */

#define DHIKMARUL_MOTOR                              0   /* the one motor */
#define DHIKMARUL_BANK_SETTINGS                      0   /* SGP, GGP, AGP: DHIKMARUL_GLOBAL_* */
#define DHIKMARUL_BANK_USER                          2   /* user variables 0 to 55 */
#define DHIKMARUL_BANK_DIGITAL                       0   /* GIO: digital inputs 0, 1 */
#define DHIKMARUL_BANK_ANALOG                        1   /* GIO: analog inputs 0, 1, 2 */
#define DHIKMARUL_BANK_OUTPUTS                       2   /* SIO, GIO: outputs 0 to 3 */
#define DHIKMARUL_PORT_0                             0   /* type of SIO and GIO */
#define DHIKMARUL_PORT_1                             1
#define DHIKMARUL_PORT_2                             2
#define DHIKMARUL_PORT_3                             3

/* ---- Axis parameters: access, range, default */

#define DHIKMARUL_AXIS_MOTOR_POLE_PAIRS              10   /* RWE, 1..255, 4 */
#define DHIKMARUL_AXIS_MAXIMUM_CURRENT               11   /* RWE, 0..18000, 2000 */
#define DHIKMARUL_AXIS_MOTOR_TYPE                    14   /* RWE, 0, 1 or 3, 3 */
#define DHIKMARUL_AXIS_COMMUTATION_MODE              15   /* RWE, 0..3, 0 */
#define DHIKMARUL_AXIS_MAXIMUM_VELOCITY              43   /* RWE, 0..200000, 4000 */
#define DHIKMARUL_AXIS_ACCELERATION                  44   /* RWE, 0..100000, 2000 */
#define DHIKMARUL_AXIS_MOTOR_HALTED_VELOCITY         47   /* RWE, 0..200000, 10 */
#define DHIKMARUL_AXIS_TARGET_POSITION               50   /* RW, all, 0 */
#define DHIKMARUL_AXIS_RAMP_POSITION                 51   /* R, all, 0 */
#define DHIKMARUL_AXIS_ACTUAL_POSITION               52   /* RW, all, 0 */
#define DHIKMARUL_AXIS_POSITION_REACHED_DISTANCE     53   /* RWE, 0..100000, 50 */
#define DHIKMARUL_AXIS_POSITION_REACHED_VELOCITY     54   /* RWE, 0..200000, 500 */
#define DHIKMARUL_AXIS_POSITION_REACHED_FLAG         55   /* R, 0..1, 0 */
#define DHIKMARUL_AXIS_POSITION_SCALER               56   /* RWE, 6..2147483647, 65536 */
#define DHIKMARUL_AXIS_TORQUE_P                      70   /* RWE, 0..32767, 300 */
#define DHIKMARUL_AXIS_TORQUE_I                      71   /* RWE, 0..32767, 300 */
#define DHIKMARUL_AXIS_VELOCITY_P                    72   /* RWE, 0..32767, 300 */
#define DHIKMARUL_AXIS_VELOCITY_I                    73   /* RWE, 0..32767, 100 */
#define DHIKMARUL_AXIS_POSITION_P                    74   /* RWE, 0..32767, 50 */
#define DHIKMARUL_AXIS_HALL_POLARITY                 90   /* RWE, 0..1, 0 */
#define DHIKMARUL_AXIS_HALL_DIRECTION                91   /* RWE, 0..1, 0 */
#define DHIKMARUL_AXIS_HALL_INTERPOLATION            92   /* RWE, 0..1, 0 */
#define DHIKMARUL_AXIS_HALL_PHI_E_OFFSET             93   /* RWE, -32768..32767, 0 */
#define DHIKMARUL_AXIS_ENCODER_STEPS                 100   /* RWE, 0..16777215, 4096 */
#define DHIKMARUL_AXIS_ENCODER_DIRECTION             101   /* RWE, 0..1, 0 */
#define DHIKMARUL_AXIS_ENCODER_INIT_MODE             102   /* RWE, 0 or 2, 0 */
#define DHIKMARUL_AXIS_ENCODER_INIT_DELAY            104   /* RWE, 0..10000, 1000 */
#define DHIKMARUL_AXIS_ENCODER_INIT_VELOCITY         105   /* RWE, -200000..200000, 100 */
#define DHIKMARUL_AXIS_ENCODER_OFFSET                106   /* RWE, 0..65535, 0 */
#define DHIKMARUL_AXIS_CLEAR_ON_NULL                 107   /* RWE, 0..1, 0 */
#define DHIKMARUL_AXIS_CLEAR_ONCE                    108   /* RWE, 0..1, 0 */
#define DHIKMARUL_AXIS_MOTOR_PWM_FREQUENCY           110   /* RWE, 25000..100000, 25000 */
#define DHIKMARUL_AXIS_ENABLE_BRAKE_CHOPPER          140   /* RWE, 0..1, 0 */
#define DHIKMARUL_AXIS_BRAKE_CHOPPER_VOLTAGE_LIMIT   141   /* RWE, 60..300, 300 */
#define DHIKMARUL_AXIS_BRAKE_CHOPPER_HYSTERESIS      142   /* RWE, 0..50, 5 */
#define DHIKMARUL_AXIS_REFERENCE_SWITCH_ENABLE       209   /* RW, 0..7, 0 */
#define DHIKMARUL_AXIS_REFERENCE_SWITCH_POLARITY     210   /* RW, 0..7, 0 */
#define DHIKMARUL_AXIS_RIGHT_REFERENCE_SWITCH        211   /* R, 0..1, 0 */
#define DHIKMARUL_AXIS_LEFT_REFERENCE_SWITCH         212   /* R, 0..1, 0 */
#define DHIKMARUL_AXIS_HOME_REFERENCE_SWITCH         213   /* R, 0..1, 0 */
#define DHIKMARUL_AXIS_SUPPLY_VOLTAGE                220   /* R, 0..1000, 240 */
#define DHIKMARUL_AXIS_DRIVER_TEMPERATURE            221   /* R, -20..150, 0 */
#define DHIKMARUL_AXIS_DEBUG_VALUE_0                 240   /* RW, all, 0 */

/* ---- Globals of bank 0 */

#define DHIKMARUL_GLOBAL_SERIAL_ADDRESS              66   /* 1..255, 1: our address */
#define DHIKMARUL_GLOBAL_LOCK                        73   /* reads 0 or 1; set DHIKMARUL_LOCK or DHIKMARUL_UNLOCK */
#define DHIKMARUL_GLOBAL_HOST_ADDRESS                76   /* 0..255, 2: the reply's address */
#define DHIKMARUL_GLOBAL_AUTO_START                  77   /* 0..1, 0: whether power-up runs the program */
#define DHIKMARUL_GLOBAL_RUNNING                     128   /* read only */
#define DHIKMARUL_GLOBAL_PROGRAM_ADDRESS             130   /* read only */
#define DHIKMARUL_LOCK                               1234
#define DHIKMARUL_UNLOCK                             4321

/* ---- Places of the registers' image */

#define DHIKMARUL_AT_ACCUMULATOR                     0
#define DHIKMARUL_AT_X                               1
#define DHIKMARUL_AT_COMPARISON                      2   /* -1 less, 0 equal, 1 greater */
#define DHIKMARUL_AT_ETO                             3   /* 0 or 1 */
#define DHIKMARUL_AT_EAL                             4
#define DHIKMARUL_AT_EDV                             5
#define DHIKMARUL_AT_EPO                             6
#define DHIKMARUL_AT_ADDRESS                         7   /* program address, 0..1024 */
#define DHIKMARUL_AT_RUNNING                         8   /* 0 or 1 */
#define DHIKMARUL_AT_WAIT_ARMED                      9   /* 0 or 1 */
#define DHIKMARUL_AT_WAIT_COUNT                      10   /* a uint32_t by its bits */
#define DHIKMARUL_AT_WAIT_TIMED                      11   /* 0 or 1: armed with a value above 0 */
#define DHIKMARUL_AT_DOWNLOAD                        12   /* 0 or 1 */
#define DHIKMARUL_AT_WRITE_ADDRESS                   13   /* 0..1024 */
#define DHIKMARUL_AT_ORDER                           14   /* DHIKMARUL_ORDER_* */
#define DHIKMARUL_AT_VELOCITY                        15   /* of the order velocity */
#define DHIKMARUL_AT_OUTPUTS                         16   /* four, 0 or 1 */
#define DHIKMARUL_AT_DIGITAL                         20   /* two, 0 or 1 */
#define DHIKMARUL_AT_ANALOG                          22   /* three, 0..65535 */
#define DHIKMARUL_AT_DEPTH                           25   /* of the call stack, 0..8 */
#define DHIKMARUL_AT_ENTRIES                         26   /* eight return addresses, first pushed first */
#define DHIKMARUL_AT_GLOBAL_SERIAL_ADDRESS           34
#define DHIKMARUL_AT_GLOBAL_LOCK                     35
#define DHIKMARUL_AT_GLOBAL_HOST_ADDRESS             36
#define DHIKMARUL_AT_GLOBAL_AUTO_START               37
#define DHIKMARUL_AT_USER                            38   /* 56 user variables */
#define DHIKMARUL_AT_AXIS_MOTOR_POLE_PAIRS           94
#define DHIKMARUL_AT_AXIS_MAXIMUM_CURRENT            95
#define DHIKMARUL_AT_AXIS_MOTOR_TYPE                 96
#define DHIKMARUL_AT_AXIS_COMMUTATION_MODE           97
#define DHIKMARUL_AT_AXIS_MAXIMUM_VELOCITY           98
#define DHIKMARUL_AT_AXIS_ACCELERATION               99
#define DHIKMARUL_AT_AXIS_MOTOR_HALTED_VELOCITY      100
#define DHIKMARUL_AT_AXIS_TARGET_POSITION            101
#define DHIKMARUL_AT_AXIS_RAMP_POSITION              102
#define DHIKMARUL_AT_AXIS_ACTUAL_POSITION            103
#define DHIKMARUL_AT_AXIS_POSITION_REACHED_DISTANCE  104
#define DHIKMARUL_AT_AXIS_POSITION_REACHED_VELOCITY  105
#define DHIKMARUL_AT_AXIS_POSITION_REACHED_FLAG      106
#define DHIKMARUL_AT_AXIS_POSITION_SCALER            107
#define DHIKMARUL_AT_AXIS_TORQUE_P                   108
#define DHIKMARUL_AT_AXIS_TORQUE_I                   109
#define DHIKMARUL_AT_AXIS_VELOCITY_P                 110
#define DHIKMARUL_AT_AXIS_VELOCITY_I                 111
#define DHIKMARUL_AT_AXIS_POSITION_P                 112
#define DHIKMARUL_AT_AXIS_HALL_POLARITY              113
#define DHIKMARUL_AT_AXIS_HALL_DIRECTION             114
#define DHIKMARUL_AT_AXIS_HALL_INTERPOLATION         115
#define DHIKMARUL_AT_AXIS_HALL_PHI_E_OFFSET          116
#define DHIKMARUL_AT_AXIS_ENCODER_STEPS              117
#define DHIKMARUL_AT_AXIS_ENCODER_DIRECTION          118
#define DHIKMARUL_AT_AXIS_ENCODER_INIT_MODE          119
#define DHIKMARUL_AT_AXIS_ENCODER_INIT_DELAY         120
#define DHIKMARUL_AT_AXIS_ENCODER_INIT_VELOCITY      121
#define DHIKMARUL_AT_AXIS_ENCODER_OFFSET             122
#define DHIKMARUL_AT_AXIS_CLEAR_ON_NULL              123
#define DHIKMARUL_AT_AXIS_CLEAR_ONCE                 124
#define DHIKMARUL_AT_AXIS_MOTOR_PWM_FREQUENCY        125
#define DHIKMARUL_AT_AXIS_ENABLE_BRAKE_CHOPPER       126
#define DHIKMARUL_AT_AXIS_BRAKE_CHOPPER_VOLTAGE_LIMIT 127
#define DHIKMARUL_AT_AXIS_BRAKE_CHOPPER_HYSTERESIS   128
#define DHIKMARUL_AT_AXIS_REFERENCE_SWITCH_ENABLE    129
#define DHIKMARUL_AT_AXIS_REFERENCE_SWITCH_POLARITY  130
#define DHIKMARUL_AT_AXIS_RIGHT_REFERENCE_SWITCH     131
#define DHIKMARUL_AT_AXIS_LEFT_REFERENCE_SWITCH      132
#define DHIKMARUL_AT_AXIS_HOME_REFERENCE_SWITCH      133
#define DHIKMARUL_AT_AXIS_SUPPLY_VOLTAGE             134
#define DHIKMARUL_AT_AXIS_DRIVER_TEMPERATURE         135
#define DHIKMARUL_AT_AXIS_DEBUG_VALUE_0              136
#define DHIKMARUL_ORDER_STOPPED                      0
#define DHIKMARUL_ORDER_VELOCITY                     1
#define DHIKMARUL_ORDER_POSITION                     2

/* ---- Fields of a sample, and numbers of a reply */

#define DHIKMARUL_SAMPLE_RAMP_POSITION               0   /* sets axis parameter 51 */
#define DHIKMARUL_SAMPLE_ACTUAL_POSITION             1   /* 52 */
#define DHIKMARUL_SAMPLE_REACHED                     2   /* 55 */
#define DHIKMARUL_SAMPLE_RIGHT_SWITCH                3   /* 211 */
#define DHIKMARUL_SAMPLE_LEFT_SWITCH                 4   /* 212 */
#define DHIKMARUL_SAMPLE_HOME_SWITCH                 5   /* 213 */
#define DHIKMARUL_SAMPLE_SUPPLY_VOLTAGE              6   /* 220, 0..1000 */
#define DHIKMARUL_SAMPLE_TEMPERATURE                 7   /* 221, -20..150 */
#define DHIKMARUL_SAMPLE_DIGITAL_0                   8   /* 0 or 1 */
#define DHIKMARUL_SAMPLE_DIGITAL_1                   9
#define DHIKMARUL_SAMPLE_ANALOG_0                    10   /* 0..65535 */
#define DHIKMARUL_SAMPLE_ANALOG_1                    11
#define DHIKMARUL_SAMPLE_ANALOG_2                    12
#define DHIKMARUL_SAMPLE_ALARM_EAL                   13   /* 0 or 1: 1 sets the flag */
#define DHIKMARUL_SAMPLE_ALARM_EDV                   14
#define DHIKMARUL_SAMPLE_ALARM_EPO                   15
#define DHIKMARUL_REPLY_HOST_ADDRESS                 0
#define DHIKMARUL_REPLY_MODULE_ADDRESS               1
#define DHIKMARUL_REPLY_STATUS                       2
#define DHIKMARUL_REPLY_COMMAND                      3
#define DHIKMARUL_REPLY_VALUE                        4

/* ---- The board's side */

/*
 * The cells of a new board: the default of each.
 * Answers DHIKMARUL_STATUS_DONE, or DHIKMARUL_STATUS_LENGTH, and then nothing is written.
 */
uint8_t dhikmarul_new_cells(uint8_t *cells, size_t cells_length);

/*
 * Power-up: each value takes its cell's if that is in range, else its default. Writes the whole image,
 * whatever it held. Answers DHIKMARUL_STATUS_DONE, or DHIKMARUL_STATUS_LENGTH, and then nothing is written.
 */
uint8_t dhikmarul_power_up(int32_t registers[DHIKMARUL_REGISTERS], const uint8_t *cells, size_t cells_length);

/*
 * A datagram of any bytes. Answers the reply's status, and `reply` holds its nine bytes; or
 * DHIKMARUL_STATUS_NO_REPLY, DHIKMARUL_STATUS_LENGTH (program, cells or reply) or
 * DHIKMARUL_STATUS_HANDED_IN, and then nothing is changed. dhikmarul_replied tells the two apart. With
 * statuses 1 to 6 the reply is all that changes.
 */
uint8_t dhikmarul_datagram(int32_t registers[DHIKMARUL_REGISTERS],
                           uint8_t *program, size_t program_length,
                           uint8_t *cells, size_t cells_length,
                           uint8_t *reply, size_t reply_length,
                           const uint8_t *bytes, size_t bytes_length);

/*
 * What inputs, switches and alarms are found to be: DHIKMARUL_SAMPLE_* fields.
 * Answers DHIKMARUL_STATUS_DONE, or DHIKMARUL_STATUS_HANDED_IN or DHIKMARUL_STATUS_SAMPLE_RANGE, and
 * then nothing is changed.
 */
uint8_t dhikmarul_sample(int32_t registers[DHIKMARUL_REGISTERS], const int32_t sample[DHIKMARUL_SAMPLE_FIELDS]);

/* 10 ms more. Answers DHIKMARUL_STATUS_DONE or DHIKMARUL_STATUS_HANDED_IN. */
uint8_t dhikmarul_tick(int32_t registers[DHIKMARUL_REGISTERS]);

/*
 * At most `budget` steps of the program, fewer where it stops or a WAIT holds; `*steps` says how many.
 * Answers the last step's status (DHIKMARUL_STATUS_DONE with no step), or DHIKMARUL_STATUS_LENGTH,
 * DHIKMARUL_STATUS_HANDED_IN or DHIKMARUL_STATUS_BUDGET with 0 steps, and then nothing else is changed.
 */
uint8_t dhikmarul_run(int32_t registers[DHIKMARUL_REGISTERS],
                      const uint8_t *program, size_t program_length,
                      uint8_t *cells, size_t cells_length,
                      size_t budget, size_t *steps);

/*
 * The program check, along every path from address 0. Answers DHIKMARUL_STATUS_DONE for passed, with 0 and 0;
 * DHIKMARUL_STATUS_LENGTH, with 0 and 0; or the status of the bad point of lowest address, then lowest depth,
 * which `*address` and `*depth` name.
 */
uint8_t dhikmarul_check(const uint8_t *program, size_t program_length, uint16_t *address, uint8_t *depth);

/* Whether a datagram's answer says that nine bytes stand in the reply buffer. */
static inline int dhikmarul_replied(uint8_t answer)
{
    return answer != DHIKMARUL_STATUS_NO_REPLY && answer != DHIKMARUL_STATUS_LENGTH
        && answer != DHIKMARUL_STATUS_HANDED_IN;
}

/* ---- The display's side */

/*
 * A command for the module at `address`, nine bytes into `out`.
 * Answers DHIKMARUL_STATUS_DONE, or DHIKMARUL_STATUS_LENGTH for a buffer of another length, and nothing is written.
 */
uint8_t dhikmarul_build_command(uint8_t *out, size_t out_length,
                                uint8_t address, uint8_t command, uint8_t type, uint8_t motor, int32_t value);

/*
 * The DHIKMARUL_REPLY_* numbers of a reply. Answers DHIKMARUL_STATUS_DONE; or DHIKMARUL_STATUS_LENGTH or
 * DHIKMARUL_STATUS_CHECKSUM, and then each number is 0.
 */
uint8_t dhikmarul_read_reply(const uint8_t *bytes, size_t bytes_length, int32_t numbers[DHIKMARUL_REPLY_NUMBERS]);

#ifdef __cplusplus
}
#endif

#endif
