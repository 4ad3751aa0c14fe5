/*
 * The hall screen: reads a sheet from standard input, and shows its league on standard output, or that it is refused.
 *
 * Accepted, exit status 0: a heading, then each round in turn, with a line for each of its meetings by rising venue.
 *
 *     TEAMS 8 ROUNDS 7 VENUES 7 MEETINGS 28
 *     ROUND 0
 *       VENUE 0: 0 - 7
 *       VENUE 1: 2 - 6
 *
 * Refused, exit status 1: one line, with the number of the question that got a no and the place of its command.
 *
 *     REFUSED 14 PLACE 0
 *
 * Exit status 2: the input could not be read, or the output not written. Standard error says which.
 *
 * Teams, rounds and venues have their numbers of the sheet, from 0. Numbers are in base ten, and each line ends with
 * one newline. Scripts may rely on every byte of this.
 */
#include "league_check.h"

#include <inttypes.h>
#include <stdio.h>

/*
 * The longest sheet, and the longest command after it. A command after END is refused, and the number depends on
 * whether it is whole: so it must be kept whole. The reading goes no further, and no later byte can change the answer.
 */
enum { LONGEST_SHEET = 32898, LONGEST_COMMAND = 4, KEPT = LONGEST_SHEET + LONGEST_COMMAND };

/* The commands that are looked for, and how many bytes a command takes with its operands. */
enum { ROUND = 0x02, MEET = 0x03 };
enum { SIDE_BYTES = 2, ROUND_BYTES = 2, MEET_BYTES = 4, CLOSE_BYTES = 1 };

/* Shows the round whose ROUND command is given. The answer is the command after its CLOSE. */
static const uint8_t *show_round(const uint8_t *command)
{
    printf("ROUND %d\n", command[1]);
    command += ROUND_BYTES;
    while (command[0] == MEET) {
        printf("  VENUE %d: %d - %d\n", command[1], command[2], command[3]);
        command += MEET_BYTES;
    }
    return command + CLOSE_BYTES;
}

/*
 * Shows an accepted sheet. Nothing is checked here again: league_check accepts only whole sheets, with every command in
 * its place, so each round ends with CLOSE, and END stands after the last one.
 */
static void show_league(const uint8_t *sheet)
{
    int side = sheet[1];
    printf("TEAMS %d ROUNDS %d VENUES %d MEETINGS %d\n", side + 1, side, side, side * (side + 1) / 2);
    const uint8_t *command = sheet + SIDE_BYTES;
    while (command[0] == ROUND) {
        command = show_round(command);
    }
}

int main(void)
{
    /* Not cleared, so that valgrind notices where a byte counts that was never read. */
    uint8_t bytes[KEPT];
    size_t length = fread(bytes, 1, sizeof bytes, stdin);
    if (ferror(stdin)) {
        perror("hall_screen: standard input");
        return 2;
    }
    uint32_t answer = league_check(bytes, length);
    if (answer == 0) {
        show_league(bytes);
    } else {
        printf("REFUSED %" PRIu32 " PLACE %" PRIu32 "\n", answer / 65536, answer % 65536);
    }
    /* A screen that was cut must not pass for a whole one. */
    if (fflush(stdout) != 0 || ferror(stdout)) {
        perror("hall_screen: standard output");
        return 2;
    }
    return answer == 0 ? 0 : 1;
}
