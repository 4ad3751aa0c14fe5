/*
 * The check of a sheet, as a program written in C calls it. docs/sheets.md has the format of a sheet and every rule.
 *
 * In: bytes points at length bytes. They are read and not changed, and not kept. Any bytes will do, and any length.
 * With length 0 no byte is read. bytes must not be NULL. With length 0 a NULL was tried and did no harm, but nothing
 * promises that.
 *
 * Out: 0 where the bytes are the sheet of a Room square. Otherwise the bytes are refused, and
 *     answer / 65536 is the number of the question that got a no,
 *     answer % 65536 is the place of the command at fault: the position of its first byte, counted from 0, or the
 *                    length where the bytes stop too early. It is at most 32,898, however long the bytes are.
 *
 * The questions:
 *     13  is the byte a command, 01 to 05 hex?
 *     14  are the command's operands there? or, where the bytes stop, was END read?
 *     15  may the command stand here?
 *     16  are its operands in range and order?
 *     17  has neither team of the meeting played this round?
 *     18  has neither team played at this venue?
 *     19  have the two teams not met?
 *     20  have all teams played the round that is closed?
 *     21  does END count all meetings?
 *
 * The call allocates nothing and keeps nothing from one call to the next. Its tables lie on the stack, and take about
 * 100,000 bytes of it: mind that in a thread with a small stack.
 */
#ifndef LEAGUE_CHECK_H
#define LEAGUE_CHECK_H

#include <stddef.h>
#include <stdint.h>

#ifdef __cplusplus
extern "C" {
#endif

uint32_t league_check(const uint8_t *bytes, size_t length);

#ifdef __cplusplus
}
#endif

#endif
