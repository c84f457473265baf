/* The lamp twin as a static library: the answers to a whole log of bus events, from an empty bus, and a store of the settings that
 * tables had, with versions.
 *
 * `./lamptwin --help` lists the lines of a log. An answer line is 'n=LINE code=CODE value=VALUE'; a put's value has bit i set
 * exactly when the device at position i acknowledged.
 *
 * A recorded log has 'at=STAMP' and a space before each line. The stamp counts driver ticks and goes from 2^32 - 1 to 0; what has
 * passed since the last accepted line goes to every driver before the event. Each output of a board has two totals: the ticks or
 * steps of all accepted waits, a line's time among them, at which its lamp was lit, and those at which it was not.
 *
 * A setting says how a board was set up: the lines 'chip=KIND', 'addr=ADDRESS', then 'r<number>=BYTE' for each writable register in
 * map order, r0 to r27 of a PCA9635, r0 to r17 of a PCA9634, r1 to r6 of a PCA9531 or PCA9551, each line with its line feed and
 * each number a decimal without leading zeros. A store is an area of the caller's that keeps up to 256 versions of settings,
 * numbered from 1 on for each of the tables 0 to 63; docs/STORE.md has its bytes.
 *
 * Link with liblamptwin_c.a (made by `./build library`). Nothing checks these declarations against the source,
 * crates/lamptwin_c/src/lib.rt; the tests under library/ do. No call keeps a pointer, allocates, or depends on an earlier call. */
#ifndef LAMPTWIN_H
#define LAMPTWIN_H

#include <stddef.h>
#include <stdint.h>

#ifdef __cplusplus
extern "C" {
#endif

/* No answer line is longer, its line feed included. */
#define LAMPTWIN_ANSWER_ROOM 76

/* The numbers in a row of totals: two for each of 16 outputs of 8 boards. */
#define LAMPTWIN_TOTALS_ROOM 256

/* The bytes of a store. */
#define LAMPTWIN_STORE_SIZE 10240

/* No setting's text is longer, its line feeds included. */
#define LAMPTWIN_SETTING_ROOM 233

/* In all calls a pointer names as many bytes, or numbers, as the length behind it says, and is not null even where that is 0;
 * an area has at most PTRDIFF_MAX bytes. */

/* The number of lines: a log is split at line feeds, and what follows the last one is a line if it has a byte. */
size_t lamptwin_lines(const uint8_t *log, size_t log_length);

/* Writes one answer line for each line of the log to the start of answers, and gives how many bytes that took. The bytes behind
 * them stay as they were. If answers has fewer than LAMPTWIN_ANSWER_ROOM bytes for each line of the log, it gives 0 and writes
 * nothing. The two areas must not overlap. */
size_t lamptwin_run(const uint8_t *log, size_t log_length, uint8_t *answers, size_t answers_length);

/* The same for a recorded log: from an empty bus, the first accepted line sets the clock. A refused line does nothing, its time
 * included, and the clock stays. */
size_t lamptwin_replay(const uint8_t *log, size_t log_length, uint8_t *answers, size_t answers_length);

/* Replays a recorded log likewise and writes the totals at its end to totals: at 32 times position plus 2 times output the lit
 * ticks or steps, behind it the unlit ones, and 0 where there is no such output. The numbers behind the first
 * LAMPTWIN_TOTALS_ROOM stay as they were. Gives 0, or 8 if totals has fewer than LAMPTWIN_TOTALS_ROOM numbers, and then writes
 * nothing. The two areas must not overlap. */
uint64_t lamptwin_totals(const uint8_t *log, size_t log_length, uint64_t *totals, size_t totals_length);

/* LAMPTWIN_STORE_SIZE, as the library has it. */
size_t lamptwin_store_size(void);

/* The other calls on a store give 0 where they are done, else the number of the refusal, the least where several hold:
 *    1  save: the setting's first line names an unknown kind, whatever follows it
 *    2  save: its second line has an address that the kind cannot have (a driver's above 127, 3 or 112; a blinker's above 7),
 *       whatever follows it
 *    4  the store has not LAMPTWIN_STORE_SIZE bytes or is of wrong shape; save: the setting is of wrong shape, a register above 255
 *       included; keep: the list has an odd length
 *    6  save, return: the table's next version would have a number above 2^48
 *    8  read: the buffer is too short for the version's setting
 *   11  the table is above 63; return, read: it has no such version; keep: a version listed is not held, for either reason
 *   12  save, return: the store holds 256 versions
 * A refused call writes nothing but 0 to its value. A value is one number and not null, and every call that takes one writes it. A
 * call's areas, its value among them, must not overlap. */

/* Makes a fresh store, which holds no version: writes 0 to each of its bytes, whatever they were. Gives 0, or 4 for another
 * length than LAMPTWIN_STORE_SIZE. */
uint64_t lamptwin_store_fresh(uint8_t *store, size_t store_length);

/* Keeps the setting as the table's next version, whose number is the value: one more than the greatest that the store holds of the
 * table, or 1. Writes the lowest free place of the store and no other byte of it. Gives 0, 1, 2, 4, 6, 11 or 12. */
uint64_t lamptwin_store_save(uint8_t *store, size_t store_length, uint64_t table, const uint8_t *setting, size_t setting_length,
                             uint64_t *value);

/* Goes back to a version of the table: keeps its setting once more, as the table's next version, whose number is the value. Writes
 * one place as a save does, so that nothing earlier is altered. Gives 0, 4, 6, 11 or 12. */
uint64_t lamptwin_store_return(uint8_t *store, size_t store_length, uint64_t table, uint64_t version, uint64_t *value);

/* Writes the setting of a version of the table to the start of buffer; the value is how many bytes that took. In a store that only
 * these calls wrote it is exactly what the save or the return put in. The bytes behind it stay as they were; LAMPTWIN_SETTING_ROOM
 * bytes are enough for any. Gives 0, 4, 8 or 11. */
uint64_t lamptwin_store_read(const uint8_t *store, size_t store_length, uint64_t table, uint64_t version, uint8_t *buffer,
                             size_t buffer_length, uint64_t *value);

/* Makes room: keeps of each table the newest version, whose number is the greatest, and the versions listed, and frees the rest.
 * The value is how many were freed. The list has two numbers for each version, the table, then the version's own; list_length
 * counts numbers and may be 0. The newest may be listed too, and any version more than once. Kept versions stay where they are,
 * with every byte; each byte of a freed place is 0, as in a fresh store, and the place takes a new version. A freed version is no
 * longer read or gone back to, and its number is not given again, since the newest is kept. Of a version that others wrote to two
 * places both are kept, or both freed and counted. No other call but fresh takes a version out of a store. Gives 0, 4 or 11. */
uint64_t lamptwin_store_keep(uint8_t *store, size_t store_length, const uint64_t *list, size_t list_length, uint64_t *value);

#ifdef __cplusplus
}
#endif

#endif
