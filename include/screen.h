/* The screen for C: judges pool transfer files of the British electricity market. Link crates/screen/out/libscreen.a, which
   `rt lib` in crates/screen builds for x86-64 Linux; it needs memcpy and memset of the C library and nothing else. Each function
   is proved to give the answer that its contract in crates/screen states, for all bytes and numbers. example.c calls every one.

   What a caller has to see to, since C can't state it:
   - Bytes are a pointer and a length, with no NUL at their end; cells are a pointer and their number. No pointer is NULL;
     behind one with length 0 nothing is read.
   - An array has the size shown: four cells for answer, 96 bytes for follow.
   - What is written (answer, out, follow, cells) overlaps nothing else that is given to the same call.
   No function keeps anything between calls or allocates, so several threads may call at once; 8 KiB of stack are enough.

   A flow is the eight characters of its name: P0012001, P0133001, P0134001, P0138001, P0164001 or P0181002; or these, a space
   and an edition, 533 or 711, as in "P0133001 711". Where no edition is named, 533 is used. P0133001 has an SB1 of its own in
   each edition; every other flow is the same in both. Records and fields count from 1. An answer is four cells. All four are
   written, whatever they held, and a cell that says nothing is 0:

     cell          0                1           2                3
     any refusal   number, 1 to 22  record or 0 field or 0       byte place
     judge         0                records     0                0
     write, read   0                records     bytes written    0
     export        0                records     bytes written    0
     import        0                lines       bytes written    0
     index         0                records     entries          0
     value, field  0                1: empty    0                0
                   0                2: number   its size         1 if below zero, else 0
                   0                3: truth    1 yes, 0 no      0
                   0                4: text     where it starts  where it ends, both counted from 0, the end not in it
     period        0                3: truth    1 yes, 0 no      0
     step          0                0           kinds to follow  1 if the list is complete, else 0
                   0                place       0                0; the kind, counted from 1, where the list stopped

   The byte place of a refusal counts from 0, in the file, or for screen_write in the sheet, for screen_import in the text. It
   is the first byte of the field; of the record where the field is 0 or not there; 0 where the record is 0; and the length
   where the record is not there, as with 14, with 18 past the last record, and with the footer that screen_write adds. A record
   of a sheet or a text is its line.

   Cell 0 tells a refusal from all else:
      1 no such flow              8 form of a field                15 last line feed absent
      2 more bytes than may be    9 range of a field               16 bar in a sheet or text
      3 record over 512 bytes    10 fixed value or null differs    17 out too short
      4 no kind of this flow     11 key out of its order           18 no such record, field, width, code or period
      5 kind not allowed here    12 record count wrong             19 cells too few for the entries
      6 wrong number of fields   13 checksum wrong                 20 not comma-separated text
      7 required field empty     14 records end before ZPT         21 no such edition
                                                                   22 another flow

   1 is for a name that is none of these, or with anything but a space behind it; 21 for a space with anything but 533 or 711
   behind it, of whichever flow. 21 comes right after 1, before all else that a function may refuse. 22 is for another flow than
   the one that a function is for, which is P0012001 for screen_period. */
#ifndef SCREEN_H
#define SCREEN_H

#ifdef __cplusplus
extern "C" {
#endif

/* The compiler's own names for size_t, uint32_t and uint64_t, so that no other header is needed. */
typedef unsigned char screen_byte;
typedef __SIZE_TYPE__ screen_size;
typedef __UINT32_TYPE__ screen_code;
typedef __UINT64_TYPE__ screen_cell;

/* The codes of types, 0 to 7. */
enum screen_type {
    SCREEN_TEXT, SCREEN_INT, SCREEN_DEC, SCREEN_DATE, SCREEN_DATETIME, SCREEN_BOL, SCREEN_PERIOD, SCREEN_NULL
};

/* The codes of marks, 0 to 2: none; the field may be empty; the field must be the fixed bytes. */
enum screen_mark { SCREEN_BARE, SCREEN_OPT, SCREEN_FIXED };

/* Judges a file for a flow. */
void screen_judge(const screen_byte *flow, screen_size flow_len, const screen_byte *file, screen_size file_len,
                  screen_cell answer[4]);

/* Writes the file of a sheet: a line a record, fields parted by tabs, no ZPT line. The file is the first `bytes written`
   bytes of out. All bytes behind them, and on a refusal all of out, are as before. sheet_len + 26 bytes are always enough. */
void screen_write(const screen_byte *flow, screen_size flow_len, const screen_byte *sheet, screen_size sheet_len,
                  screen_byte *out, screen_size out_len, screen_cell answer[4]);

/* Reads a file to a sheet, which goes to out in the same way. file_len bytes are always enough. */
void screen_read(const screen_byte *flow, screen_size flow_len, const screen_byte *file, screen_size file_len,
                 screen_byte *out, screen_size out_len, screen_cell answer[4]);

/* Exports a file as comma-separated text (RFC 4180), which goes to out in the same way: a line a record, without ZPT, each
   ended CR LF; a field that holds a comma or a quotation mark stands between quotation marks, and those in it are doubled.
   3 * file_len bytes are always enough. */
void screen_export(const screen_byte *flow, screen_size flow_len, const screen_byte *file, screen_size file_len,
                   screen_byte *out, screen_size out_len, screen_cell answer[4]);

/* Imports comma-separated text as a sheet, which goes to out in the same way. Any quoting that RFC 4180 has of fields without
   a line break is taken; the last CR LF may be absent; the empty text is the empty sheet. A text or a sheet over 1,048,000
   bytes is refusal 2; what is no such text, as a line with a tab or a byte that is not printable ASCII, is 20; both before 16,
   a bar. text_len + 1 bytes are always enough. */
void screen_import(const screen_byte *text, screen_size text_len, screen_byte *out, screen_size out_len, screen_cell answer[4]);

/* Gives the value of one field of a file that the flow accepts. A dec is a whole number of units of its last place, a date
   or datetime its digits as one number; the places of a text are places in file. */
void screen_value(const screen_byte *flow, screen_size flow_len, const screen_byte *file, screen_size file_len,
                  screen_size record, screen_size field, screen_cell answer[4]);

/* Says whether a P0012001 file has a period. It stops at the first GSP or GS2 whose period is the asked one or above, and what is
   behind that does not count; up to there, or to the end where there is no such record, it refuses what screen_judge would. Of a
   file that screen_judge accepts the answer is that of all its records. 22, another flow, comes right after 1 and 21, then 18, a
   period outside 1 to 50, both at record 0; then 2. */
void screen_period(const screen_byte *flow, screen_size flow_len, const screen_byte *file, screen_size file_len,
                   screen_size period, screen_cell answer[4]);

/* Judges one field's bytes against a type and a mark; the places of a text are places in bytes. text has its width in p (1
   to 512), int its digits (1 to 18), dec all its digits in p (2 to 18) and those after the point in q (1 to p - 1). Another
   width, type or mark is refusal 18. p and q count only where the type has them, fixed only with SCREEN_FIXED, and with
   SCREEN_NULL the three marks are the same. */
void screen_field(screen_code type, screen_size p, screen_size q, screen_code mark, const screen_byte *fixed,
                  screen_size fixed_len, const screen_byte *bytes, screen_size bytes_len, screen_cell answer[4]);

/* Returns the checksum of all records in some bytes. It refuses nothing. */
screen_code screen_checksum(const screen_byte *bytes, screen_size bytes_len);

/* Steps the flow table through kinds, three bytes each, end to end. Where the list went through, the names of the kinds that
   may follow are at the front of follow, end to end. All bytes behind them, and else all of follow, are as before. */
void screen_step(const screen_byte *flow, screen_size flow_len, const screen_byte *kinds, screen_size kinds_len,
                 screen_byte follow[96], screen_cell answer[4]);

/* Makes an index of a file: an entry for each record that may have children (GS7, SUP, SB1, SB2, and SUB of P0164001), in the
   file's order. An entry is four cells: the record's number; its byte place; its parent's entry, where entries count from 1,
   or its own entry where it has no parent; and the number of its direct children. They are the first cells, 4 * entries of
   them. All cells behind them, and on a refusal all of them, are as before. file_len cells are always enough. */
void screen_index(const screen_byte *flow, screen_size flow_len, const screen_byte *file, screen_size file_len,
                  screen_cell *cells, screen_size cell_count, screen_cell answer[4]);

#ifdef __cplusplus
}
#endif

#endif
