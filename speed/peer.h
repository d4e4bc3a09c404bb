// The screen's answers in plain C: what the Rattle library is timed against.
#include "c.h"

// refused: number, record, field and place; else record is the number of records, and bytes what was written.
struct peer_answer { int refused, number; size_t record, field, place, bytes; };

struct peer_answer peer_judge(const unsigned char *name, size_t name_len, const unsigned char *s, size_t n);
struct peer_answer peer_write(const unsigned char *name, size_t name_len, const unsigned char *s, size_t n, unsigned char *out, size_t room);
struct peer_answer peer_read(const unsigned char *name, size_t name_len, const unsigned char *s, size_t n, unsigned char *out, size_t room);
uint32_t peer_checksum(const unsigned char *s, size_t n);
