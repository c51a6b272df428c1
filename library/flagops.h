/* libflagops: feature flags, resolved in your own process.

   Each call does what is said here, for all that C can pass, as long as C keeps these duties:
   1. A pointer and a length are that many bytes, which nobody else writes during the call; what is written overlaps nothing
      else that is passed. With length 0 the pointer may be any but NULL.
   2. A seat begins as FLAGOPS_NONE and ends with flagops_close. C reads and writes none of its fields and makes no copy of
      it; where it is moved, FLAGOPS_NONE stays at its old place.
   3. One call at a time has a seat. The next may come from another thread, ordered by a lock or by the start or join of a
      thread. Calls of different seats may run side by side, also where they share flags.
   4. A bool is 0 or 1.
   5. malloc, realloc and free are of one allocator, whose blocks are aligned to each power of two up to 16 that divides
      their size.
   6. No call comes from a signal handler, nor from the forked child of a process with threads.

   No call starts a thread, waits, or looks at a file, a socket or the clock. A call answers 0, or why not: FLAGOPS_MEMORY
   where memory ran out, or else the first of the refusals that it names, in their order. What takes no memory is never
   refused with FLAGOPS_MEMORY. After a refusal all that was passed is as it was, but for FLAGOPS_ROOM: *written says how
   many bytes are wanted; and for FRAME + fault: the connection has ended. */
#ifndef FLAGOPS_H
#define FLAGOPS_H
#include <stdbool.h>
#include <stddef.h>
#include <stdint.h>
#ifdef __cplusplus
extern "C" {
#endif

typedef struct { void *address; bool held; } flagops_seat;
#define FLAGOPS_NONE { NULL, false }

/* Answers. Those from FLAGOPS_DOCUMENT on come with the number of a fault: FLAGOPS_DOCUMENT + 1 is a document that is no JSON text. */
enum { FLAGOPS_OK, FLAGOPS_MEMORY, FLAGOPS_EMPTY, FLAGOPS_ROOM, FLAGOPS_KEY, FLAGOPS_KIND, FLAGOPS_MOMENT, FLAGOPS_FULL,
       FLAGOPS_NO_CONTEXT, FLAGOPS_NO_RULE, FLAGOPS_DOCUMENT = 10, FLAGOPS_FALLBACK = 20, FLAGOPS_CONTEXT = 30, FLAGOPS_FRAME = 40,
       FLAGOPS_ROLLOUT = 50, FLAGOPS_NOTES = 70, FLAGOPS_TALLY = 80, FLAGOPS_PLAN = 90, FLAGOPS_CHECK = 100, FLAGOPS_KEEP = 110 };
/* of a document */
enum { FLAGOPS_NOT_JSON = 1, FLAGOPS_NO_FLAGS, FLAGOPS_LARGE_DOCUMENT };
/* of a fallback, a JSON text of whole numbers, and of a context, whose numbers may be any (it is never NOT_WHOLE) */
enum { FLAGOPS_NO_TEXT = 1, FLAGOPS_NOT_WHOLE, FLAGOPS_TOO_LARGE, FLAGOPS_TOO_DEEP };
/* of a stream: a length that no frame has, a number that is not above the last one, a document that is refused, and that there
   was a fault before */
enum { FLAGOPS_LENGTH = 1, FLAGOPS_NOT_RISING, FLAGOPS_FRAMED_DOCUMENT, FLAGOPS_FAILED };
/* of a rollout: no request; no such flag, or fractional operation of it; a computed bucket; a name that is no variant; totals that
   the rule's cannot be; a total above 1,000,000; a rule without weight; a changed document that is too large; another page's tally */
enum { FLAGOPS_REQUEST = 1, FLAGOPS_UNKNOWN_FLAG, FLAGOPS_NO_SITE, FLAGOPS_COMPUTED, FLAGOPS_UNKNOWN_VARIANT, FLAGOPS_TOTALS_SUM,
       FLAGOPS_TOTAL_TOO_LARGE, FLAGOPS_NO_WEIGHT = 9, FLAGOPS_LARGE_CHANGE, FLAGOPS_OTHER_TALLY };
/* of note lines: a line of no note, one that is not above the line before it, and too many inputs */
enum { FLAGOPS_LINE = 1, FLAGOPS_ORDER, FLAGOPS_TOO_MANY };
/* of a tally: its first line, its second, a line of a point, the order of points, and inputs that do not add up */
enum { FLAGOPS_TALLY_HEADER = 1, FLAGOPS_TALLY_PAGE, FLAGOPS_TALLY_LINE, FLAGOPS_TALLY_ORDER, FLAGOPS_TALLY_INPUTS };
/* of a plan file, which may also be one that would be written */
enum { FLAGOPS_BAD_PLAN = 1, FLAGOPS_LARGE_PLAN };
/* of the check of a plan: another total; totals out of the limits; a forbidden change; prices above a change's; prices that do not
   sum to the cost; another cost; names that show nothing; prices of other groups or names */
enum { FLAGOPS_WEIGHT = 1, FLAGOPS_TOTALS, FLAGOPS_FORBIDDEN, FLAGOPS_SLACK, FLAGOPS_SUM, FLAGOPS_COST, FLAGOPS_NOT_DEFICIENT,
       FLAGOPS_GROUPS };
/* of a document that keeps its text: buckets in an evaluator, a text that is too long, and one that means other flags */
enum { FLAGOPS_SHARED = 1, FLAGOPS_TOO_LONG, FLAGOPS_DIFFERS };

/* kinds of values, OpenFeature's reasons and its error codes */
enum { FLAGOPS_BOOL, FLAGOPS_STRING, FLAGOPS_INTEGER, FLAGOPS_OBJECT, FLAGOPS_FLOAT };
enum { FLAGOPS_STATIC, FLAGOPS_DEFAULT, FLAGOPS_TARGETING_MATCH, FLAGOPS_DISABLED, FLAGOPS_ERROR };
enum { FLAGOPS_NO_CODE, FLAGOPS_PROVIDER_NOT_READY, FLAGOPS_FLAG_NOT_FOUND, FLAGOPS_PARSE_ERROR, FLAGOPS_TYPE_MISMATCH,
       FLAGOPS_INVALID_CONTEXT, FLAGOPS_GENERAL };

/* Of the bytes that are written, the first `value` are the value as JSON; the others are the variant's name. */
typedef struct { uint32_t reason, code; size_t value; bool has_variant; } flagops_details;

/* -- seats -- */

/* A seat without flags, where each resolves to the fallback and PROVIDER_NOT_READY. What the seat was before ends. */
uint32_t flagops_new(flagops_seat *seat);
/* The seat is FLAGOPS_NONE again, and its memory is given back, with that of its flags where no other seat has them. */
void flagops_close(flagops_seat *seat);
/* `to` has the flags of `from`, for another thread, and keeps all else; FLAGOPS_NONE becomes a seat. EMPTY (`from`). */
uint32_t flagops_share(flagops_seat *from, flagops_seat *to);

/* The flags of a document. EMPTY, DOCUMENT + fault: the seat has the flags that it had. */
uint32_t flagops_open(flagops_seat *seat, const uint8_t *document, size_t document_len);
/* A line for each flag: its key as JSON, and " good" or " broken". EMPTY, ROOM. */
uint32_t flagops_keys(flagops_seat *seat, uint8_t *out, size_t room, size_t *written);

/* -- streams: the frames of `flagops serve` and of `ofrep --stream` -- */

/* The next bytes of a stream, cut anywhere. Where they make snapshots whole, the seat has the flags of the newest, *number is its
   number and *came is true; else *came is false. EMPTY, FRAME + fault: the flags stay, and until flagops_connect each call is
   refused with FRAME + FAILED. A fault behind whole snapshots comes with the next call. MEMORY: the bytes were not taken; pass
   them again. No bytes take no memory, and change nothing where no fault waits. */
uint32_t flagops_feed(flagops_seat *seat, const uint8_t *piece, size_t piece_len, uint64_t *number, bool *came);
/* The next bytes are of a new connection, whose numbers begin again. The flags stay. EMPTY. */
uint32_t flagops_connect(flagops_seat *seat);
/* Whether the bytes since then are whole frames and nothing else. EMPTY. */
uint32_t flagops_at_frame_end(flagops_seat *seat, bool *end);

/* -- resolutions -- */

/* What the flag of the key is in the context at the moment, in seconds since 1970.
   EMPTY, KIND, KEY, MOMENT, FALLBACK + fault, CONTEXT + fault, ROOM. */
uint32_t flagops_resolve(flagops_seat *seat, const uint8_t *key, size_t key_len, uint32_t kind,
                         const uint8_t *fallback, size_t fallback_len, const uint8_t *context, size_t context_len,
                         uint64_t moment, uint8_t *out, size_t room, size_t *written, flagops_details *details);
/* Reads a context once, for all later calls of the next. EMPTY, CONTEXT + fault: the seat has the context that it had. */
uint32_t flagops_context(flagops_seat *seat, const uint8_t *context, size_t context_len);
/* The same in that context. EMPTY, NO_CONTEXT, KIND, KEY, MOMENT, FALLBACK + fault, ROOM. */
uint32_t flagops_resolve_kept(flagops_seat *seat, const uint8_t *key, size_t key_len, uint32_t kind,
                              const uint8_t *fallback, size_t fallback_len,
                              uint64_t moment, uint8_t *out, size_t room, size_t *written, flagops_details *details);

/* -- records -- */

/* From now on the note lines of what resolutions reach are kept, each once, up to so many bytes; 0: none are. EMPTY. */
uint32_t flagops_record(flagops_seat *seat, size_t most);
/* Takes all that are kept. FULL, with them: there was no room for another. EMPTY, ROOM. */
uint32_t flagops_notes(flagops_seat *seat, uint8_t *out, size_t room, size_t *written);

/* -- rollouts: the bytes of the files that the program's commands of these names take, and no seat -- */

/* The tally of note lines for a request: how many inputs of its page fall on each point of the rule at its site. The lines rise
   strictly by their bytes, as `LC_ALL=C sort -u` gives them; what stands behind the last line feed is passed over.
   DOCUMENT + fault, ROLLOUT + fault, NOTES + fault, ROOM. */
uint32_t flagops_tally(const uint8_t *document, size_t document_len, const uint8_t *request, size_t request_len,
                       const uint8_t *notes, size_t notes_len, uint8_t *out, size_t room, size_t *written);
/* The plan file of the rule that fits the request and costs the inputs of the tally the least, with what proves that; or NO_RULE,
   and the plan file shows that no rule fits. DOCUMENT + fault, TALLY + fault, ROLLOUT + fault, PLAN + fault, ROOM. */
uint32_t flagops_plan(const uint8_t *document, size_t document_len, const uint8_t *request, size_t request_len,
                      const uint8_t *tally, size_t tally_len, uint8_t *out, size_t room, size_t *written);
/* Whether a plan file, whoever made it, is right for the request over the tally.
   DOCUMENT + fault, TALLY + fault, PLAN + fault, ROLLOUT + fault, CHECK + fault. */
uint32_t flagops_verify(const uint8_t *document, size_t document_len, const uint8_t *request, size_t request_len,
                        const uint8_t *tally, size_t tally_len, const uint8_t *plan, size_t plan_len);
/* The document with the rule of a right plan file at the site of the request, and each other byte as it was. As flagops_verify; then
   NO_RULE, ROLLOUT + fault, KEEP + fault, ROOM. */
uint32_t flagops_apply(const uint8_t *document, size_t document_len, const uint8_t *request, size_t request_len,
                       const uint8_t *tally, size_t tally_len, const uint8_t *plan, size_t plan_len,
                       uint8_t *out, size_t room, size_t *written);

/* -- the library -- */

/* The library's version, the kit that proves it, and the sum of its sources, a line each. ROOM. */
uint32_t flagops_about(uint8_t *out, size_t room, size_t *written);

#ifdef __cplusplus
}
#endif
#endif
