/* The renderer of Sulleqti as a library: JSON requests in, JSON replies out, as docs/HOSTS.md and
   docs/WIRE.md have them. x86-64 Linux with glibc; link libcsl_c.a, then the kit's liblibc_c.a.

   The library is proved; nothing checks its callers. What a caller owes:

   - Each pointer is valid, aligned and not null, even for a length of 0. No two of a call lead to
     the same memory. What a call writes to is initialised before, as by `= {0}` or calloc.
   - An engine begins as {0}, which is closed. Its pointer is never read, written or copied, but to
     move the engine. It ends by sulleqti_close.
   - All calls on an engine are of one thread. Any number of threads, each with engines of its own,
     may call at once.
   - malloc, realloc and free are of one family, safe for threads, and align like glibc's.
   - No call from a signal handler, nor in the child of a fork of a process with threads.
   - At least 512 KiB of stack are free at a call: 360 KB were the most that was counted, at JSON's
     127 levels. Of requests that are trusted, each level of a layout with its macros may take
     another 2 KiB. */
#ifndef SULLEQTI_H
#define SULLEQTI_H

#include <stdbool.h>
#include <stddef.h>
#include <stdint.h>

#ifdef __cplusplus
extern "C" {
#endif

enum sulleqti_status {
    SULLEQTI_OK = 0,
    SULLEQTI_OUT_OF_MEMORY = 1, /* memory ran out */
    SULLEQTI_TOO_SMALL = 2,     /* the room is smaller than the reply */
    SULLEQTI_NO_REPLY = 3,      /* no reply waits */
    SULLEQTI_CLOSED = 4         /* the engine is closed */
};

/* An engine: the styles and works that it keeps, and a reply that may wait. */
struct sulleqti {
    void *at;
};

/* Opens an engine that keeps nothing. The limits of docs/HOSTS.md hold for its requests, unless
   they are trusted. One that is open is closed first.
   SULLEQTI_OK, or SULLEQTI_OUT_OF_MEMORY: it is closed. */
int sulleqti_open(struct sulleqti *engine, bool is_trusted);

/* Answers a request: `length` bytes of JSON, which may have line feeds. The reply waits in the
   engine, in the place of an earlier one, and `*reply_length` is its length in bytes. A request
   that is refused, as one that is no JSON or no UTF-8, has a reply too, which says why.
   SULLEQTI_OK; or, where no reply waits and `*reply_length` is 0, SULLEQTI_OUT_OF_MEMORY: what was
   kept is still kept, and the next request may have a reply; SULLEQTI_CLOSED. */
int sulleqti_answer(struct sulleqti *engine, const uint8_t *request, size_t length,
                    size_t *reply_length);

/* Writes the reply that waits to the front of a room of `size` bytes: a JSON text in UTF-8, without
   a line feed or a zero at its end. From then on no reply waits.
   SULLEQTI_OK; or, and then nothing changes, SULLEQTI_TOO_SMALL, SULLEQTI_NO_REPLY, or
   SULLEQTI_CLOSED. */
int sulleqti_take(struct sulleqti *engine, uint8_t *room, size_t size);

/* Closes an engine, which may be opened again. A closed one stays so. */
void sulleqti_close(struct sulleqti *engine);

/* The protocol of requests and replies: that of `hello`. It changes if a request that was answered
   is read otherwise. */
uint64_t sulleqti_protocol(void);

#ifdef __cplusplus
}
#endif

#endif
