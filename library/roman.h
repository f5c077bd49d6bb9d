/* libroman: sessions of roman within a process.

   A program puts the texts of documents on a shelf, opens a session of one of them, and passes lines to it. The lines
   and the replies are those of `roman run`, byte for byte. roman(1) lists them.

       roman_shelf shelf = ROMAN_NONE;
       roman_session session = ROMAN_NONE;
       roman_add(&shelf, name, name_len, text, text_len);
       if (roman_open(&session, &shelf, name, name_len) == ROMAN_OK)
           roman_answer(&session, line, line_len);
       length = roman_reply(&session, 0, buffer, sizeof buffer);
       roman_close(&session);
       roman_clear(&shelf);

   Ownership. The library copies what it is passed and keeps no pointer to it. A handle owns its memory until
   roman_close or roman_clear returns it. Call them also after a call that failed. A session needs its shelf only
   during roman_open.

   Rules for callers. The library is proved under these rules and checks none of them.
   - A handle begins as ROMAN_NONE, and only these functions write to it. You may move it; after a move only the new
     place is a handle. Never copy it.
   - A pointer is never null, even with a length of 0. It points to at least that many bytes. During a call nothing
     else writes to them, and `into` overlaps none of the others. The two handles of a call are different.
   - Only one call at a time may use a handle. Any thread may make it, and calls on other handles may run beside it.
   - malloc, realloc and free are those of C. If memory runs out, the call returns ROMAN_MEMORY.

   A handle that is empty, closed or of the other kind never causes a memory error: each call refuses it with a status.
   Bytes may have any value, and lines any length. */
#ifndef ROMAN_H
#define ROMAN_H

#include <stdbool.h>
#include <stddef.h>
#include <stdint.h>

#ifdef __cplusplus
extern "C" {
#endif

/* Texts by their names. */
typedef struct { void *at; bool full; } roman_shelf;

/* A session with its last reply. */
typedef struct { void *at; bool full; } roman_session;

/* The empty handle. */
#define ROMAN_NONE { 0, 0 }

/* The statuses that calls return. A status from 101 on is a refusal by the session. The reply is then the line of the
   refusal, and the session is unchanged. */
enum roman_status {
    ROMAN_OK = 0,
    ROMAN_QUIT = 1,             /* the line was `quit`, and the reply is `bye` */
    ROMAN_NO = 1,               /* roman_synth: nothing can be composed; roman_check: rejected */
    ROMAN_CLOSED = 2,           /* no session is open, or the handle isn't a shelf */
    ROMAN_REFUSED = 3,          /* the document is refused */
    ROMAN_LIMIT = 4,            /* the document's system exceeds its limit */
    ROMAN_MISSING = 5,          /* a named text isn't on the shelf */
    ROMAN_TOO_LONG = 8,         /* roman_check: the certificate is too long */
    ROMAN_MEMORY = 9,           /* out of memory */
    ROMAN_NOT_UTF8 = 10,        /* a name isn't UTF-8 */
    ROMAN_ERROR_LINE = 101,     /* error line */
    ROMAN_ERROR_NAME = 102,     /* error name */
    ROMAN_ERROR_BUSY = 103,     /* error busy */
    ROMAN_ERROR_IDLE = 104,     /* error idle */
    ROMAN_NO_COMPOSITION = 105, /* no composition */
    ROMAN_NOT_ALLOWED = 106,    /* not allowed */
    ROMAN_NOT_OFFERED = 107,    /* not offered */
    ROMAN_IMPOSSIBLE = 108,     /* impossible */
    ROMAN_ERROR_FROZEN = 109,   /* error frozen */
    ROMAN_ERROR_READY = 110,    /* error ready */
    ROMAN_ERROR_TAKEN = 111,    /* error taken */
    ROMAN_ERROR_FULL = 112,     /* error full */
    ROMAN_ERROR_LIMIT = 113,    /* error limit */
    ROMAN_ERROR_RELATED = 114   /* error related */
};

/* Adds a text to a shelf. If several texts have one name, the last one counts. Returns ROMAN_OK. On ROMAN_CLOSED (the
   handle is a session), ROMAN_MEMORY and ROMAN_NOT_UTF8 the shelf is unchanged. */
uint32_t roman_add(roman_shelf *shelf, const uint8_t *name, size_t name_len, const uint8_t *text, size_t text_len);

/* Opens a session of the system document of that name on the shelf, and closes the session that was open. The part
   files that the document names must be on the shelf, too. Returns ROMAN_OK. On any other status no session is open: on
   ROMAN_REFUSED and ROMAN_LIMIT, whose reply is the reason, and on ROMAN_MISSING, ROMAN_MEMORY and ROMAN_NOT_UTF8. */
uint32_t roman_open(roman_session *session, roman_shelf *shelf, const uint8_t *name, size_t name_len);

/* Answers a line, passed without its newline, and stores the reply in place of the last one. Returns ROMAN_OK if the
   event is accepted, or if the line is blank or a comment. Otherwise returns ROMAN_QUIT, ROMAN_CLOSED or the number of
   the refusal. On ROMAN_MEMORY the event took effect, but there was no memory for the whole reply. */
uint32_t roman_answer(roman_session *session, const uint8_t *line, size_t line_len);

/* Copies at most `room` bytes of the last reply, from byte `from` on, to `into`. Returns the length of the whole reply,
   which is 0 if there is none. The reply ends with a newline, and has no zero after it. */
size_t roman_reply(roman_session *session, size_t from, uint8_t *into, size_t room);

/* ---- Without a session

   Both calls close the session that was open. The reply is what the program writes for the same texts, byte for byte,
   and the result is its exit status. ROMAN_REFUSED, ROMAN_LIMIT, ROMAN_MISSING and ROMAN_NOT_UTF8 mean the same as in
   roman_open. After ROMAN_MEMORY the reply is the beginning of the text, or empty. */

/* Reports on the system document of that name on the shelf, as `roman synth` does. Returns ROMAN_OK if its target can
   be composed, and ROMAN_NO if it can't. */
uint32_t roman_synth(roman_session *session, roman_shelf *shelf, const uint8_t *name, size_t name_len);

/* Checks the certificate of that name on the shelf for the system document of that name, as `roman check` does. Returns
   ROMAN_OK if the certificate is right and complete, ROMAN_NO if it is rejected, or ROMAN_TOO_LONG. */
uint32_t roman_check(roman_session *session, roman_shelf *shelf, const uint8_t *name, size_t name_len,
                     const uint8_t *certificate, size_t certificate_len);

/* ---- Events by numbers

   Actions, states and behaviours are numbered from 0 in the order of the document, and services by their places. Each
   call does the same as roman_answer for the line with the names of these numbers, and has the same statuses and the
   same reply. An unused number counts as an unknown name: ROMAN_ERROR_NAME. */

/* do ACTION. If it is accepted, roman_offers returns the offered services. */
uint32_t roman_request(roman_session *session, uint32_t action);

/* use SERVICE */
uint32_t roman_delegate(roman_session *session, uint32_t service);

/* saw STATE ENV: a state of the service to which the request is delegated, and one of the environment */
uint32_t roman_observe(roman_session *session, uint32_t state, uint32_t env);

/* freeze SERVICE */
uint32_t roman_freeze(roman_session *session, uint32_t service);

/* thaw SERVICE */
uint32_t roman_thaw(roman_session *session, uint32_t service);

/* die SERVICE. Each service after it moves down by one place. */
uint32_t roman_die(roman_session *session, uint32_t service);

/* join NAME BEHAVIOUR STATE, and with `loose` join NAME BEHAVIOUR STATE loose. The service gets the last place. */
uint32_t roman_join(roman_session *session, const uint8_t *name, size_t name_len, uint32_t behaviour, uint32_t state,
                    bool loose);

/* jump SERVICE STATE */
uint32_t roman_jump(roman_session *session, uint32_t service, uint32_t state);

/* jumpenv ENV */
uint32_t roman_jump_env(roman_session *session, uint32_t env);

/* ---- Numbers and names */

/* The value that stands for no number. */
#define ROMAN_NO_NUMBER UINT32_MAX

/* The kinds of numbers. For states of a service or of a behaviour, `of` is the number of that service or behaviour. All
   other kinds ignore `of`. */
enum roman_kind {
    ROMAN_ACTION = 0,
    ROMAN_ENV_STATE = 1,
    ROMAN_TARGET_STATE = 2,
    ROMAN_SERVICE = 3,
    ROMAN_SERVICE_STATE = 4,
    ROMAN_BEHAVIOUR = 5,
    ROMAN_BEHAVIOUR_STATE = 6
};

/* Returns the number of a name, or ROMAN_NO_NUMBER. If two behaviours have the name, it is the number of the first. */
uint32_t roman_find(roman_session *session, uint32_t kind, uint32_t of, const uint8_t *name, size_t name_len);

/* Copies at most `room` bytes of the name of a number to `into`. Returns the length of the name: 1 to 32, or 0 if the
   number is unused. */
size_t roman_name(roman_session *session, uint32_t kind, uint32_t of, uint32_t number, uint8_t *into, size_t room);

/* Returns the services that are offered for the open request: bit k is 1 exactly if the service at place k is
   offered. Returns 0 if no request is open, or if it is delegated. */
uint32_t roman_offers(roman_session *session);

/* Returns the present state of that kind: ROMAN_ENV_STATE, ROMAN_TARGET_STATE, or ROMAN_SERVICE_STATE of the service
   at place `of`. Returns ROMAN_NO_NUMBER for anything else. */
uint32_t roman_state(roman_session *session, uint32_t kind, uint32_t of);

/* Returns 0 if no request is open, 1 if services are offered for it, 2 if it is delegated, and ROMAN_NO_NUMBER if no
   session is open. */
uint32_t roman_phase(roman_session *session);

/* ---- The end */

/* Closes a session and returns its memory. The handle is then empty, and can be used again. */
void roman_close(roman_session *session);

/* Returns the memory of a shelf. The handle is then empty, and can be used again. */
void roman_clear(roman_shelf *shelf);

#ifdef __cplusplus
}
#endif

#endif
