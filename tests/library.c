/* Calls libroman as its header allows, including wrong use: closed handles, handles of the other kind, unused numbers,
   empty and long slices, and each allocation failing in turn. Prints a line and returns 1 at the first deviation from
   roman.h. The first argument names samples/lamp.json. With `rounds N` after it, makes that many rounds of a request
   instead, and prints the seconds of one. With `sessions N`, opens that many sessions of a document at once, and prints
   the seconds and the bytes of one. */
#include <malloc.h>
#include <pthread.h>
#include <roman.h>
#include <stdio.h>
#include <stdlib.h>
#include <string.h>
#include <time.h>

#define BYTES(text) (const uint8_t *)(text), strlen(text)
#define CHECK(test) \
    do { \
        if (!(test)) { \
            printf("%s:%d: %s\n", __FILE__, __LINE__, #test); \
            exit(1); \
        } \
    } while (0)

/* ---- allocations that fail */

static long before_failure = -1, held = 0;

void *__real_malloc(size_t);
void *__real_realloc(void *, size_t);
void __real_free(void *);

static bool fails(void) { return before_failure >= 0 && before_failure-- == 0; }

void *__wrap_malloc(size_t size) {
    void *at = fails() ? NULL : __real_malloc(size);
    held += at != NULL;
    return at;
}

void *__wrap_realloc(void *old, size_t size) {
    void *at = fails() ? NULL : __real_realloc(old, size);
    held += at != NULL && old == NULL;
    return at;
}

void __wrap_free(void *at) {
    held -= at != NULL;
    __real_free(at);
}

/* ---- short forms */

static const char *document;

static uint32_t add(roman_shelf *shelf, const char *name, const char *text) { return roman_add(shelf, BYTES(name), BYTES(text)); }
static uint32_t begin(roman_session *session, roman_shelf *shelf, const char *name) { return roman_open(session, shelf, BYTES(name)); }
static uint32_t answer(roman_session *session, const char *line) { return roman_answer(session, BYTES(line)); }

static const char *reply(roman_session *session) {
    static char text[1 << 16];
    size_t length = roman_reply(session, 0, (uint8_t *)text, sizeof text - 1);
    CHECK(length < sizeof text);
    text[length] = 0;
    return text;
}

static bool says(roman_session *session, const char *text) { return strcmp(reply(session), text) == 0; }

static void open_lamp(roman_session *session) {
    roman_shelf shelf = ROMAN_NONE;
    CHECK(add(&shelf, "lamp", document) == ROMAN_OK);
    CHECK(begin(session, &shelf, "lamp") == ROMAN_OK);
    roman_clear(&shelf);
}

/* ---- checks */

/* Each call refuses a handle without a session. */
static void check_closed(roman_session *session) {
    uint8_t room[8];
    CHECK(answer(session, "report") == ROMAN_CLOSED);
    CHECK(roman_reply(session, 0, room, sizeof room) == 0);
    CHECK(roman_request(session, 0) == ROMAN_CLOSED && roman_delegate(session, 0) == ROMAN_CLOSED);
    CHECK(roman_observe(session, 0, 0) == ROMAN_CLOSED && roman_freeze(session, 0) == ROMAN_CLOSED);
    CHECK(roman_thaw(session, 0) == ROMAN_CLOSED && roman_die(session, 0) == ROMAN_CLOSED);
    CHECK(roman_join(session, BYTES("l2"), 0, 0, false) == ROMAN_CLOSED);
    CHECK(roman_jump(session, 0, 0) == ROMAN_CLOSED && roman_jump_env(session, 0) == ROMAN_CLOSED);
    CHECK(roman_find(session, ROMAN_ACTION, 0, BYTES("on")) == ROMAN_NO_NUMBER);
    CHECK(roman_name(session, ROMAN_ACTION, 0, 0, room, sizeof room) == 0);
    CHECK(roman_state(session, ROMAN_ENV_STATE, 0) == ROMAN_NO_NUMBER);
    CHECK(roman_offers(session) == 0 && roman_phase(session) == ROMAN_NO_NUMBER);
}

static void check_handles(void) {
    roman_session session = ROMAN_NONE;
    roman_shelf shelf = ROMAN_NONE, other = ROMAN_NONE;
    check_closed(&session);
    roman_close(&session);
    roman_clear(&shelf);
    CHECK(begin(&session, &shelf, "lamp") == ROMAN_MISSING);
    CHECK(add(&shelf, "lamp", document) == ROMAN_OK && add(&shelf, "", "") == ROMAN_OK);
    CHECK(begin(&session, &shelf, "other") == ROMAN_MISSING);
    check_closed(&session);
    CHECK(begin(&session, &shelf, "") == ROMAN_REFUSED && says(&session, "refused  notjson system 0 whole 0\n"));
    CHECK(answer(&session, "report") == ROMAN_CLOSED);
    CHECK(roman_add(&shelf, (const uint8_t *)"\xff", 1, BYTES("x")) == ROMAN_NOT_UTF8);
    CHECK(roman_open(&session, &shelf, (const uint8_t *)"\xff", 1) == ROMAN_NOT_UTF8);
    check_closed(&session);
    CHECK(begin(&session, &shelf, "lamp") == ROMAN_OK);
    /* a handle of the other kind */
    CHECK(add((roman_shelf *)&session, "name", "text") == ROMAN_CLOSED);
    CHECK(begin((roman_session *)&other, (roman_shelf *)&session, "lamp") == ROMAN_MISSING);
    check_closed((roman_session *)&shelf);
    CHECK(answer(&session, "do on") == ROMAN_OK && says(&session, "offer l1\n"));
    /* a newer text, a second session in the same handle, and a handle that moves */
    CHECK(add(&shelf, "lamp", "{}") == ROMAN_OK && begin(&session, &shelf, "lamp") == ROMAN_REFUSED);
    CHECK(add(&shelf, "lamp", document) == ROMAN_OK && begin(&session, &shelf, "lamp") == ROMAN_OK);
    roman_session moved = session;
    CHECK(answer(&moved, "quit") == ROMAN_QUIT && says(&moved, "bye\n"));
    roman_close(&moved);
    check_closed(&moved);
    roman_clear(&other);
    roman_clear(&shelf);
}

static void check_slices(void) {
    roman_session session = ROMAN_NONE;
    uint8_t piece[7];
    static uint8_t line[1 << 20];
    open_lamp(&session);
    CHECK(roman_answer(&session, line, 0) == ROMAN_OK && says(&session, ""));
    memset(line, 'x', sizeof line);
    CHECK(roman_answer(&session, line, sizeof line) == ROMAN_ERROR_LINE);
    memset(line, 0, sizeof line);
    CHECK(roman_answer(&session, line, 256) == ROMAN_ERROR_LINE && says(&session, "error line\n"));
    CHECK(answer(&session, "do on\ndo off") == ROMAN_ERROR_LINE);
    /* the pieces of a reply make up the reply */
    CHECK(answer(&session, "report") == ROMAN_OK);
    char *whole = strdup(reply(&session));
    size_t length = strlen(whole);
    for (size_t from = 0; from < length; from += sizeof piece) {
        size_t more = length - from < sizeof piece ? length - from : sizeof piece;
        CHECK(roman_reply(&session, from, piece, sizeof piece) == length);
        CHECK(memcmp(piece, whole + from, more) == 0);
    }
    CHECK(roman_reply(&session, length, piece, sizeof piece) == length);
    CHECK(roman_reply(&session, SIZE_MAX, piece, sizeof piece) == length);
    CHECK(roman_reply(&session, 0, piece, 0) == length);
    free(whole);
    roman_close(&session);
}

/* Calls by numbers have the same effect as the lines. */
static void check_numbers(void) {
    roman_session session = ROMAN_NONE;
    uint8_t name[32];
    open_lamp(&session);
    CHECK(roman_find(&session, ROMAN_ACTION, 0, BYTES("off")) == 1);
    CHECK(roman_find(&session, ROMAN_SERVICE_STATE, 0, BYTES("on")) == 1);
    CHECK(roman_find(&session, ROMAN_SERVICE_STATE, 1, BYTES("on")) == ROMAN_NO_NUMBER);
    CHECK(roman_find(&session, ROMAN_BEHAVIOUR, 0, BYTES("lamp")) == 0);
    CHECK(roman_find(&session, ROMAN_BEHAVIOUR_STATE, 0, BYTES("off")) == 0);
    CHECK(roman_find(&session, 7, 0, BYTES("on")) == ROMAN_NO_NUMBER);
    CHECK(roman_name(&session, ROMAN_SERVICE, 0, 0, name, sizeof name) == 2 && memcmp(name, "l1", 2) == 0);
    CHECK(roman_name(&session, ROMAN_BEHAVIOUR, 0, 0, name, 1) == 4 && name[0] == 'l');
    CHECK(roman_name(&session, ROMAN_SERVICE, 0, 1, name, sizeof name) == 0);
    CHECK(roman_phase(&session) == 0 && roman_offers(&session) == 0);
    CHECK(roman_delegate(&session, 0) == ROMAN_ERROR_IDLE && roman_observe(&session, 0, 0) == ROMAN_ERROR_IDLE);
    CHECK(roman_request(&session, 2) == ROMAN_ERROR_NAME && says(&session, "error name\n"));
    CHECK(roman_request(&session, 1) == ROMAN_NOT_ALLOWED);
    CHECK(roman_request(&session, 0) == ROMAN_OK && says(&session, "offer l1\n"));
    CHECK(roman_phase(&session) == 1 && roman_offers(&session) == 1);
    CHECK(roman_request(&session, 0) == ROMAN_ERROR_BUSY && roman_delegate(&session, 32) == ROMAN_ERROR_NAME);
    CHECK(roman_delegate(&session, 0) == ROMAN_OK && says(&session, "using l1\n"));
    CHECK(roman_phase(&session) == 2 && roman_offers(&session) == 0);
    CHECK(roman_observe(&session, 0, 0) == ROMAN_IMPOSSIBLE && roman_observe(&session, 1, 1) == ROMAN_ERROR_NAME);
    CHECK(roman_observe(&session, 1, 0) == ROMAN_OK && says(&session, "now on e\n"));
    CHECK(roman_state(&session, ROMAN_TARGET_STATE, 0) == 1 && roman_state(&session, ROMAN_SERVICE_STATE, 0) == 1);
    CHECK(roman_state(&session, ROMAN_ENV_STATE, 0) == 0 && roman_state(&session, ROMAN_SERVICE_STATE, 1) == ROMAN_NO_NUMBER);
    CHECK(roman_state(&session, ROMAN_ACTION, 0) == ROMAN_NO_NUMBER);
    CHECK(roman_thaw(&session, 0) == ROMAN_ERROR_READY && roman_freeze(&session, 0) == ROMAN_OK);
    CHECK(roman_freeze(&session, 0) == ROMAN_ERROR_FROZEN && roman_request(&session, 1) == ROMAN_NO_COMPOSITION);
    CHECK(roman_thaw(&session, 0) == ROMAN_OK);
    CHECK(roman_join(&session, BYTES("l1"), 0, 0, false) == ROMAN_ERROR_TAKEN);
    CHECK(roman_join(&session, BYTES("no name"), 0, 0, false) == ROMAN_ERROR_NAME);
    CHECK(roman_join(&session, BYTES("l2"), 1, 0, false) == ROMAN_ERROR_NAME);
    CHECK(roman_join(&session, BYTES("l2"), 0, 0, true) == ROMAN_OK);
    CHECK(roman_find(&session, ROMAN_SERVICE, 0, BYTES("l2")) == 1 && roman_state(&session, ROMAN_SERVICE_STATE, 1) == 0);
    CHECK(roman_jump(&session, 1, 1) == ROMAN_OK && roman_state(&session, ROMAN_SERVICE_STATE, 1) == 1);
    CHECK(roman_jump(&session, 1, 2) == ROMAN_ERROR_NAME && roman_jump_env(&session, 0) == ROMAN_OK);
    CHECK(roman_jump_env(&session, 1) == ROMAN_ERROR_NAME);
    CHECK(roman_die(&session, 0) == ROMAN_OK && roman_find(&session, ROMAN_SERVICE, 0, BYTES("l2")) == 0);
    roman_close(&session);
}

/* Reports and verdicts, without a session. */
static void check_jobs(void) {
    roman_session session = ROMAN_NONE;
    roman_shelf shelf = ROMAN_NONE;
    CHECK(roman_synth(&session, &shelf, BYTES("lamp")) == ROMAN_MISSING && says(&session, ""));
    CHECK(add(&shelf, "lamp", document) == ROMAN_OK && add(&shelf, "other", "{}") == ROMAN_OK);
    CHECK(begin(&session, &shelf, "lamp") == ROMAN_OK);
    CHECK(roman_synth(&session, &shelf, BYTES("lamp")) == ROMAN_OK);
    CHECK(strstr(reply(&session), "\nanswer composition\n") != NULL && answer(&session, "report") == ROMAN_CLOSED);
    CHECK(roman_synth(&session, &shelf, BYTES("other")) == ROMAN_REFUSED && strncmp(reply(&session), "refused other ", 14) == 0);
    CHECK(roman_synth(&session, &shelf, (const uint8_t *)"\xff", 1) == ROMAN_NOT_UTF8);
    CHECK(roman_check(&session, &shelf, BYTES("lamp"), BYTES("none")) == ROMAN_MISSING && says(&session, ""));
    CHECK(add(&shelf, "cert", "roman-order 1\npairs 4\n1 f\n2 1\nend\n") == ROMAN_OK);
    CHECK(roman_check(&session, &shelf, BYTES("lamp"), BYTES("cert")) == ROMAN_OK);
    CHECK(says(&session, "greatest 2\nanswer composition\n"));
    CHECK(roman_check(&session, &shelf, BYTES("lamp"), BYTES("other")) == ROMAN_NO && says(&session, "rejected 1 form\n"));
    CHECK(roman_check(&session, &shelf, BYTES("lamp"), (const uint8_t *)"\xff", 1) == ROMAN_NOT_UTF8);
    roman_close(&session);
    roman_clear(&shelf);
}

/* A session may go from thread to thread. */
static void *ask_elsewhere(void *session) {
    CHECK(answer(session, "do on") == ROMAN_OK && says(session, "offer l1\n"));
    return session;
}

static void check_threads(void) {
    roman_session session = ROMAN_NONE;
    pthread_t thread;
    open_lamp(&session);
    CHECK(pthread_create(&thread, NULL, ask_elsewhere, &session) == 0 && pthread_join(thread, NULL) == 0);
    CHECK(answer(&session, "use l1") == ROMAN_OK);
    roman_close(&session);
}

/* Each of the first allocations fails in turn. The call reports it, and no memory is lost. */
static void check_memory(void) {
    static const char *lines[] = {"do on", "use l1", "saw on e", "report", "join l2 lamp off", "freeze l1", "explain", "die l2", "quit"};
    int refused = 0;
    for (long failing = 0; failing < 400; failing++) {
        roman_shelf shelf = ROMAN_NONE;
        roman_session session = ROMAN_NONE;
        long before = held;
        before_failure = failing;
        uint32_t status = add(&shelf, "lamp", document);
        if (status == ROMAN_OK) status = begin(&session, &shelf, "lamp");
        CHECK(status == ROMAN_OK || status == ROMAN_MEMORY);
        for (size_t i = 0; status == ROMAN_OK && i < sizeof lines / sizeof *lines; i++) {
            uint32_t said = answer(&session, lines[i]);
            CHECK(said != ROMAN_CLOSED);
            refused += said == ROMAN_MEMORY;
        }
        refused += status == ROMAN_MEMORY;
        before_failure = -1;
        roman_close(&session);
        roman_clear(&shelf);
        CHECK(held == before);
    }
    CHECK(refused > 50);
}

static void time_rounds(long rounds) {
    roman_session session = ROMAN_NONE;
    struct timespec begun, ended;
    open_lamp(&session);
    clock_gettime(CLOCK_MONOTONIC, &begun);
    for (long i = 0; i < rounds; i++) {
        bool on = i % 2 == 0;
        CHECK(roman_request(&session, !on) == ROMAN_OK && roman_offers(&session) == 1);
        CHECK(roman_delegate(&session, 0) == ROMAN_OK && roman_observe(&session, on, 0) == ROMAN_OK);
    }
    clock_gettime(CLOCK_MONOTONIC, &ended);
    printf("%.9f\n", (ended.tv_sec - begun.tv_sec + (ended.tv_nsec - begun.tv_nsec) * 1e-9) / rounds);
    roman_close(&session);
}

static void time_sessions(long many) {
    roman_session *sessions = calloc((size_t)many, sizeof *sessions);
    struct timespec begun, ended;
    CHECK(sessions != NULL);
    clock_gettime(CLOCK_MONOTONIC, &begun);
    size_t before = mallinfo2().uordblks + mallinfo2().hblkhd;
    for (long i = 0; i < many; i++) open_lamp(&sessions[i]);
    size_t after = mallinfo2().uordblks + mallinfo2().hblkhd;
    clock_gettime(CLOCK_MONOTONIC, &ended);
    printf("%.9f %zu\n", (ended.tv_sec - begun.tv_sec + (ended.tv_nsec - begun.tv_nsec) * 1e-9) / many, (after - before) / many);
    for (long i = 0; i < many; i++) roman_close(&sessions[i]);
    free(sessions);
}

int main(int count, char **words) {
    static char text[1 << 16];
    FILE *file = count > 1 ? fopen(words[1], "rb") : NULL;
    CHECK(file != NULL && fread(text, 1, sizeof text - 1, file) > 0);
    fclose(file);
    document = text;
    if (count > 3) {
        (strcmp(words[2], "rounds") == 0 ? time_rounds : time_sessions)(atol(words[3]));
        return 0;
    }
    check_handles();
    check_slices();
    check_numbers();
    check_jobs();
    check_threads();
    check_memory();
    puts("all as roman.h says");
    return 0;
}
