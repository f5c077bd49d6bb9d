/* Makes the calls of libroman that libFuzzer's input encodes: a document, a zero, a part file, a zero, and then calls.
   Each call is a byte, followed by its arguments. Calls may come in any order. The results must follow roman.h. */
#include <roman.h>
#include <stdlib.h>
#include <string.h>

/* Counters for libFuzzer, which keeps inputs that lead to new sequences of statuses and beginnings of replies. */
__attribute__((section("__libfuzzer_extra_counters"))) static uint8_t seen[1 << 14];

static const uint8_t *at, *end;

static uint8_t byte(void) { return at < end ? *at++ : 0; }

/* Returns the bytes up to the next `stop`. */
static const uint8_t *until(uint8_t stop, size_t *length) {
    const uint8_t *from = at, *found = memchr(at, stop, (size_t)(end - at));
    *length = (size_t)((found ? found : end) - at);
    at = found ? found + 1 : end;
    return from;
}

static void check(int holds) {
    if (!holds) abort();
}

/* Reads the whole reply in two pieces, checks it, and counts its beginning. */
static void read_reply(roman_session *session, uint32_t call, uint32_t status) {
    static uint32_t last;
    size_t length = roman_reply(session, 0, (uint8_t *)"", 0), half = length / 2;
    uint8_t *reply = malloc(length + 1);
    uint32_t sum = call * 31 + status;
    check(reply != NULL && roman_reply(session, 0, reply, half) == length);
    check(roman_reply(session, half, reply + half, length - half) == length);
    check(length == 0 || reply[length - 1] == '\n');
    check(status <= ROMAN_ERROR_RELATED && (status != ROMAN_CLOSED || call >= 16 || roman_phase(session) == ROMAN_NO_NUMBER));
    for (size_t i = 0; i < length && i < 12 && reply[i] != '\n'; i++) sum = sum * 31 + reply[i];
    seen[(sum * 2654435761u) >> 18]++;
    seen[((sum ^ last * 7) * 2654435761u) >> 18]++;
    last = sum;
    free(reply);
}

static uint32_t call_one(uint8_t call, roman_session *session, roman_shelf *shelf) {
    size_t length;
    const uint8_t *text;
    uint8_t room[16];
    switch (call % 20) {
    case 1: return roman_request(session, byte());
    case 2: return roman_delegate(session, byte());
    case 3: { uint8_t state = byte(); return roman_observe(session, state, byte()); }
    case 4: return roman_freeze(session, byte());
    case 5: return roman_thaw(session, byte());
    case 6: return roman_die(session, byte());
    case 7: { uint8_t service = byte(); return roman_jump(session, service, byte()); }
    case 8: return roman_jump_env(session, byte());
    case 9: { uint8_t behaviour = byte(), state = byte(); text = until('\n', &length); return roman_join(session, text, length, behaviour, state, state & 64); }
    case 10: text = until('\n', &length); roman_find(session, byte(), byte(), text, length); return 0;
    case 11: check(roman_name(session, byte(), byte(), byte(), room, sizeof room) <= 32); return 0;
    case 12: roman_state(session, byte(), byte()); return 0;
    case 13: roman_close(session); check(roman_phase(session) == ROMAN_NO_NUMBER && roman_offers(session) == 0); return 0;
    case 14: return roman_open(session, shelf, (const uint8_t *)"s", 1);
    case 15: text = until(0, &length); return roman_add(shelf, (const uint8_t *)"p", 1, text, length);
    case 16: roman_clear(shelf); return 0;
    case 17: return roman_add((roman_shelf *)session, (const uint8_t *)"p", 1, (const uint8_t *)"", 0);
    case 18: return roman_synth(session, shelf, (const uint8_t *)"s", 1);
    case 19: return roman_check(session, shelf, (const uint8_t *)"s", 1, (const uint8_t *)"p", 1);
    default: text = until('\n', &length); return roman_answer(session, text, length);
    }
}

int LLVMFuzzerTestOneInput(const uint8_t *data, size_t size) {
    roman_shelf shelf = ROMAN_NONE;
    roman_session session = ROMAN_NONE;
    size_t length;
    at = data ? data : (const uint8_t *)"";
    end = at + size;
    const uint8_t *text = until(0, &length);
    check(roman_add(&shelf, (const uint8_t *)"s", 1, text, length) == ROMAN_OK);
    text = until(0, &length);
    check(roman_add(&shelf, (const uint8_t *)"p", 1, text, length) == ROMAN_OK);
    read_reply(&session, 14, roman_open(&session, &shelf, (const uint8_t *)"s", 1));
    while (at < end) {
        uint8_t call = byte();
        read_reply(&session, call % 20, call_one(call, &session, &shelf));
    }
    roman_close(&session);
    roman_clear(&shelf);
    return 0;
}
