// What texts and turns take in libolm, whose ratchet is over curve25519: olm NAME SYNCS...
//
// Its packets are base64, and so is its record, which it seals with AES and HMAC under a key of 32 bytes; the messenger's are bytes,
// and its record isn't sealed. A libolm session keeps no texts and no packets: what waits to be read or sent, which the messenger's
// record has too, is left out. So is reading the record, as sessions stay in memory here.
#include "measure.h"
#include <olm/olm.h>

enum { KEY = 43, KEYS = 512, RECORD = 16384 };

static OlmAccount *accounts[2];
static OlmSession *sessions[2];

static void *memory(size_t size) {
    void *room = malloc(size);
    demand(room != NULL, "no memory");
    return room;
}

// The result of a call, which isn't an error.
static size_t sound(size_t result) {
    demand(result != olm_error(), "libolm refuses a call");
    return result;
}

// Drawn bytes, and how many there have to be.
static void *drawn(size_t length) {
    static unsigned char bytes[ROOM];
    demand(length <= ROOM, "too many bytes are drawn");
    draw(bytes, length);
    return bytes;
}

static void new_side(int side) {
    free(accounts[side]);
    free(sessions[side]);
    accounts[side] = olm_account(memory(olm_account_size()));
    sessions[side] = olm_session(memory(olm_session_size()));
    size_t length = olm_create_account_random_length(accounts[side]);
    sound(olm_create_account(accounts[side], drawn(length), length));
}

// The key behind some letters of a line that libolm made.
static const char *key_behind(const char *line, const char *letters) {
    const char *found = strstr(line, letters);
    demand(found && strlen(found) >= strlen(letters) + KEY, "libolm shows no key");
    return found + strlen(letters);
}

// Side 0 begins a session with side 1.
static void address(void) {
    char identity[KEYS] = "", once[KEYS] = "";
    size_t length = olm_account_generate_one_time_keys_random_length(accounts[1], 1);
    sound(olm_account_generate_one_time_keys(accounts[1], 1, drawn(length), length));
    demand(olm_account_identity_keys_length(accounts[1]) < KEYS && olm_account_one_time_keys_length(accounts[1]) < KEYS,
        "the keys are too long");
    sound(olm_account_identity_keys(accounts[1], identity, olm_account_identity_keys_length(accounts[1])));
    sound(olm_account_one_time_keys(accounts[1], once, olm_account_one_time_keys_length(accounts[1])));
    length = olm_create_outbound_session_random_length(sessions[0]);
    sound(olm_create_outbound_session(sessions[0], accounts[0], key_behind(identity, "\"curve25519\":\""), KEY,
        key_behind(once, "AAAAAQ\":\""), KEY, drawn(length), length));
}

static size_t say(int side, const unsigned char *text, size_t length, unsigned char *packet) {
    size_t random = olm_encrypt_random_length(sessions[side]);
    size_t sent = olm_encrypt_message_length(sessions[side], length);
    demand(sent <= ROOM, "a packet is too long");
    return sound(olm_encrypt(sessions[side], text, length, drawn(random), random, packet, sent));
}

static size_t take(int side, unsigned char *packet, size_t length, unsigned char *text) {
    return sound(olm_decrypt(sessions[side], OLM_MESSAGE_TYPE_MESSAGE, packet, length, text, ROOM));
}

// Both sides say a text, of which the first begins the session of the other side.
static void begin(void) {
    unsigned char packet[ROOM], copy[ROOM], text[ROOM];
    new_side(0);
    new_side(1);
    address();
    size_t length = say(0, (const unsigned char *)"hello", 5, packet);
    memcpy(copy, packet, length);
    sound(olm_create_inbound_session(sessions[1], accounts[1], copy, length));
    sound(olm_decrypt(sessions[1], OLM_MESSAGE_TYPE_PRE_KEY, packet, length, text, ROOM));
    pass(&(struct ratchet){.say = say, .take = take}, 1, (const unsigned char *)"hello", 5);
    demand(olm_encrypt_message_type(sessions[0]) == OLM_MESSAGE_TYPE_MESSAGE, "the session hasn't begun");
}

static const unsigned char *record(int side, size_t *length) {
    static unsigned char room[RECORD];
    static const unsigned char key[32] = {7};
    *length = olm_pickle_session_length(sessions[side]);
    demand(*length <= RECORD, "a record is too long");
    sound(olm_pickle_session(sessions[side], key, sizeof key, room, *length));
    return room;
}

int main(int count, char **words) {
    return report(&(struct ratchet){begin, say, take, record}, count, words);
}
