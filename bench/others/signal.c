// What texts and turns take in libsignal-protocol-c, with its crypto by OpenSSL's libcrypto: signal NAME SYNCS...
//
// The library reads a session out of its store in each call and puts it back; the store here is memory, so that much of keeping a
// session counts in each figure. The curve is the library's own code. AES and HMAC are libcrypto's, which has the processor's
// instructions for them, and looks both up once here. A session keeps no texts and no packets, which the messenger's record has too.
// How two sides find each other is left out: both begin with keys that each knows.
#include "measure.h"
#include <openssl/evp.h>
#include <signal/protocol.h>
#include <signal/ratchet.h>
#include <signal/session_cipher.h>
#include <signal/session_record.h>
#include <signal/session_state.h>
#include <signal/signal_protocol.h>

// What a side's store holds of its session, and the cipher over that store.
static signal_buffer *kept[2];
static session_cipher *ciphers[2];
static const signal_protocol_address other = {"other", 5, 1};

static signal_context *context;
static EVP_MAC_CTX *hmac;
static EVP_CIPHER *aes;
static EVP_CIPHER_CTX *sealing;

static void sound(int result) {
    demand(result >= 0, "libsignal-protocol-c refuses a call");
}

// A new buffer of these bytes.
static int given(signal_buffer **out, const uint8_t *bytes, size_t length) {
    *out = signal_buffer_create(bytes, length);
    return *out ? 0 : SG_ERR_NOMEM;
}

// ---- its crypto

static int fill(uint8_t *bytes, size_t length, void *user) {
    draw(bytes, length);
    return 0;
}

static int hmac_begin(void **begun, const uint8_t *key, size_t length, void *user) {
    *begun = EVP_MAC_CTX_dup(hmac);
    return *begun && EVP_MAC_init(*begun, key, length, NULL) ? 0 : -1;
}

static int hmac_add(void *begun, const uint8_t *bytes, size_t length, void *user) {
    return EVP_MAC_update(begun, bytes, length) ? 0 : -1;
}

static int hmac_end(void *begun, signal_buffer **tag, void *user) {
    uint8_t bytes[32];
    size_t length;
    return EVP_MAC_final(begun, bytes, &length, sizeof bytes) ? given(tag, bytes, length) : -1;
}

static void hmac_free(void *begun, void *user) { EVP_MAC_CTX_free(begun); }

static int by_aes(signal_buffer **out, int mode, const uint8_t *key, const uint8_t *start, const uint8_t *bytes, size_t length,
    int seals) {
    uint8_t room[ROOM];
    int first, last;
    if (mode != SG_CIPHER_AES_CBC_PKCS5 || length > ROOM - 16 || !EVP_CipherInit_ex2(sealing, aes, key, start, seals, NULL))
        return -1;
    if (!EVP_CipherUpdate(sealing, room, &first, bytes, (int)length) || !EVP_CipherFinal_ex(sealing, room + first, &last))
        return -1;
    return given(out, room, (size_t)(first + last));
}

static int aes_seal(signal_buffer **out, int mode, const uint8_t *key, size_t key_length, const uint8_t *start, size_t start_length,
    const uint8_t *bytes, size_t length, void *user) {
    return by_aes(out, mode, key, start, bytes, length, 1);
}

static int aes_open(signal_buffer **out, int mode, const uint8_t *key, size_t key_length, const uint8_t *start, size_t start_length,
    const uint8_t *bytes, size_t length, void *user) {
    return by_aes(out, mode, key, start, bytes, length, 0);
}

// SHA-512 isn't asked for in a session.
static void begin_crypto(void) {
    static const signal_crypto_provider provider = {.random_func = fill, .hmac_sha256_init_func = hmac_begin,
        .hmac_sha256_update_func = hmac_add, .hmac_sha256_final_func = hmac_end, .hmac_sha256_cleanup_func = hmac_free,
        .encrypt_func = aes_seal, .decrypt_func = aes_open};
    OSSL_PARAM digest[] = {{"digest", OSSL_PARAM_UTF8_STRING, "SHA256", 6, 0}, {0}};
    hmac = EVP_MAC_CTX_new(EVP_MAC_fetch(NULL, "HMAC", NULL));
    aes = EVP_CIPHER_fetch(NULL, "AES-256-CBC", NULL);
    sealing = EVP_CIPHER_CTX_new();
    demand(hmac && aes && sealing && EVP_MAC_CTX_set_params(hmac, digest), "libcrypto lacks something");
    sound(signal_context_create(&context, NULL));
    sound(signal_context_set_crypto_provider(context, &provider));
}

// ---- its stores, each of one session

static int load(signal_buffer **held, signal_buffer **own, const signal_protocol_address *address, void *user) {
    *held = signal_buffer_copy(*(signal_buffer **)user);
    return *held ? 1 : SG_ERR_NOMEM;
}

static int store(const signal_protocol_address *address, uint8_t *bytes, size_t length, uint8_t *own, size_t own_length, void *user) {
    signal_buffer_free(*(signal_buffer **)user);
    return given(user, bytes, length);
}

static int contains(const signal_protocol_address *address, void *user) {
    return *(signal_buffer **)user != NULL;
}

static int save_identity(const signal_protocol_address *address, uint8_t *key, size_t length, void *user) { return 0; }

static int is_trusted(const signal_protocol_address *address, uint8_t *key, size_t length, void *user) { return 1; }

static void keep_first(int side, session_state *state) {
    signal_protocol_session_store sessions = {.load_session_func = load, .store_session_func = store,
        .contains_session_func = contains, .user_data = &kept[side]};
    signal_protocol_identity_key_store identities = {.save_identity = save_identity, .is_trusted_identity = is_trusted};
    signal_protocol_store_context *stores;
    session_record *record;
    sound(signal_protocol_store_context_create(&stores, context));
    sound(signal_protocol_store_context_set_session_store(stores, &sessions));
    sound(signal_protocol_store_context_set_identity_key_store(stores, &identities));
    sound(session_cipher_create(&ciphers[side], stores, &other, context));
    sound(session_record_create(&record, state, context));
    sound(signal_protocol_session_store_session(stores, &other, record));
}

// ---- sessions; what one begins with stays in memory until the program ends

static ec_key_pair *pair(void) {
    ec_key_pair *made;
    sound(curve_generate_key_pair(context, &made));
    return made;
}

static ratchet_identity_key_pair *identity(ec_key_pair *of) {
    ratchet_identity_key_pair *made;
    sound(ratchet_identity_key_pair_create(&made, ec_key_pair_get_public(of), ec_key_pair_get_private(of)));
    return made;
}

static void begin_states(void) {
    ec_key_pair *owns[2] = {pair(), pair()}, *bases[2] = {pair(), pair()};
    alice_signal_protocol_parameters *alice;
    bob_signal_protocol_parameters *bob;
    session_state *states[2];
    for (int side = 0; side < 2; side++)
        sound(session_state_create(&states[side], context));
    ec_public_key *signed_key = ec_key_pair_get_public(bases[1]);
    sound(alice_signal_protocol_parameters_create(&alice, identity(owns[0]), bases[0], ec_key_pair_get_public(owns[1]), signed_key, NULL,
        signed_key));
    sound(bob_signal_protocol_parameters_create(&bob, identity(owns[1]), bases[1], NULL, bases[1], ec_key_pair_get_public(owns[0]),
        ec_key_pair_get_public(bases[0])));
    sound(ratcheting_session_alice_initialize(states[0], alice, context));
    sound(ratcheting_session_bob_initialize(states[1], bob, context));
    keep_first(0, states[0]);
    keep_first(1, states[1]);
}

static size_t say(int side, const unsigned char *text, size_t length, unsigned char *packet) {
    ciphertext_message *message;
    sound(session_cipher_encrypt(ciphers[side], text, length, &message));
    const signal_buffer *bytes = ciphertext_message_get_serialized(message);
    size_t sent = signal_buffer_len(bytes);
    demand(sent <= ROOM && ciphertext_message_get_type(message) == CIPHERTEXT_SIGNAL_TYPE, "a packet isn't one");
    memcpy(packet, signal_buffer_const_data(bytes), sent);
    SIGNAL_UNREF(message);
    return sent;
}

static size_t take(int side, unsigned char *packet, size_t length, unsigned char *text) {
    signal_message *message;
    signal_buffer *got;
    sound(signal_message_deserialize(&message, packet, length, context));
    sound(session_cipher_decrypt_signal_message(ciphers[side], message, NULL, &got));
    size_t taken = signal_buffer_len(got);
    memcpy(text, signal_buffer_const_data(got), taken);
    signal_buffer_free(got);
    SIGNAL_UNREF(message);
    return taken;
}

static const unsigned char *record(int side, size_t *length) {
    *length = signal_buffer_len(kept[side]);
    return signal_buffer_const_data(kept[side]);
}

static void begin(void) {
    const struct ratchet own = {.say = say, .take = take};
    begin_states();
    pass(&own, 0, (const unsigned char *)"hello", 5);
    pass(&own, 1, (const unsigned char *)"hello", 5);
}

int main(int count, char **words) {
    begin_crypto();
    return report(&(struct ratchet){begin, say, take, record}, count, words);
}
