/* The server half of NETCODE 1.02, proved: what a host links from libnetcode.a (x86-64).
 *
 * The library has no memory, socket, clock or cipher of its own. The host lends it
 *   server    the server's record, NETCODE_SERVER_WORDS words, written by netcode_set_up and by the calls; look, don't write
 *   slots     the connected clients, netcode_slots_words(n) words for n places
 *   pending   the clients that have asked, netcode_pending_words(m) words for m places
 *   entries   the tokens that were used, netcode_entries_bytes(k) bytes for k places
 *   public    the server's own addresses, netcode_addresses_words(a) words for a addresses
 *   held      NETCODE_HELD_BYTES bytes that keep a token between an ask and its answer
 *   out       the packet to send; NETCODE_MAX_PACKET_BYTES bytes or more
 *   datagram  what came from the network; the library never writes it
 * and gets back
 *   answer    NETCODE_ANSWER_WORDS words, see "answers"
 *   ask       NETCODE_ASK_BYTES bytes, see "asks"
 * A call writes whole what it is lent of answer and ask. A slice is a pointer and a length; a pointer to nothing (length 0) must still be non-null.
 * What is lent to one call must not overlap. Any values in all of these are an input like any other and get an answer: there is no
 * undefined case but memory that is not there. One server is for one thread at a time; two servers share nothing.
 *
 * Words are 64 bits in the machine's order. A time is seconds and nanoseconds.
 */
#ifndef NETCODE_H
#define NETCODE_H

#include <stddef.h>
#include <stdint.h>

#ifdef __cplusplus
extern "C" {
#endif

/* ---- sizes */

#define NETCODE_SERVER_WORDS 34
#define NETCODE_ANSWER_WORDS 14
#define NETCODE_ASK_BYTES 85
#define NETCODE_REPLY_WORDS 5
#define NETCODE_HELD_BYTES 340
#define NETCODE_KEY_BYTES 32
#define NETCODE_USER_DATA_BYTES 256
#define NETCODE_MAX_PACKET_BYTES 1400
#define NETCODE_MAX_PAYLOAD_BYTES 1300
#define NETCODE_MAX_CLIENTS 1024
#define NETCODE_MAX_PENDING_CLIENTS 4096
#define NETCODE_MAX_ENTRIES 2048
#define NETCODE_MAX_TOKEN_ADDRESSES 32

/* The same as the functions below, for arrays of a fixed size. */
#define NETCODE_PLACE_WORDS 310
#define NETCODE_ENTRY_BYTES 48
#define NETCODE_ADDRESS_WORDS 3

/* The length for so many places; 0 for more than there can be (1,024, 4,096, 2,048 and 4,294,967,295). */
size_t netcode_slots_words(size_t slots);
size_t netcode_pending_words(size_t pending);
size_t netcode_entries_bytes(size_t entries);
size_t netcode_addresses_words(size_t addresses);

/* ---- answers
 *
 * answer[NETCODE_ANSWER_CASE] says which case it is. Words that a case does not have are 0.
 *
 *   NETCODE_REFUSED        NUMBER: which refusal; the table below says what has changed
 *   NETCODE_NOTHING        the call is over, nothing is to be done
 *   NETCODE_ASK            the host is asked for cipher work, see "asks"; nothing else may be called but answers and queries
 *   NETCODE_PACKET_TO_SEND out[0 .. END] is to go to ADDRESS
 *   NETCODE_PAYLOAD        datagram[START .. END] is a payload of client CLIENT_ID
 *   NETCODE_CONNECTED      CLIENT_ID is connected, in slot SLOT; out[0 .. END] is to go to ADDRESS
 *   NETCODE_DISCONNECTED   CLIENT_ID's connection is over; where END is over 0, out[0 .. END] is to go to ADDRESS. NUMBER is 15 or 24
 *                          where the packet could not be made, else 0
 *
 * An address is three words: kind (4 or 6) * 65536 + port, then its 16 bytes as two little-endian words; IPv4 has four bytes, then zeros.
 */
enum netcode_case {
    NETCODE_REFUSED = 0,
    NETCODE_NOTHING = 1,
    NETCODE_ASK = 2,
    NETCODE_PACKET_TO_SEND = 3,
    NETCODE_PAYLOAD = 4,
    NETCODE_CONNECTED = 5,
    NETCODE_DISCONNECTED = 6
};

enum netcode_answer_word {
    NETCODE_ANSWER_CASE = 0,
    NETCODE_ANSWER_NUMBER = 1,
    NETCODE_ANSWER_CLIENT_ID = 2,
    NETCODE_ANSWER_SLOT = 3,
    NETCODE_ANSWER_ADDRESS = 4, /* and 5, 6 */
    NETCODE_ANSWER_START = 7,
    NETCODE_ANSWER_END = 8,
    NETCODE_ANSWER_WORK = 9, /* of an ask, from here on */
    NETCODE_ANSWER_NONCE_SIZE = 10,
    NETCODE_ANSWER_ADDITIONAL_SIZE = 11,
    NETCODE_ANSWER_PART_START = 12,
    NETCODE_ANSWER_PART_END = 13
};

/* ---- asks
 *
 * Where the case is NETCODE_ASK the host works in place, with ChaCha20-Poly1305 where NONCE_SIZE is 12 and XChaCha20-Poly1305 where it
 * is 24, under the key, the first NONCE_SIZE bytes of the nonce and the first ADDITIONAL_SIZE bytes of the additional data:
 *
 *   WORK 0, open: datagram[PART_START .. PART_END], the last 16 bytes being the tag. Then netcode_answer_open; or, where NONCE_SIZE is
 *                 24, read the private token that was opened and call netcode_answer_token
 *   WORK 1, seal: out[PART_START .. PART_END - 16], the tag goes into the 16 bytes after it. Then netcode_answer_seal
 *
 * The answer is lent the same buffers, with the same lengths. It may end in another ask. Where nothing is asked these bytes are zeros.
 */
enum netcode_ask_byte {
    NETCODE_ASK_KEY = 0,
    NETCODE_ASK_NONCE = 32,
    NETCODE_ASK_ADDITIONAL = 56
};

enum netcode_work {
    NETCODE_OPEN = 0,
    NETCODE_SEAL = 1
};

/* ---- refusals: what each means, and what the call has changed */
enum netcode_refusal {
    /* Not a refusal. */
    NETCODE_OK = 0,
    /* The datagram has under 18 bytes; nothing has changed. */
    NETCODE_PACKET_TOO_SMALL = 1,
    /* The packet's type is over 6; nothing has changed. */
    NETCODE_INVALID_PACKET_TYPE = 2,
    /* The address is neither connected nor pending, and the packet is no request; nothing has changed. */
    NETCODE_UNKNOWN_ADDRESS = 3,
    /* The prefix claims over 8 sequence bytes; nothing has changed. */
    NETCODE_SEQUENCE_TOO_LONG = 4,
    /* A keep-alive, payload or disconnect has a sequence of 2^64-256 or more; nothing has changed. */
    NETCODE_SEQUENCE_TOO_HIGH = 5,
    /* The sequence was accepted before, or is 256 or more behind the highest; nothing has changed. */
    NETCODE_DUPLICATED_SEQUENCE = 6,
    /* Under 16 bytes follow the sequence; nothing has changed. */
    NETCODE_CIPHERTEXT_TOO_SHORT = 7,
    /* The host says no to an ask to open; steps before the ask stay done. */
    NETCODE_NOT_OPENED = 8,
    /* The body, or a request, is too short; after a yes the window has advanced. */
    NETCODE_BODY_TOO_SHORT = 9,
    /* The request is of another version; a pending client's received time is set. */
    NETCODE_INVALID_VERSION = 10,
    /* The request is for another protocol; a pending client's received time is set. */
    NETCODE_INVALID_PROTOCOL_ID = 11,
    /* The request's token has expired; a pending client's received time is set. */
    NETCODE_EXPIRED = 12,
    /* The token names none of this server's addresses; a pending client's received time is set. */
    NETCODE_NOT_IN_HOST_LIST = 13,
    /* The output, or the list, is shorter than needed; nothing has changed. */
    NETCODE_BUFFER_TOO_SMALL = 14,
    /* The counter that would be used next is spent; steps before stay done. */
    NETCODE_COUNTER_SPENT = 15,
    /* An ask is open: answer it first; nothing has changed. */
    NETCODE_ASK_OPEN = 16,
    /* An answer, and no ask is open; nothing has changed. */
    NETCODE_NO_ASK = 17,
    /* The answer is to another kind of ask, with buffers of another length, or has a field out of range; the ask stays open. */
    NETCODE_UNFIT_ANSWER = 18,
    /* The address is malformed; nothing has changed. */
    NETCODE_MALFORMED_ADDRESS = 19,
    /* The clock would pass its range; nothing has changed. */
    NETCODE_CLOCK_RANGE = 20,
    /* The payload has over 1,300 bytes; nothing has changed. */
    NETCODE_PAYLOAD_ABOVE_LIMIT = 21,
    /* No such client is connected; nothing has changed. */
    NETCODE_CLIENT_NOT_FOUND = 22,
    /* A table has a length, or a limit a value, that set-up does not allow or did not find; nothing has changed. */
    NETCODE_TABLES = 23,
    /* The host says no to an ask to seal; steps before the ask stay done. */
    NETCODE_NOT_SEALED = 24
};

/* ---- set-up and upkeep */

/* Begins a server at a time, empties the tables and writes the record. Gives 0, or 23, 19, 20; the record then has no places, and every
 * call that is lent a table of connections is 23. The challenge key has to be fresh and random for each set-up. Where secure is 0 the
 * connect key is zeros, whatever is given. */
uint8_t netcode_set_up(uint64_t server[NETCODE_SERVER_WORDS], uint64_t secs, uint64_t nanos, size_t max_clients, uint64_t protocol_id,
                       uint8_t secure, const uint8_t connect_key[NETCODE_KEY_BYTES], const uint8_t challenge_key[NETCODE_KEY_BYTES],
                       uint64_t *slots, size_t slots_len, uint64_t *pending, size_t pending_len, uint8_t *entries, size_t entries_len,
                       const uint64_t *public_addresses, size_t public_len);

/* The clock moves on by so much, and pending clients whose token has expired are dropped. NOTHING, or 16, 23, 20. */
void netcode_update(uint64_t server[NETCODE_SERVER_WORDS], uint64_t *pending, size_t pending_len, uint64_t secs, uint64_t nanos,
                    uint64_t answer[NETCODE_ANSWER_WORDS]);

/* The client limit, capped at 1,024. NOTHING, or 16. */
void netcode_set_max_clients(uint64_t server[NETCODE_SERVER_WORDS], size_t max_clients, uint64_t answer[NETCODE_ANSWER_WORDS]);

/* ---- datagrams and answers */

/* A datagram from an address of kind 4 or 6. */
void netcode_process_packet(uint64_t server[NETCODE_SERVER_WORDS], uint8_t kind, uint16_t port, const uint8_t ip[16], uint64_t *slots,
                            size_t slots_len, uint64_t *pending, size_t pending_len, const uint8_t *out, size_t out_len,
                            const uint8_t *datagram, size_t datagram_len, uint64_t answer[NETCODE_ANSWER_WORDS],
                            uint8_t ask[NETCODE_ASK_BYTES]);

/* Yes (not 0) or no (0) to an ask to open with a nonce of 12 bytes. */
void netcode_answer_open(uint64_t server[NETCODE_SERVER_WORDS], uint8_t granted, uint64_t *slots, size_t slots_len, uint64_t *pending,
                         size_t pending_len, uint8_t held[NETCODE_HELD_BYTES], uint8_t *out, size_t out_len, const uint8_t *datagram,
                         size_t datagram_len, uint64_t answer[NETCODE_ANSWER_WORDS], uint8_t ask[NETCODE_ASK_BYTES]);

/* Yes, with what the private token says, or no, to an ask to open with a nonce of 24 bytes. The timeout is the token's i32. The token's
 * addresses, 0 to 32, are three words each. */
void netcode_answer_token(uint64_t server[NETCODE_SERVER_WORDS], uint8_t granted, uint64_t client_id, uint32_t timeout_seconds,
                          const uint8_t server_to_client_key[NETCODE_KEY_BYTES], const uint8_t client_to_server_key[NETCODE_KEY_BYTES],
                          const uint8_t user_data[NETCODE_USER_DATA_BYTES], const uint64_t *server_addresses, size_t addresses_len,
                          const uint64_t *slots, size_t slots_len, uint64_t *pending, size_t pending_len, uint8_t *entries,
                          size_t entries_len, const uint64_t *public_addresses, size_t public_len, uint8_t held[NETCODE_HELD_BYTES],
                          uint8_t *out, size_t out_len, const uint8_t *datagram, size_t datagram_len,
                          uint64_t answer[NETCODE_ANSWER_WORDS], uint8_t ask[NETCODE_ASK_BYTES]);

/* Yes (not 0) or no (0) to an ask to seal. */
void netcode_answer_seal(uint64_t server[NETCODE_SERVER_WORDS], uint8_t granted, uint64_t *slots, size_t slots_len, uint64_t *pending,
                         size_t pending_len, const uint8_t held[NETCODE_HELD_BYTES], const uint8_t *out, size_t out_len,
                         uint64_t answer[NETCODE_ANSWER_WORDS], uint8_t ask[NETCODE_ASK_BYTES]);

/* ---- clients */

/* A payload for a client: an ask to seal it, or 16, 23, 21, 22, 15, 14. */
void netcode_generate_payload_packet(uint64_t server[NETCODE_SERVER_WORDS], uint64_t client_id, const uint8_t *payload,
                                     size_t payload_len, const uint64_t *slots, size_t slots_len, uint8_t *out, size_t out_len,
                                     uint64_t answer[NETCODE_ANSWER_WORDS], uint8_t ask[NETCODE_ASK_BYTES]);

/* A client's turn after each step of the clock: it is given up where it is overdue, kept alive where nothing was sent for 250 ms. */
void netcode_update_client(uint64_t server[NETCODE_SERVER_WORDS], uint64_t client_id, uint64_t *slots, size_t slots_len, uint8_t *out,
                           size_t out_len, uint64_t answer[NETCODE_ANSWER_WORDS], uint8_t ask[NETCODE_ASK_BYTES]);

/* A client is sent away. */
void netcode_disconnect(uint64_t server[NETCODE_SERVER_WORDS], uint64_t client_id, uint64_t *slots, size_t slots_len, uint8_t *out,
                        size_t out_len, uint64_t answer[NETCODE_ANSWER_WORDS], uint8_t ask[NETCODE_ASK_BYTES]);

/* ---- queries: at any time, an open ask too. They change nothing but reply and what they fill.
 *
 * reply[0] is the case, reply[1] the refusal's number, reply[2] to reply[4] its values.
 */
enum netcode_reply_case {
    NETCODE_REPLY_REFUSED = 0,   /* 23, or 14 for a list that is too short */
    NETCODE_REPLY_NOTHING = 1,   /* no such client */
    NETCODE_REPLY_CONNECTED = 2,
    NETCODE_REPLY_COUNT = 3,     /* reply[2] */
    NETCODE_REPLY_ADDRESS = 4,   /* three words */
    NETCODE_REPLY_SINCE = 5,     /* seconds, nanoseconds */
    NETCODE_REPLY_USER_DATA = 6  /* in user_data */
};

/* The client limit, then the clock's seconds and nanoseconds. */
void netcode_server_itself(const uint64_t server[NETCODE_SERVER_WORDS], uint64_t itself[3]);

void netcode_connected_clients(const uint64_t server[NETCODE_SERVER_WORDS], const uint64_t *slots, size_t slots_len,
                               uint64_t reply[NETCODE_REPLY_WORDS]);
void netcode_is_client_connected(const uint64_t server[NETCODE_SERVER_WORDS], const uint64_t *slots, size_t slots_len,
                                 uint64_t client_id, uint64_t reply[NETCODE_REPLY_WORDS]);
void netcode_client_addr(const uint64_t server[NETCODE_SERVER_WORDS], const uint64_t *slots, size_t slots_len, uint64_t client_id,
                         uint64_t reply[NETCODE_REPLY_WORDS]);
void netcode_time_since_last_received_packet(const uint64_t server[NETCODE_SERVER_WORDS], const uint64_t *slots, size_t slots_len,
                                             uint64_t client_id, uint64_t reply[NETCODE_REPLY_WORDS]);
void netcode_user_data(const uint64_t server[NETCODE_SERVER_WORDS], const uint64_t *slots, size_t slots_len, uint64_t client_id,
                       uint8_t user_data[NETCODE_USER_DATA_BYTES], uint64_t reply[NETCODE_REPLY_WORDS]);

/* The ids, or the slots, of the connected, in the order of their slots, into the list from its start. */
void netcode_clients_id(const uint64_t server[NETCODE_SERVER_WORDS], const uint64_t *slots, size_t slots_len, uint64_t *list,
                        size_t list_len, uint64_t reply[NETCODE_REPLY_WORDS]);
void netcode_clients_slot(const uint64_t server[NETCODE_SERVER_WORDS], const uint64_t *slots, size_t slots_len, uint64_t *list,
                          size_t list_len, uint64_t reply[NETCODE_REPLY_WORDS]);

/* The public addresses, three words each. */
void netcode_addresses(const uint64_t server[NETCODE_SERVER_WORDS], const uint64_t *public_addresses, size_t public_len, uint64_t *list,
                       size_t list_len, uint64_t reply[NETCODE_REPLY_WORDS]);

#ifdef __cplusplus
}
#endif

#endif
