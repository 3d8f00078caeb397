/*
 * nengapiko.h - a HART link engine (HCF_SPEC-081 revision 9.0) for programs in C: frames written
 * and read; one call a tick, a tick reader, a master and a device, of the pair and of the infrared
 * port; how long a message waits; recordings listed and joined; and a table of the newest data of
 * each device and command. Its functions are in libnengapiko.a. Those for tests and measurements
 * stand in nengapiko_tests.h.
 *
 * Document 01 is the scope paper, which condenses the standard; its numbers are the refusals below.
 *
 * Target. The archive is for x86-64 Linux (System V calling convention, any x86-64 processor) and
 * needs of the C library memcpy and memset at most. What is proved does not name a processor,
 * but has 64 bits for a size_t. Another target with 64 bits needs a back end of the compiler for it
 * and nothing of this repository; one with fewer also needs the proofs made again, with its size_t.
 *
 * Calls. The functions take every argument that the rules below allow, stay inside the buffers that
 * they are lent, and return. They keep nothing between calls, allocate nothing, lock nothing and
 * write no errno. Calls with different buffers may run at once, in threads and in signal handlers;
 * a state and its buffers belong to one call at a time.
 *
 * Pointers. A buffer belongs to the caller before, during and after a call; nothing is kept of its
 * address. It has as many elements as its length says, or as its parameter's name of a size says. No
 * pointer is NULL, also where its length is 0: NENGAPIKO_NO_BYTES is there for that. No argument of
 * a call overlaps another that the call writes.
 *
 * Refusals. What is refused returns its number, the lowest that applies (of a request, and of what
 * is done with recordings, the first in its function's list), and changes nothing, but that 23 sets
 * the tick that it names; a tick whose call is refused is that of no call.
 *
 * Stack. What a function takes with all that it calls, in bytes, the return address included
 * (tests/stack works it out from the archive). On top come the arguments that are passed on the stack,
 * 72 bytes at most, and the two functions of the C library.
 *
 *   nengapiko_write                 96
 *   nengapiko_read                  56
 *   nengapiko_reader_start           8
 *   nengapiko_reader_tick          960
 *   nengapiko_master_start          16
 *   nengapiko_master_tick          592
 *   nengapiko_device_start          32
 *   nengapiko_device_tick          672
 *   nengapiko_data_length            8
 *   nengapiko_longest_wait           8
 *   nengapiko_ticks                104
 *   nengapiko_list                 200
 *   nengapiko_join                 104
 *   nengapiko_port_master_start    248
 *   nengapiko_port_master_tick    1152
 *   nengapiko_port_device_start    264
 *   nengapiko_port_device_tick    1104
 *   nengapiko_readings_clear        32
 *   nengapiko_readings_enter       176
 *   nengapiko_readings_find         64
 *   nengapiko_readings_status        8
 */
#ifndef NENGAPIKO_H
#define NENGAPIKO_H

#include <stdbool.h>
#include <stddef.h>
#include <stdint.h>

/* The interface's number: another where a function, a size or a number below is another. */
#define NENGAPIKO_VERSION 2

/* No data, with length 0. */
#ifdef __cplusplus
#define NENGAPIKO_NO_BYTES (reinterpret_cast<const uint8_t *>(""))
#else
#define NENGAPIKO_NO_BYTES ((const uint8_t *)"")
#endif

#if defined(__GNUC__)
#define NENGAPIKO_RESTRICT __restrict__
#define NENGAPIKO_NONNULL __attribute__((nonnull))
#elif defined(__cplusplus)
#define NENGAPIKO_RESTRICT
#define NENGAPIKO_NONNULL
#else
#define NENGAPIKO_RESTRICT restrict
#define NENGAPIKO_NONNULL
#endif

#ifdef __cplusplus
extern "C" {
#endif

/* How many elements the buffers have. */
enum nengapiko_size {
    NENGAPIKO_SIZE_FRAME = 284,     /* bytes of the longest frame: 20 preambles, a long address, 255 data bytes */
    NENGAPIKO_SIZE_DATA = 255,      /* bytes of the most data that a frame has */
    NENGAPIKO_SIZE_FIELDS = 11,     /* words of enum nengapiko_field */
    NENGAPIKO_SIZE_RESULTS = 17,    /* words of enum nengapiko_result */
    NENGAPIKO_SIZE_READER = 16,     /* words of a tick reader's state */
    NENGAPIKO_SIZE_MASTER = 40,     /* words of a master's */
    NENGAPIKO_SIZE_DEVICE = 41,     /* words of a device's */
    NENGAPIKO_SIZE_PORT_MASTER = 2, /* words of the infrared port beside a master's */
    NENGAPIKO_SIZE_PORT_DEVICE = 6  /* and beside a device's */
};

/* What a write, a read, a start, a tick and the two functions of the wait return. */
enum nengapiko_refusal {
    NENGAPIKO_REFUSAL_NONE = 0,           /* written, read, started, told; or the tick's call was taken, or there was none */
    NENGAPIKO_REFUSAL_PROFILE = 1,        /* start, wait: a profile that document 01 does not allow */
    NENGAPIKO_REFUSAL_RETRIES = 2,        /* master start, wait: retries outside 3 to 15 */
    NENGAPIKO_REFUSAL_PREAMBLE = 3,       /* write, request, device start: preamble outside 5 to 20; on the infrared port any but 5 */
    NENGAPIKO_REFUSAL_ADDRESS = 4,        /* write, request, device start: polling address above 63, of a request to revision 5 or lower above 15; unique address above 38 bits, or of a device 0 */
    NENGAPIKO_REFUSAL_COMMAND = 5,        /* request: command 254, or a short address with a command but 0; burst content: command 254 */
    NENGAPIKO_REFUSAL_DATA_LONG = 6,      /* write: more than 255 data bytes; request: more than the master's limit */
    NENGAPIKO_REFUSAL_IN_HAND = 7,        /* request: a message is in hand */
    NENGAPIKO_REFUSAL_NO_REQUEST = 8,     /* answer: no request is in hand, or its time is over */
    NENGAPIKO_REFUSAL_DATA_LENGTH = 9,    /* write: an ACK or BACK with fewer than 2 data bytes; answer, burst content: data outside 2 to the device's limit; start: a limit outside 2 to 255; wait: a length outside 2 to 255 */
    NENGAPIKO_REFUSAL_WISH = 10,          /* answer: burst on without burst content, on the infrared port always; on or off in answer to command 0, or to command 11 by broadcast */
    NENGAPIKO_REFUSAL_FEW_PREAMBLES = 11, /* read: fewer than two 0xFF in front */
    NENGAPIKO_REFUSAL_NO_DELIMITER = 12,  /* write: type not 2, 6 or 1; read: the byte behind the preamble is no delimiter */
    NENGAPIKO_REFUSAL_ENDS_EARLY = 13,    /* read: the bytes end before the frame does */
    NENGAPIKO_REFUSAL_UNSOUND = 14,       /* read: an ACK or BACK with count below 2, else a wrong check byte */
    NENGAPIKO_REFUSAL_BUFFER_SHORT = 15,  /* write: the frame does not fit from the place named; list: the entries do not fit; join: the buffer is shorter than a recording; table of readings: an area below 255 bytes a row */
    NENGAPIKO_REFUSAL_REVISION = 17,      /* request: revision outside 3 to 7 */
    NENGAPIKO_REFUSAL_TABLE_FULL = 20,    /* table of readings: no row of the frame's address and command, and none empty */
    NENGAPIKO_REFUSAL_RECORDING = 21,     /* list, join: a recording of odd length, or with two bytes that no recording has */
    NENGAPIKO_REFUSAL_UNEQUAL = 22,       /* join: two recordings of unequal lengths */
    NENGAPIKO_REFUSAL_DIFFER = 23,        /* join: two different characters in one tick */
    NENGAPIKO_REFUSAL_WAIT_SHORT = 26     /* data length for a wait: that of 2 data bytes is already longer */
};

/* A refusal's text; of a number that is none, "no refusal of this number". */
static inline const char *nengapiko_refusal_text(uint32_t number)
{
    switch (number) {
    case NENGAPIKO_REFUSAL_NONE: return "not refused";
    case NENGAPIKO_REFUSAL_PROFILE: return "a profile that is not allowed";
    case NENGAPIKO_REFUSAL_RETRIES: return "retries outside 3 to 15";
    case NENGAPIKO_REFUSAL_PREAMBLE: return "preamble outside 5 to 20, or on the infrared port not 5";
    case NENGAPIKO_REFUSAL_ADDRESS: return "an address that is too large, or a device's unique address 0";
    case NENGAPIKO_REFUSAL_COMMAND: return "command 254, or a short address with a command but 0";
    case NENGAPIKO_REFUSAL_DATA_LONG: return "more data than a frame or the limit allows";
    case NENGAPIKO_REFUSAL_IN_HAND: return "a message is in hand";
    case NENGAPIKO_REFUSAL_NO_REQUEST: return "no request is in hand, or its time is over";
    case NENGAPIKO_REFUSAL_DATA_LENGTH: return "a data length, or a limit, that is not allowed";
    case NENGAPIKO_REFUSAL_WISH: return "a wish for burst that is not allowed in this answer";
    case NENGAPIKO_REFUSAL_FEW_PREAMBLES: return "fewer than two preambles";
    case NENGAPIKO_REFUSAL_NO_DELIMITER: return "no delimiter, or no frame type";
    case NENGAPIKO_REFUSAL_ENDS_EARLY: return "the bytes end before the frame does";
    case NENGAPIKO_REFUSAL_UNSOUND: return "an ACK or BACK with count below 2, or a wrong check byte";
    case NENGAPIKO_REFUSAL_BUFFER_SHORT: return "a buffer that is too short";
    case NENGAPIKO_REFUSAL_REVISION: return "a revision outside 3 to 7";
    case NENGAPIKO_REFUSAL_TABLE_FULL: return "the table of readings is full";
    case NENGAPIKO_REFUSAL_RECORDING: return "a recording of odd length, or with another value";
    case NENGAPIKO_REFUSAL_UNEQUAL: return "two recordings of unequal lengths";
    case NENGAPIKO_REFUSAL_DIFFER: return "two different characters in one tick";
    case NENGAPIKO_REFUSAL_WAIT_SHORT: return "with 2 data bytes the wait is already longer";
    default: return "no refusal of this number";
    }
}

/* ------------------------------------------------------------------------ frames */

/* The frame types, as the delimiter's bits 2 to 0 carry them. */
enum nengapiko_type {
    NENGAPIKO_TYPE_BACK = 1, /* burst */
    NENGAPIKO_TYPE_STX = 2,  /* a master's request */
    NENGAPIKO_TYPE_ACK = 6   /* a device's answer */
};

/* Where each number of a frame stands in the array that a read fills. */
enum nengapiko_field {
    NENGAPIKO_FIELD_PREAMBLE = 0,  /* how many 0xFF stand in front of the delimiter, 2 or more */
    NENGAPIKO_FIELD_TYPE = 1,      /* an enum nengapiko_type */
    NENGAPIKO_FIELD_LONG = 2,      /* 1 for a unique address, 0 for a polling address */
    NENGAPIKO_FIELD_PRIMARY = 3,   /* the master bit: 1 for the primary master */
    NENGAPIKO_FIELD_BURST = 4,     /* the burst flag */
    NENGAPIKO_FIELD_ADDRESS = 5,   /* the polling address, 6 bits, or the unique address, 38 bits */
    NENGAPIKO_FIELD_EXPANSION = 6, /* how many expansion bytes stand behind the address, 0 to 3 */
    NENGAPIKO_FIELD_COMMAND = 7,   /* the command, 0 to 255 */
    NENGAPIKO_FIELD_START = 8,     /* where the data begins in the bytes that were read */
    NENGAPIKO_FIELD_COUNT = 9,     /* how many data bytes there are, 0 to 255 */
    NENGAPIKO_FIELD_END = 10       /* the place behind the check byte, where another frame may begin */
};

/*
 * Writes a frame into buffer[place] and the bytes behind it, and no other.
 *
 *   preamble      how many 0xFF go in front, 5 to 20
 *   type          an enum nengapiko_type
 *   long_address  true for a unique address (5 bytes), false for a polling address (1 byte)
 *   primary       the master bit: true for the primary master
 *   burst         the burst flag
 *   address       0 to 63 for a polling address, 0 to 2^38 - 1 for a unique one; unique 0 is broadcast
 *   command       any
 *   bytes, count  the data bytes: 0 to 255, at least 2 for ACK and BACK
 *   buffer, size  where the frame goes, and the buffer's whole size
 *   place         where in the buffer the frame begins
 *   end           set to the place behind the frame's check byte; left as it was by a refusal
 *
 * Returns 0, 3, 4, 6, 9, 12 or 15.
 */
uint32_t nengapiko_write(size_t preamble, uint8_t type, bool long_address, bool primary, bool burst,
                         uint64_t address, uint8_t command,
                         const uint8_t *NENGAPIKO_RESTRICT bytes, size_t count,
                         uint8_t *NENGAPIKO_RESTRICT buffer, size_t size, size_t place,
                         size_t *NENGAPIKO_RESTRICT end) NENGAPIKO_NONNULL;

/*
 * Reads the frame at the front of some bytes. Bytes behind its end are not looked at.
 *
 *   bytes, size   what was received, from the preamble on
 *   fields        NENGAPIKO_SIZE_FIELDS words, filled as enum nengapiko_field says; left as they
 *                 were by a refusal
 *
 * The data are bytes[fields[NENGAPIKO_FIELD_START]] and the fields[NENGAPIKO_FIELD_COUNT] - 1 bytes
 * behind it.
 *
 * Returns 0, 11, 12, 13 or 14. For one who reads from a growing buffer: 13, and 11 while there are
 * fewer than two bytes and each is 0xFF, mean that more bytes are wanted. Behind the preamble 267
 * bytes are always enough. Every other answer is final: it stays the same whatever follows. Bytes
 * carry no silence, so where the next frame begins behind a final refusal is the caller's to know; the
 * tick reader knows it from the line.
 */
uint32_t nengapiko_read(const uint8_t *NENGAPIKO_RESTRICT bytes, size_t size,
                        uint64_t *NENGAPIKO_RESTRICT fields) NENGAPIKO_NONNULL;

/* ------------------------------------------------------------------------ one call a tick
 *
 * A tick is the time of one character. A state is an array of 64-bit words, and beside it stand the
 * byte buffers of the sizes above; all of them belong to the caller. A start fills the state; what a
 * buffer holds before the start does not matter. Every content of the words and of the buffers is
 * some state, so every call takes them, whatever they hold. They are to be kept as a call has left
 * them, and the words have no meaning but this.
 *
 * docs/C.md has the driver by which a party behind the modem chip of document 02, item 5,
 * hears and sends: which registers it reads and writes in each tick, and in which order.
 *
 * What a host must know, of a master and a device:
 *
 *   First tick. In its first tick after a start a party hears nothing, whatever heard says.
 *   Silence. As a tick reader does, a party passes over one silent tick inside a frame, which counts in
 *   no timer; where a second follows, the frame is broken and both count.
 *   Profile. STO is within how many ticks a device must begin its answer; HOLD how many ticks a master's
 *   window is open; RT1, the primary's and the secondary's, how many silent ticks a master waits for its
 *   answer, and after a broken frame, before its window opens; RT2 those after its own answered message,
 *   which lets the other master begin first.
 *   Time of an answer. With the request's last character in tick T the device tells it in T + 1. Its host
 *   may answer from that tick up to T + STO; an answer in T + 1 begins in T + 2, a later one in its own
 *   tick. A character that is heard before it begins drops the request, an answer that was taken and its
 *   wish.
 *   Bit 7. An ACK with bit 7 of its first data byte set says that the device did not read the request: for
 *   a master it is a failed attempt and no answer.
 *   Command 11 by broadcast (unique address 0, the data a tag). Every device tells it as a request,
 *   whosever tag it is: a host answers it only if the tag is its own, else two devices send at once. A wish
 *   in that answer is refused with 10. The master sends it once: its answer is ANSWERED, with address 0; no
 *   answer, or one with bit 7, is BROADCAST_SENT.
 */

/* What was heard in a tick. Any other number is heard as silence. */
enum nengapiko_heard {
    NENGAPIKO_HEARD_SILENCE = 0,
    NENGAPIKO_HEARD_CHARACTER = 1,
    NENGAPIKO_HEARD_PARITY = 2,  /* a character with parity damage */
    NENGAPIKO_HEARD_OVERRUN = 3, /* a character with overrun damage */
    NENGAPIKO_HEARD_FRAMING = 4  /* a character with framing damage; so are those of two senders in one tick */
};

/* What a reader tells in a tick. A master and a device each have a reader. */
enum nengapiko_event {
    NENGAPIKO_EVENT_NOTHING = 0,     /* silence outside a frame, a silent tick inside one that is passed over, or a character of a frame that goes on */
    NENGAPIKO_EVENT_PASSED_OVER = 1, /* a character that is passed over until a silent tick */
    NENGAPIKO_EVENT_BROKEN = 2,      /* a frame broke in this tick: by its character, or by the second silent tick in a row */
    NENGAPIKO_EVENT_WHOLE = 3,       /* this tick's character ends a frame, which is whole and undamaged */
    NENGAPIKO_EVENT_DAMAGED = 4      /* this tick's character ends a frame in which a character is damaged or the check byte is wrong */
};

/*
 * What a tick tells: the numbers that each of the three tick functions sets, all of them in every
 * call. The frame that the reader found stands in them where the event is NENGAPIKO_EVENT_WHOLE or
 * NENGAPIKO_EVENT_DAMAGED, and its data at the front of the buffer bytes; else its numbers are 0. An
 * answer to a master, and a request or a broadcast to a device, is the frame of that same tick.
 */
enum nengapiko_result {
    NENGAPIKO_RESULT_SENT = 0,      /* 0, or 256 and the character to be sent in this tick */
    NENGAPIKO_RESULT_TOLD = 1,      /* an enum nengapiko_master_told or nengapiko_device_told; 0 of a reader */
    NENGAPIKO_RESULT_ATTEMPTS = 2,  /* of a master: the STX frames sent for a message that was given up */
    NENGAPIKO_RESULT_EVENT = 3,     /* an enum nengapiko_event */
    NENGAPIKO_RESULT_TYPE = 4,      /* of the frame: an enum nengapiko_type */
    NENGAPIKO_RESULT_LONG = 5,      /* this and the next six as in enum nengapiko_field */
    NENGAPIKO_RESULT_PRIMARY = 6,
    NENGAPIKO_RESULT_BURST = 7,
    NENGAPIKO_RESULT_ADDRESS = 8,
    NENGAPIKO_RESULT_EXPANSION = 9,
    NENGAPIKO_RESULT_COMMAND = 10,
    NENGAPIKO_RESULT_COUNT = 11,
    NENGAPIKO_RESULT_PARITY = 12,   /* damage in command, data or check byte, by its kind: 1 or 0 */
    NENGAPIKO_RESULT_OVERRUN = 13,
    NENGAPIKO_RESULT_FRAMING = 14,
    NENGAPIKO_RESULT_CHECK = 15,    /* a wrong check byte */
    NENGAPIKO_RESULT_ADDRESS_DAMAGED = 16 /* damage in address or expansion bytes */
};

/* What a master tells its host of its message. */
enum nengapiko_master_told {
    NENGAPIKO_MASTER_TOLD_NOTHING = 0,
    NENGAPIKO_MASTER_TOLD_ANSWERED = 1,      /* by the frame of this tick */
    NENGAPIKO_MASTER_TOLD_GIVEN_UP = 2,      /* after the attempts of this tick */
    NENGAPIKO_MASTER_TOLD_BROADCAST_SENT = 3 /* of command 11 by broadcast: and not answered, or with bit 7 */
};

/* What a device tells its host. */
enum nengapiko_device_told {
    NENGAPIKO_DEVICE_TOLD_NOTHING = 0,
    NENGAPIKO_DEVICE_TOLD_REQUEST = 1,  /* the frame of this tick, which the host may answer; command 11 by broadcast only for its own tag */
    NENGAPIKO_DEVICE_TOLD_BROADCAST = 2 /* the frame of this tick, which is never answered */
};

/* What a device's host gives in a tick; any other number is nothing. */
enum nengapiko_device_call {
    NENGAPIKO_DEVICE_CALL_NOTHING = 0,
    NENGAPIKO_DEVICE_CALL_ANSWER = 1,           /* the answer to the request in hand */
    NENGAPIKO_DEVICE_CALL_ANSWER_BURST_ON = 2,  /* the answer, with the wish that burst is on from its ACK on */
    NENGAPIKO_DEVICE_CALL_ANSWER_BURST_OFF = 3, /* the answer, with the wish that it is off */
    NENGAPIKO_DEVICE_CALL_BURST_CONTENT = 4     /* command and data of the BACKs from the next on */
};

/* Starts a tick reader: it passes over characters until the first silent tick. */
void nengapiko_reader_start(uint64_t *state) NENGAPIKO_NONNULL;

/*
 * A tick of a tick reader. Inside a frame, from behind its first 0xFF up to its check byte, one silent
 * tick is passed over: what follows is taken as if the tick had not been. The second in a row breaks
 * the frame, and the next character may start another.
 *
 *   state      NENGAPIKO_SIZE_READER words
 *   bytes      NENGAPIKO_SIZE_DATA bytes for the data of the frame that is being heard
 *   heard      an enum nengapiko_heard
 *   character  the character, where one was heard
 *   results    NENGAPIKO_SIZE_RESULTS words
 */
void nengapiko_reader_tick(uint64_t *NENGAPIKO_RESTRICT state, uint8_t *NENGAPIKO_RESTRICT bytes,
                           uint8_t heard, uint8_t character,
                           uint64_t *NENGAPIKO_RESTRICT results) NENGAPIKO_NONNULL;

/*
 * Starts a master.
 *
 *   sto .. rt1_secondary  the profile's five numbers, in ticks; FSK is 28, 2, 8, 33, 41 and C8PSK
 *                         is 32, 3, 14, 42, 56
 *   primary               true for the primary master
 *   retries               R, 3 to 15
 *   limit                 the most data bytes of its requests, 2 to 255; 255 where the link has no
 *                         limit of its own. All masters and devices of a link are given the same one:
 *                         the wait of nengapiko_longest_wait is that of a link with one limit
 *   state                 NENGAPIKO_SIZE_MASTER words, in which the limit is kept; left as they were
 *                         by a refusal
 *
 * Returns 0, 1, 2 or 9.
 */
uint32_t nengapiko_master_start(uint16_t sto, uint16_t hold, uint16_t rt2, uint16_t rt1_primary,
                                uint16_t rt1_secondary, bool primary, uint8_t retries,
                                size_t limit, uint64_t *state) NENGAPIKO_NONNULL;

/*
 * A tick of a master: it takes what the line carried in the tick before, then its host's request,
 * then sends a character or none. What is heard in a tick in which it sent is not looked at.
 *
 *   state, frame      NENGAPIKO_SIZE_MASTER words, and NENGAPIKO_SIZE_FRAME bytes for the frame that
 *                     is being sent
 *   bytes             as for nengapiko_reader_tick; so are heard and character
 *   requests          whether the host requests in this tick; the next seven are of the request, and
 *                     are not looked at where there is none
 *   preamble          how many 0xFF go in front, 5 to 20
 *   revision          the device's HART revision, 3 to 7
 *   long_address, address, command   as for nengapiko_write
 *   put, count        the data bytes that are put into its frame, 0 to the limit of its start
 *   results           NENGAPIKO_SIZE_RESULTS words
 *
 * Returns 0, or the request's refusal, the first that applies of 3, 17, 4, 5, 6 and 7.
 */
uint32_t nengapiko_master_tick(uint64_t *NENGAPIKO_RESTRICT state,
                               uint8_t *NENGAPIKO_RESTRICT frame, uint8_t *NENGAPIKO_RESTRICT bytes,
                               uint8_t heard, uint8_t character, bool requests, size_t preamble,
                               uint8_t revision, bool long_address, uint64_t address,
                               uint8_t command, const uint8_t *NENGAPIKO_RESTRICT put,
                               size_t count,
                               uint64_t *NENGAPIKO_RESTRICT results) NENGAPIKO_NONNULL;

/*
 * Starts a device, with burst off and without burst content.
 *
 *   sto .. rt1_secondary  as for nengapiko_master_start
 *   preamble              how many 0xFF go in front of its frames, 5 to 20
 *   polling_address       0 to 63
 *   unique_address        1 to 2^38 - 1
 *   limit                 the most data bytes of its answers and its burst content, 2 to 255; as for
 *                         nengapiko_master_start
 *   state                 NENGAPIKO_SIZE_DEVICE words, in which the limit is kept; left as they were
 *                         by a refusal
 *
 * Returns 0, 1, 3, 4 or 9.
 */
uint32_t nengapiko_device_start(uint16_t sto, uint16_t hold, uint16_t rt2, uint16_t rt1_primary,
                                uint16_t rt1_secondary, size_t preamble, uint8_t polling_address,
                                uint64_t unique_address, size_t limit,
                                uint64_t *state) NENGAPIKO_NONNULL;

/*
 * A tick of a device: it takes what the line carried in the tick before, then its host's answer or
 * burst content, then sends a character or none. What is heard in a tick in which it sent is not
 * looked at.
 *
 *   state, frame      NENGAPIKO_SIZE_DEVICE words, and frame as for nengapiko_master_tick
 *   bytes             as for nengapiko_reader_tick; so are heard and character
 *   contents          NENGAPIKO_SIZE_DATA bytes: the data of its burst content
 *   call              an enum nengapiko_device_call
 *   command           of a burst content; else it is not looked at
 *   put, count        the data bytes of an answer or of a burst content, 2 to the limit of its start
 *   results           NENGAPIKO_SIZE_RESULTS words
 *
 * Returns 0, or the call's refusal: 8, 9 or 10 for an answer, 5 or 9 for a burst content.
 */
uint32_t nengapiko_device_tick(uint64_t *NENGAPIKO_RESTRICT state,
                               uint8_t *NENGAPIKO_RESTRICT frame, uint8_t *NENGAPIKO_RESTRICT bytes,
                               uint8_t *NENGAPIKO_RESTRICT contents, uint8_t heard,
                               uint8_t character, uint8_t call, uint8_t command,
                               const uint8_t *NENGAPIKO_RESTRICT put, size_t count,
                               uint64_t *NENGAPIKO_RESTRICT results) NENGAPIKO_NONNULL;

/* ------------------------------------------------------------------------ how long a message waits
 *
 * Where the parties of a link start in one tick with one profile, one R and one data limit, the first
 * character of every message goes out within so many ticks of its request, or of tick RT1 secondary if
 * that is later, whatever the hosts give and whether devices answer or not: demand 3, which docs/PROVED.md
 * has with its premises. The more data a frame may have, the longer this wait is.
 */

/*
 * The most data for a wanted wait: the largest data length whose longest wait, without a bursting
 * device, is no more than so many ticks.
 *
 *   sto .. rt1_secondary  the profile's five numbers, as for nengapiko_master_start
 *   retries               R, 3 to 15
 *   wait                  the longest wait that both masters may see, in ticks
 *   length                set to the data length, 2 to 255, for the limit of each start; left as it
 *                         was by a refusal
 *
 * Returns 0, 1, 2 or 26: 26 exactly where the longest wait of 2 data bytes is already longer.
 */
uint32_t nengapiko_data_length(uint16_t sto, uint16_t hold, uint16_t rt2, uint16_t rt1_primary,
                               uint16_t rt1_secondary, uint8_t retries, uint32_t wait,
                               uint8_t *length) NENGAPIKO_NONNULL;

/*
 * The longest wait for a data length: that of a link whose parties have it as their limit.
 *
 *   sto .. rt1_secondary  as for nengapiko_data_length; so is retries
 *   length                the data length, 2 to 255
 *   bursting              whether a device may burst while a message waits
 *   wait                  set to the ticks; left as it was by a refusal
 *
 * Returns 0, 1, 2 or 9.
 */
uint32_t nengapiko_longest_wait(uint16_t sto, uint16_t hold, uint16_t rt2, uint16_t rt1_primary,
                                uint16_t rt1_secondary, uint8_t retries, size_t length,
                                bool bursting, uint32_t *wait) NENGAPIKO_NONNULL;

/* ------------------------------------------------------------------------ recordings
 *
 * A recording has two bytes a tick, numbered from 0: the kind of what was heard in bits 7 to 5 of the
 * first (0 silence, 1 a character, 2 to 4 a character with damage 1 to 3), zero in its bits 4 to 0, and
 * the character in the second, zero for silence. It may have any length: a program may map a file and
 * lend the mapping.
 */

/*
 * What a tick reader tells in each tick of a recording from its start on: an enum nengapiko_event for
 * each. It refuses nothing: kinds 5 to 7 are heard as silence; bits 4 to 0 of a first byte, the character
 * of a silent tick and a last odd byte are not looked at.
 *
 *   recording, size   the recording
 *   events, room      a number for each tick, for as many ticks as both the recording and the room hold;
 *                     the rest is left as it was
 *
 * Returns how many ticks these are: size / 2 or room, whichever is less.
 */
size_t nengapiko_ticks(const uint8_t *NENGAPIKO_RESTRICT recording, size_t size,
                       uint8_t *NENGAPIKO_RESTRICT events, size_t room) NENGAPIKO_NONNULL;

/* An entry of a list, so many bytes: the tick, 8 bytes, most significant first, and an enum nengapiko_entry. */
#define NENGAPIKO_SIZE_ENTRY 9

enum nengapiko_entry {
    NENGAPIKO_ENTRY_BROKEN = 0,
    NENGAPIKO_ENTRY_WHOLE = 1,
    NENGAPIKO_ENTRY_DAMAGED = 2
};

/*
 * Lists the frames and breaks that a tick reader finds in a recording from its start on, in the order of
 * their ticks: the tick that ends or breaks each. A character in tick 0 is a break; characters passed over
 * behind a break add none.
 *
 *   recording, size   the recording
 *   out, room         the list is put at the front; the bytes behind it are left as they were
 *   entries           set to their number; left as it was by a refusal
 *
 * Returns 0, 21 or 15. With room for an entry for every two ticks, (size / 4 + 1) * NENGAPIKO_SIZE_ENTRY
 * bytes, the recording is gone through once, with less room twice.
 */
uint32_t nengapiko_list(const uint8_t *NENGAPIKO_RESTRICT recording, size_t size,
                        uint8_t *NENGAPIKO_RESTRICT out, size_t room,
                        size_t *NENGAPIKO_RESTRICT entries) NENGAPIKO_NONNULL;

/*
 * Joins two recordings of one pair from one tick on. In each tick a character goes before damage
 * and damage before silence, the lower kind before the higher, and the first tap's before the
 * second's at equal kinds.
 *
 *   first, first_size    a tap's recording, and how many bytes it has
 *   second, second_size  the other's; both may be one buffer
 *   out, room            where the joined recording goes, as long as each tap; bytes of out behind
 *                        it stay. It overlaps neither tap
 *   tick                 set by 23 to the first tick with two different characters, counted from 0;
 *                        else left as it was
 *
 * Returns 0, 21 for either recording, 22, 15 or 23, the first in this order that applies.
 */
uint32_t nengapiko_join(const uint8_t *first, size_t first_size, const uint8_t *second,
                        size_t second_size, uint8_t *NENGAPIKO_RESTRICT out, size_t room,
                        size_t *NENGAPIKO_RESTRICT tick) NENGAPIKO_NONNULL;

/* ------------------------------------------------------------------------ the infrared port
 *
 * A master and a device of the infrared port (HCF_SPEC-081 revision 9.0, section 8.4), called once a
 * tick as those of the pair; a tick is a character of 11 bits at 19,200 bit/s. The profile is the
 * port's own: STO 87, but 52 for commands 0 and 11, HOLD 5, RT2 13, RT1 456. There is one master, burst
 * is never on, and a BACK counts as a damaged frame. Beside the words of a party's state stand those
 * of the port, in an array of their own; both are kept together.
 *
 * A device dozes after 20,946 quiet ticks. Its tick then tells nothing until a wake-up was heard. A
 * master that heard no answer's last character in the 20,946 ticks before sends 358 characters of
 * 0x00, 0xFF in turn before its STX: a request then begins with them, and attempts count the STX
 * frames alone.
 */

/*
 * Starts the port's master.
 *
 *   primary   true for the primary master
 *   retries   R, 3 to 15
 *   limit     the most data of a request, 2 to 255
 *   state     NENGAPIKO_SIZE_MASTER words; left as they were by a refusal
 *   port      NENGAPIKO_SIZE_PORT_MASTER words; the same
 *
 * Returns 0, 2 or 9.
 */
uint32_t nengapiko_port_master_start(bool primary, uint8_t retries, size_t limit,
                                     uint64_t *NENGAPIKO_RESTRICT state,
                                     uint64_t *NENGAPIKO_RESTRICT port) NENGAPIKO_NONNULL;

/*
 * A tick of the port's master: as nengapiko_master_tick, with the port's words behind the state's. A
 * preamble other than 5 is refused with 3.
 *
 * Returns 0, or the request's refusal, the first that applies of 3, 17, 4, 5, 6 and 7.
 */
uint32_t nengapiko_port_master_tick(uint64_t *NENGAPIKO_RESTRICT state,
                                    uint64_t *NENGAPIKO_RESTRICT port,
                                    uint8_t *NENGAPIKO_RESTRICT frame,
                                    uint8_t *NENGAPIKO_RESTRICT bytes, uint8_t heard,
                                    uint8_t character, bool requests, size_t preamble,
                                    uint8_t revision, bool long_address, uint64_t address,
                                    uint8_t command, const uint8_t *NENGAPIKO_RESTRICT put,
                                    size_t count,
                                    uint64_t *NENGAPIKO_RESTRICT results) NENGAPIKO_NONNULL;

/*
 * Starts a device of the port, awake.
 *
 *   preamble          how many 0xFF go in front of its frames: 5
 *   polling_address   0 to 63
 *   unique_address    1 to 2^38 - 1
 *   limit             the most data of an answer, 2 to 255
 *   state             NENGAPIKO_SIZE_DEVICE words; left as they were by a refusal
 *   port              NENGAPIKO_SIZE_PORT_DEVICE words; the same
 *
 * Returns 0, 3, 4 or 9.
 */
uint32_t nengapiko_port_device_start(size_t preamble, uint8_t polling_address,
                                     uint64_t unique_address, size_t limit,
                                     uint64_t *NENGAPIKO_RESTRICT state,
                                     uint64_t *NENGAPIKO_RESTRICT port) NENGAPIKO_NONNULL;

/*
 * A tick of a device of the port: as nengapiko_device_tick, with the port's words behind the state's
 * and without burst content, so that an answer which wishes burst on is refused with 10. A burst
 * content is no call here: its number is nothing, as any other.
 *
 * Returns 0, or the answer's refusal: 8, 9 or 10.
 */
uint32_t nengapiko_port_device_tick(uint64_t *NENGAPIKO_RESTRICT state,
                                    uint64_t *NENGAPIKO_RESTRICT port,
                                    uint8_t *NENGAPIKO_RESTRICT frame,
                                    uint8_t *NENGAPIKO_RESTRICT bytes, uint8_t heard,
                                    uint8_t character, uint8_t call,
                                    const uint8_t *NENGAPIKO_RESTRICT put, size_t count,
                                    uint64_t *NENGAPIKO_RESTRICT results) NENGAPIKO_NONNULL;

/* ------------------------------------------------------------------------ latest readings
 *
 * A table of the newest data of each device and command, in memory that the program lends: rows, and a
 * byte area with NENGAPIKO_SIZE_DATA bytes for each row, in the rows' order. The rows are cleared before
 * their first use; what the area holds then does not matter. A row's fields are integers and leave no
 * byte of it over, so that every content of rows and area is some table, and every call takes it.
 *
 * A table is what its calls, in their order, leave; ticks are not compared. So a frame is entered in the
 * tick that told it. Entered again it changes nothing; entered later, after a newer one of its address
 * and command, it puts the older back.
 *
 * The primary's and the secondary's host may share a table, one call at a time. Both hear every frame, and
 * both may enter it. Tick, count and data of a row are those of the newest frame, to whichever master; two
 * bits of its second data byte are meant for one master only, and are kept once for each.
 */

/* The bits of the second data byte that are meant for one master only. */
enum nengapiko_own_bit {
    NENGAPIKO_OWN_BIT_MORE_STATUS = 0x10,          /* more status available */
    NENGAPIKO_OWN_BIT_CONFIGURATION_CHANGED = 0x40 /* configuration changed */
};

/* A row. An empty one has address 0. */
struct nengapiko_reading {
    uint64_t address;  /* the device's unique address */
    uint64_t tick;     /* the tick of the frame's last character */
    size_t place;      /* where its data begin in the byte area: 255 bytes for each row in front of it */
    uint8_t command;
    uint8_t count;     /* how many data bytes there are; the row's bytes behind them are older */
    uint8_t primary;   /* the bits of enum nengapiko_own_bit as the last frame to the primary had them */
    uint8_t secondary; /* and as the last frame to the secondary had them */
    uint32_t spare;    /* 0 of a row that was cleared or entered */
};

/* Its layout is the archive's: where a compiler lays it out otherwise, this type is refused. */
typedef char nengapiko_reading_layout[sizeof(struct nengapiko_reading) == 32 &&
                                      offsetof(struct nengapiko_reading, address) == 0 &&
                                      offsetof(struct nengapiko_reading, tick) == 8 &&
                                      offsetof(struct nengapiko_reading, place) == 16 &&
                                      offsetof(struct nengapiko_reading, command) == 24 &&
                                      offsetof(struct nengapiko_reading, count) == 25 &&
                                      offsetof(struct nengapiko_reading, primary) == 26 &&
                                      offsetof(struct nengapiko_reading, secondary) == 27 &&
                                      offsetof(struct nengapiko_reading, spare) == 28 ? 1 : -1];

/* Empties every row: all its fields are 0. The byte area is left as it is. */
void nengapiko_readings_clear(struct nengapiko_reading *rows, size_t count) NENGAPIKO_NONNULL;

/*
 * Enters a frame if it is a reading: whole and undamaged, an ACK or a BACK, with a unique address other
 * than 0 and bit 7 of its first data byte not set. It supersedes the first row of its address and
 * command, else takes the first empty row: that row is set, and of its 255 bytes the first ones to the
 * frame's data, with both bits of enum nengapiko_own_bit as 0. These go to the field of the master that
 * the frame is to by its master bit, whichever host enters it; the other master's field stays as it was,
 * and is 0 where the row was empty. Every other row and byte stays. Anything else that is told changes
 * nothing, and is no refusal.
 *
 *   rows, count   the table
 *   area, size    its byte area
 *   tick          the tick in which the line carried the frame's last character, in one count of ticks
 *                 for the table. What a master or a device tells, the line carried in the tick before;
 *                 so it did for a tick reader that runs beside them, while one that runs over a recording
 *                 tells of the tick that it is given. Of a frame of nengapiko_read, its last byte's tick
 *   results       NENGAPIKO_SIZE_RESULTS words, as a tick of a tick reader, a master or a device has left
 *                 them. Looked at are EVENT, TYPE, LONG, PRIMARY, ADDRESS, COMMAND and COUNT, so that for
 *                 a frame of nengapiko_read these may be set: the first to NENGAPIKO_EVENT_WHOLE, the
 *                 others to the fields of the same names. What no tick and no read gives, fewer than 2
 *                 data bytes or an address above 38 bits, is no reading
 *   bytes         NENGAPIKO_SIZE_DATA bytes, the frame's data at the front: the buffer of that same tick
 *
 * Returns 0; 15 for an area below 255 bytes a row, whatever the frame is; or 20 for a reading when no row
 * is of its address and command and none is empty.
 */
uint32_t nengapiko_readings_enter(struct nengapiko_reading *NENGAPIKO_RESTRICT rows, size_t count,
                                  uint8_t *NENGAPIKO_RESTRICT area, size_t size, uint64_t tick,
                                  const uint64_t *NENGAPIKO_RESTRICT results,
                                  const uint8_t *NENGAPIKO_RESTRICT bytes) NENGAPIKO_NONNULL;

/*
 * Returns the number of the first row of an address and a command, or count where there is none; of
 * address 0 there is none.
 */
size_t nengapiko_readings_find(const struct nengapiko_reading *rows, size_t count, uint64_t address,
                               uint8_t command) NENGAPIKO_NONNULL;

/*
 * Returns the second data byte as one master's host is shown it: the stored one, with the two bits of
 * enum nengapiko_own_bit as that master's field has them.
 *
 *   stored   area[row.place + 1]
 *   bits     row.primary for the primary's host, row.secondary for the secondary's
 */
uint8_t nengapiko_readings_status(uint8_t stored, uint8_t bits);

#ifdef __cplusplus
}
#endif

#endif
