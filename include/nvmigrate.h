/*
 * nvmigrate: proved parts of an NVMe controller for C and C++ programs.
 *
 * Every call below is an export of crates/nvmigrate_c, whose contract is proved: docs/LIBRARIES.md says in a line
 * what each promises. Sections are those of NVM Express Base 2.1, by number or by name.
 *
 * What is the standard's and what isn't. Queue entries, their bytes and the rings are the standard's. Of host managed
 * live migration the names are, and nothing else: the bytes of the admin commands (opcodes, selectors, the places of
 * all numbers behind them), their command specific status codes, the image of a controller's state and the change
 * entry are this project's own. Nothing of these goes to hardware, or is read from it.
 *
 * What a caller owes. The proofs take it for granted, and nothing tests it:
 *  - No pointer is null. Each points to as many elements as its parameter says, aligned as C aligns them; a pointer
 *    with a count behind it to so many, and isn't null where that is 0 either.
 *  - What a call writes to overlaps nothing else that is passed to the same call. No other thread touches it
 *    meanwhile, nor writes to what the call reads.
 *
 * Everything else is tested: any bytes, lengths, sizes, places and doorbell values get an answer, and a count above
 * what a call takes is refused before anything is read there. A call that answers another code than NVMIGRATE_OK
 * leaves what it would have written as it was, unless its comment says otherwise. The structs are plain numbers,
 * which a program may keep, copy and send as it likes. No call keeps anything between calls, so any number of threads
 * may make them at once. None but nvmigrate_judge allocates, or calls anything but memcpy, memmove and memset.
 */
#ifndef NVMIGRATE_H
#define NVMIGRATE_H

#include <stddef.h>
#include <stdint.h>

#ifdef __cplusplus
extern "C" {
#endif

/* The version of this header. While the major number is 0, a new minor one may change calls, structs and codes, and
 * the bytes that are this project's own; a new patch changes none of them. From 1.0.0 on only a new major one does. */
#define NVMIGRATE_VERSION_MAJOR 0
#define NVMIGRATE_VERSION_MINOR 1
#define NVMIGRATE_VERSION_PATCH 0
#define NVMIGRATE_VERSION \
    (NVMIGRATE_VERSION_MAJOR * 65536 + NVMIGRATE_VERSION_MINOR * 256 + NVMIGRATE_VERSION_PATCH)

/* The version of the library that is linked, as NVMIGRATE_VERSION counts it. */
uint32_t nvmigrate_version(void);

/* What a call answers. */
enum nvmigrate_code {
    NVMIGRATE_OK = 0,
    NVMIGRATE_NONE = 1,         /* there is none: no entry waits, or the image isn't whole */
    NVMIGRATE_FULL = 2,         /* no place is free */
    NVMIGRATE_BAD_DOORBELL = 3, /* the ring or the queue doesn't take this place */
    NVMIGRATE_BAD_RING = 4,     /* the numbers of the struct aren't those of a ring */
    NVMIGRATE_BAD_FIELD = 5,    /* a number is out of its range, or a byte can't stand where it does */
    NVMIGRATE_BAD_OPCODE = 6,   /* byte 0 is the opcode of no admin command */
    NVMIGRATE_BAD_SELECT = 7,   /* byte 40 is the selector of no command of this opcode */
    NVMIGRATE_BAD_SEQUENCE = 8, /* a part begins neither at byte 0 nor where the bytes fed end */
    NVMIGRATE_TOO_LONG = 9,     /* a part passes the image's end, or more is given than is taken */
    NVMIGRATE_BAD_IMAGE = 10,   /* no image goes on with the byte that is told */
    NVMIGRATE_BAD_PARTS = 11,   /* the struct isn't one of parts that were fed */
    NVMIGRATE_OUT_OF_MEMORY = 12,
    NVMIGRATE_BAD_SCRIPT = 13,     /* the text doesn't begin with a script */
    NVMIGRATE_WRONG_FORM = 14,     /* no whole transcript for the script has the lines up to the one that is told */
    NVMIGRATE_WRONG_LEGAL = 15,    /* it is an event that isn't legal where it stands */
    NVMIGRATE_WRONG_COMPLETE = 16, /* it is the last line, and some lane isn't complete */
    NVMIGRATE_BAD_QUEUE = 17,      /* the struct isn't one of a queue of so many cells */
    NVMIGRATE_NOT_LIVE = 18,       /* the queue wasn't created, or is deleted */
    NVMIGRATE_LIVE = 19            /* the queue is live already */
};

/* ---- Entries ----------------------------------------------------------------------------------------------------- */

/* A submission queue entry (4.1.1), dword by dword where no command of the set names a field. Any numbers are one. */
struct nvmigrate_sqe {
    uint8_t opcode;
    uint8_t flags; /* bits 1:0 FUSE, bits 7:6 PSDT */
    uint16_t cid;
    uint32_t nsid;
    uint32_t cdw2;
    uint32_t cdw3;
    uint64_t mptr;
    uint64_t prp1;
    uint64_t prp2;
    uint32_t cdw10;
    uint32_t cdw11;
    uint32_t cdw12;
    uint32_t cdw13;
    uint32_t cdw14;
    uint32_t cdw15;
};

/* A completion queue entry (4.2). */
struct nvmigrate_cqe {
    uint32_t dw0;
    uint32_t dw1;
    uint16_t sqhd;
    uint16_t sqid;
    uint16_t cid;
    uint8_t phase; /* 0 or 1 */
    uint8_t sc;
    uint8_t sct;  /* 0 to 7 */
    uint8_t crd;  /* 0 to 3 */
    uint8_t more; /* 0 or 1 */
    uint8_t dnr;  /* 0 or 1 */
};

/* The 64 bytes of an entry, each number little-endian (4.1.1). */
void nvmigrate_sqe_to_bytes(const struct nvmigrate_sqe *entry, uint8_t out[64]);

/* The entry of 64 bytes. No byte string is refused, and no bit is lost: to_bytes gives the same bytes. */
void nvmigrate_sqe_from_bytes(const uint8_t bytes[64], struct nvmigrate_sqe *out);

/* Fused Operation, 0 to 3, and PRP or SGL for Data Transfer, 0 to 3 (4.1.1). */
uint8_t nvmigrate_sqe_fuse(const struct nvmigrate_sqe *entry);
uint8_t nvmigrate_sqe_psdt(const struct nvmigrate_sqe *entry);

/* Of the commands of the NVM Command Set that name blocks: Starting LBA, dwords 10 and 11, and the number of
 * blocks, 1 to 65,536, which is bits 15:0 of dword 12 plus 1. */
uint64_t nvmigrate_sqe_slba(const struct nvmigrate_sqe *entry);
uint32_t nvmigrate_sqe_count(const struct nvmigrate_sqe *entry);

/* The 16 bytes of a completion (4.2). NVMIGRATE_BAD_FIELD exactly where phase, sct, crd, more or dnr is out of its
 * range. */
uint32_t nvmigrate_cqe_to_bytes(const struct nvmigrate_cqe *entry, uint8_t out[16]);

/* The completion of 16 bytes. No byte string is refused, and no bit is lost. */
void nvmigrate_cqe_from_bytes(const uint8_t bytes[16], struct nvmigrate_cqe *out);

/* ---- The ends of a queue pair ------------------------------------------------------------------------------------ */

/* A queue stands in one page of 4,096 bytes of guest memory: a submission queue of 2 to 64 places of 64 bytes, a
 * completion queue of 2 to 256 places of 16. It is empty where head is tail, and full where the place after tail is
 * head (Queues: Empty Queue, Full Queue). Head and tail are below the size, and a phase is 0 or 1: each call that reads
 * an end tells other numbers of it by NVMIGRATE_BAD_RING, before anything else. */

/* The controller's end of a submission queue: its tail is the one that the doorbell was rung with last. */
struct nvmigrate_sq {
    uint16_t size;
    uint16_t head;
    uint16_t tail;
};

/* The controller's end of a completion queue, and the phase tag of the next entry. */
struct nvmigrate_cq {
    uint16_t size;
    uint16_t head;
    uint16_t tail;
    uint8_t phase;
};

/* The guest's end of a submission queue: its head is the one that it learnt last. */
struct nvmigrate_guest_sq {
    uint16_t size;
    uint16_t head;
    uint16_t tail;
};

/* The guest's end of a completion queue: its place, and the phase tag of the next entry. */
struct nvmigrate_guest_cq {
    uint16_t size;
    uint16_t head;
    uint8_t phase;
};

/* Ends of an empty queue over a zeroed page. NVMIGRATE_BAD_RING exactly where the size is out of its range. */
uint32_t nvmigrate_sq_new(uint16_t size, struct nvmigrate_sq *out);
uint32_t nvmigrate_cq_new(uint16_t size, struct nvmigrate_cq *out);
uint32_t nvmigrate_guest_sq_new(uint16_t size, struct nvmigrate_guest_sq *out);
uint32_t nvmigrate_guest_cq_new(uint16_t size, struct nvmigrate_guest_cq *out);

/* Controller: the guest rang the tail doorbell (Submission Queue Tail Doorbell). NVMIGRATE_BAD_DOORBELL
 * exactly where the value is the size or more. */
uint32_t nvmigrate_sq_set_tail(struct nvmigrate_sq *sq, uint16_t value);

/* Controller: takes the oldest entry. NVMIGRATE_NONE exactly where the queue is empty. */
uint32_t nvmigrate_sq_fetch(struct nvmigrate_sq *sq, const uint8_t page[4096], struct nvmigrate_sqe *out);

/* Controller: how many completions may be posted before the guest rings the head doorbell, from 0 to the size less
 * 1. */
uint32_t nvmigrate_cq_free(const struct nvmigrate_cq *cq, uint16_t *out);

/* Controller: writes a completion behind the others, with the queue's phase tag in place of its own (Phase
 * Tag). NVMIGRATE_BAD_FIELD exactly where a number of it is out of its range, and else NVMIGRATE_FULL exactly where
 * no place is free. */
uint32_t nvmigrate_cq_post(struct nvmigrate_cq *cq, uint8_t page[4096], const struct nvmigrate_cqe *entry);

/* Controller: the guest rang the head doorbell (Completion Queue Head Doorbell). NVMIGRATE_BAD_DOORBELL
 * exactly where the value isn't one of the places from head to tail, in ring order. */
uint32_t nvmigrate_cq_set_head(struct nvmigrate_cq *cq, uint16_t value);

/* Guest: writes an entry behind the others. sq->tail is then what the doorbell is rung with. NVMIGRATE_FULL exactly
 * where the place after the tail is the head that was learnt last. */
uint32_t nvmigrate_guest_sq_submit(struct nvmigrate_guest_sq *sq, uint8_t page[4096],
                                   const struct nvmigrate_sqe *entry);

/* Guest: learns the controller's head, as a completion tells it (4.2, SQ Head Pointer). NVMIGRATE_BAD_DOORBELL
 * exactly where it is the size or more. */
uint32_t nvmigrate_guest_sq_learn(struct nvmigrate_guest_sq *sq, uint16_t head);

/* Guest: takes the oldest completion. cq->head is then what the doorbell is rung with. NVMIGRATE_NONE exactly where
 * the cell at its place has the phase tag of the pass before. */
uint32_t nvmigrate_guest_cq_reap(struct nvmigrate_guest_cq *cq, const uint8_t page[4096], struct nvmigrate_cqe *out);

/* ---- Admin commands of host managed live migration --------------------------------------------------------------- */

/* What a command asks for, and which numbers it has; the others are ignored, and read as 0. The commands are Track
 * Send, Track Receive, Migration Send, Migration Receive and Controller Data Queue in name alone: their bytes are this
 * project's own (docs/FORMATS.md). */
enum nvmigrate_what {
    NVMIGRATE_LOG_USER_DATA = 0,  /* start 0 or 1, queue */
    NVMIGRATE_TRACK_MEMORY = 1,   /* start 0 or 1 */
    NVMIGRATE_MEMORY_CHANGES = 2, /* max 1 to 2,064 */
    NVMIGRATE_SUSPEND = 3,
    NVMIGRATE_RESUME = 4,
    NVMIGRATE_SET_STATE = 5,    /* offset, length 1 to 4,096 */
    NVMIGRATE_GET_STATE = 6,    /* offset, length 1 to 4,096 */
    NVMIGRATE_CREATE_QUEUE = 7, /* cells 2 to 65,536 */
    NVMIGRATE_DELETE_QUEUE = 8  /* queue */
};

struct nvmigrate_admin {
    uint16_t cid;
    uint8_t what;
    uint8_t start;
    uint16_t queue;
    uint32_t max;
    uint32_t offset;
    uint32_t length;
    uint32_t cells;
};

/* The 64 bytes of a command. NVMIGRATE_BAD_FIELD exactly where `what` is above 8, or a number that it has is out of
 * its range. */
uint32_t nvmigrate_admin_to_bytes(const struct nvmigrate_admin *command, uint8_t out[64]);

/* The command of 64 bytes. NVMIGRATE_BAD_OPCODE exactly where byte 0 is the opcode of none; NVMIGRATE_BAD_SELECT
 * exactly where it is one's, and byte 40 the selector of none with this opcode; NVMIGRATE_BAD_FIELD exactly where
 * both are, and the bytes aren't a command: *place is then the first, from 1 to 63, at which no command of this
 * opcode and selector goes on so. */
uint32_t nvmigrate_admin_from_bytes(const uint8_t bytes[64], struct nvmigrate_admin *out, uint8_t *place);

/* ---- A controller's state as bytes ------------------------------------------------------------------------------- */

/* An image of a controller's state is this project's own (docs/FORMATS.md has its layout). */

/* The controller's ends of a queue pair. */
struct nvmigrate_pair {
    struct nvmigrate_sq sq;
    struct nvmigrate_cq cq;
};

/* An image that comes in parts: how many of its bytes were fed, of how many queue pairs it is, 1 to 8, and the bytes.
 * parts_feed and parts_whole test that an image begins so, and else answer NVMIGRATE_BAD_PARTS, before anything
 * else. */
struct nvmigrate_parts {
    uint32_t fed;
    uint8_t lanes;
    uint8_t bytes[264];
};

/* No byte is fed of an image of so many queue pairs. NVMIGRATE_BAD_PARTS exactly where these aren't 1 to 8. */
uint32_t nvmigrate_parts_new(uint8_t lanes, struct nvmigrate_parts *out);

/* Takes the part of the image that begins at byte `offset`: where the bytes fed end, or at 0, where it begins anew.
 * In this order: NVMIGRATE_BAD_SEQUENCE exactly where it begins elsewhere; NVMIGRATE_TOO_LONG exactly where it
 * passes the image's end; NVMIGRATE_BAD_IMAGE exactly where no image goes on with it, and *place is the first such
 * byte. A part that is refused leaves the struct as it was, but one that begins at 0 leaves no byte fed: then `fed`
 * is 0. */
uint32_t nvmigrate_parts_feed(struct nvmigrate_parts *parts, uint32_t offset, const uint8_t *part, size_t count,
                              uint32_t *place);

/* The state whose image was fed: pairs 0 to lanes - 1, and zeroes behind them. NVMIGRATE_NONE exactly where it
 * isn't whole. */
uint32_t nvmigrate_parts_whole(const struct nvmigrate_parts *parts, struct nvmigrate_pair out[8]);

/* Writes the image of the state of these pairs, 1 to 8, into the first bytes of `out`, and how many they are, 8 and 32
 * for each pair, into *length. The other bytes stay. NVMIGRATE_BAD_FIELD exactly where there is no pair,
 * NVMIGRATE_TOO_LONG exactly where there are more than 8, and else NVMIGRATE_BAD_RING exactly where an end of one is
 * no ring. */
uint32_t nvmigrate_image_encode(const struct nvmigrate_pair *pairs, size_t count, uint8_t out[264], uint32_t *length);

/* ---- A user data migration queue --------------------------------------------------------------------------------- */

/* The controller tells the host in it which blocks were written (Controller Data Queue). Entries and the rule of the
 * ring are this project's own (docs/FORMATS.md). The cells, 2 to 65,536, are the caller's, who passes them to each
 * call that reads or writes one. */
struct nvmigrate_cell {
    uint8_t bytes[32];
};

/* The places of the oldest entry that isn't taken and of the next one, how many entries wait from the one to the
 * other, the phase tag of the next one, whether an entry found no free cell, and whether the queue was created and
 * isn't deleted. In a queue of so many cells head and next are below their number, waiting is at most it, next is
 * head plus waiting modulo it, and the others are 0 or 1. queue_post, queue_take and queue_set_head tell other numbers
 * by NVMIGRATE_BAD_QUEUE, and then a queue that isn't live by NVMIGRATE_NOT_LIVE, both before anything else. */
struct nvmigrate_queue {
    uint32_t head;
    uint32_t next;
    uint32_t waiting;
    uint8_t phase;  /* 0 or 1 */
    uint8_t marked; /* 0 or 1 */
    uint8_t live;   /* 0 or 1 */
};

/* Blocks that were written: 1 to 64 of them, the first below 131,072. */
struct nvmigrate_change {
    uint32_t first;
    uint32_t count;
};

/* The 32 bytes of an entry with a phase tag. NVMIGRATE_BAD_FIELD exactly where that is neither 0 nor 1, or the change
 * names other blocks than it may. */
uint32_t nvmigrate_change_to_bytes(const struct nvmigrate_change *change, uint8_t phase, uint8_t out[32]);

/* The blocks and the phase tag of an entry of 32 bytes. NVMIGRATE_BAD_FIELD exactly where the bytes are no entry:
 * those of another namespace or kind, with a byte that isn't zero where it has to be, or with a number out of its
 * range. */
uint32_t nvmigrate_change_from_bytes(const uint8_t bytes[32], struct nvmigrate_change *out, uint8_t *phase);

/* Makes a struct, whatever stands in it, that of a queue that isn't live. */
void nvmigrate_queue_init(struct nvmigrate_queue *queue);

/* A new queue with zeroed cells and no mark. NVMIGRATE_BAD_QUEUE exactly where there aren't 2 to 65,536 cells or
 * `live` is neither 0 nor 1, and else NVMIGRATE_LIVE exactly where it is 1. Of `queue` nothing else is read. */
uint32_t nvmigrate_queue_create(struct nvmigrate_queue *queue, struct nvmigrate_cell *cells, size_t cell_count);

/* The queue isn't live any more. NVMIGRATE_BAD_QUEUE exactly where `live` is neither 0 nor 1, NVMIGRATE_NOT_LIVE
 * exactly where it is 0. Nothing else is read or written. */
uint32_t nvmigrate_queue_delete(struct nvmigrate_queue *queue);

/* Posts a change behind the others. NVMIGRATE_BAD_FIELD exactly where it names other blocks than it may; else
 * NVMIGRATE_FULL exactly where the mark is up or no cell is free: then the mark is up, and nothing was posted. */
uint32_t nvmigrate_queue_post(struct nvmigrate_queue *queue, struct nvmigrate_cell *cells, size_t cell_count,
                              const struct nvmigrate_change *change);

/* Takes the oldest change that isn't taken: the one that was posted into its cell, where nobody else wrote there.
 * NVMIGRATE_NONE exactly where none waits. */
uint32_t nvmigrate_queue_take(struct nvmigrate_queue *queue, const struct nvmigrate_cell *cells, size_t cell_count,
                              struct nvmigrate_change *out);

/* Takes all changes before a place. NVMIGRATE_BAD_DOORBELL exactly where it isn't one from the head to the next
 * place of posting, in ring order. */
uint32_t nvmigrate_queue_set_head(struct nvmigrate_queue *queue, const struct nvmigrate_cell *cells, size_t cell_count,
                                  uint32_t value);

/* ---- Transcripts are judged -------------------------------------------------------------------------------------- */

/* What is wrong with a script's line. */
enum nvmigrate_why {
    NVMIGRATE_WHY_FORM = 0,  /* its form */
    NVMIGRATE_WHY_RANGE = 1, /* a number that is out of its range */
    NVMIGRATE_WHY_CUT = 2    /* it has no line feed, or isn't there */
};

/* Where a text is wrong: the line, counted from 1, and of a script's line why. Of a transcript's line `why` is 0. */
struct nvmigrate_wrong_line {
    uint32_t line;
    uint32_t why;
};

/* Judges a script and the transcript directly behind it (docs/FORMATS.md): NVMIGRATE_OK exactly where it is a whole
 * transcript for the script, whose events are a legal history of one controller from a zeroed namespace and zeroed
 * memory, and each guest did all its acts. NVMIGRATE_TOO_LONG exactly where the text has more than 67,108,864
 * bytes. NVMIGRATE_BAD_SCRIPT where there is no script in front, with the script's first line that isn't right;
 * else NVMIGRATE_WRONG_FORM, NVMIGRATE_WRONG_LEGAL or NVMIGRATE_WRONG_COMPLETE with the transcript's first line
 * that is wrong, its first line being 1. These four write *wrong. NVMIGRATE_OUT_OF_MEMORY where memory ran out:
 * this is the one call that takes some, by nvmigrate_heap.c, and all of it is given back. It isn't called from a
 * signal handler. */
uint32_t nvmigrate_judge(const uint8_t *text, size_t count, struct nvmigrate_wrong_line *wrong);

/* ---- Layout ------------------------------------------------------------------------------------------------------ */

/* How the library sees the structs, to be compared with what the C compiler sees (tests/c/layout.c): the size of a
 * struct, by its place in this list, sqe, cqe, sq, cq, guest_sq, guest_cq, admin, pair, parts, wrong_line, change,
 * queue, and 0 for another place; and the fields of one in order, those of a pair being its two ends', and of the
 * bytes of parts the first and the last. */
size_t nvmigrate_layout_size(uint32_t place);
void nvmigrate_layout_sqe(const struct nvmigrate_sqe *entry, uint64_t out[15]);
void nvmigrate_layout_cqe(const struct nvmigrate_cqe *entry, uint64_t out[11]);
void nvmigrate_layout_pair(const struct nvmigrate_pair *pair, uint64_t out[7]);
void nvmigrate_layout_guest_sq(const struct nvmigrate_guest_sq *sq, uint64_t out[3]);
void nvmigrate_layout_guest_cq(const struct nvmigrate_guest_cq *cq, uint64_t out[3]);
void nvmigrate_layout_admin(const struct nvmigrate_admin *command, uint64_t out[8]);
void nvmigrate_layout_parts(const struct nvmigrate_parts *parts, uint64_t out[4]);
void nvmigrate_layout_wrong_line(const struct nvmigrate_wrong_line *line, uint64_t out[2]);
void nvmigrate_layout_change(const struct nvmigrate_change *change, uint64_t out[2]);
void nvmigrate_layout_queue(const struct nvmigrate_queue *queue, uint64_t out[6]);

#ifdef __cplusplus
}
#endif

#endif
