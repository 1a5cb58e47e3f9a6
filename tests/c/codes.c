/* Each code of the header by a situation that gives it, and what the call then left. A line for each: the number and
 * the situation. Memory is this program's, so that there can be none. */
#include <nvmigrate.h>
#include <stdbool.h>
#include <stdio.h>
#include <stdlib.h>
#include <string.h>

/* In place of nvmigrate_heap.c. */
struct tried {
    bool ok;
    uint8_t *at;
};

static bool no_memory;
static uint8_t none;

static struct tried answer(void *at) {
    struct tried tried;
    tried.ok = at != NULL;
    tried.at = tried.ok ? at : &none;
    return tried;
}

struct tried rattle_alloc(size_t size, size_t align) {
    (void)align;
    return answer(no_memory ? NULL : malloc(size > 0 ? size : 1));
}

struct tried rattle_realloc(uint8_t *at, size_t kept, size_t size, size_t align) {
    (void)kept, (void)align;
    return answer(no_memory ? NULL : realloc(at, size > 0 ? size : 1));
}

void rattle_dealloc(uint8_t *at) {
    free(at);
}

static int wrong;

static void is(uint32_t code, uint32_t want, const char *situation) {
    printf("%2u %s%s\n", code, situation, code == want ? "" : ": ANOTHER CODE IS DUE");
    wrong |= code != want;
}

static void holds(bool fact, const char *what) {
    printf("   %s%s\n", what, fact ? "" : ": NO");
    wrong |= !fact;
}

static uint8_t page[4096];

static void entries(void) {
    struct nvmigrate_cqe cqe = {0, 0, 0, 0, 0, 2, 0, 0, 0, 0, 0};
    uint8_t bytes[16];
    is(nvmigrate_cqe_to_bytes(&cqe, bytes), NVMIGRATE_BAD_FIELD, "a completion has the phase tag 2");
    cqe.phase = 1;
    is(nvmigrate_cqe_to_bytes(&cqe, bytes), NVMIGRATE_OK, "and now the phase tag 1");
}

static void rings(void) {
    struct nvmigrate_guest_sq guest_sq;
    struct nvmigrate_sq sq;
    struct nvmigrate_cq cq;
    struct nvmigrate_sqe sqe;
    uint16_t count = 0;
    memset(&sqe, 0, sizeof sqe);
    is(nvmigrate_sq_new(1, &sq), NVMIGRATE_BAD_RING, "a ring of one place");
    is(nvmigrate_sq_new(2, &sq), NVMIGRATE_OK, "a ring of two places");
    is(nvmigrate_sq_fetch(&sq, page, &sqe), NVMIGRATE_NONE, "a fetch from an empty ring");
    is(nvmigrate_sq_set_tail(&sq, 2), NVMIGRATE_BAD_DOORBELL, "the doorbell is rung with a place that isn't there");
    is(nvmigrate_guest_sq_new(2, &guest_sq), NVMIGRATE_OK, "the guest's end");
    is(nvmigrate_guest_sq_submit(&guest_sq, page, &sqe), NVMIGRATE_OK, "an entry is submitted");
    is(nvmigrate_guest_sq_submit(&guest_sq, page, &sqe), NVMIGRATE_FULL, "another, with no place free");
    is(nvmigrate_cq_new(2, &cq), NVMIGRATE_OK, "a completion queue of two places");
    cq.tail = 2;
    is(nvmigrate_cq_free(&cq, &count), NVMIGRATE_BAD_RING, "its tail is no place of it");
}

static void commands(void) {
    struct nvmigrate_admin admin;
    uint8_t bytes[64] = {0}, place = 0;
    memset(&admin, 0, sizeof admin);
    is(nvmigrate_admin_from_bytes(bytes, &admin, &place), NVMIGRATE_BAD_OPCODE, "a command with opcode 0");
    bytes[0] = 0x41, bytes[40] = 9;
    is(nvmigrate_admin_from_bytes(bytes, &admin, &place), NVMIGRATE_BAD_SELECT, "opcode 41, selector 9");
    bytes[40] = 2;
    is(nvmigrate_admin_from_bytes(bytes, &admin, &place), NVMIGRATE_BAD_FIELD, "Set Controller State of length 0");
    holds(place == 49, "told at byte 49");
    admin.what = 9;
    is(nvmigrate_admin_to_bytes(&admin, bytes), NVMIGRATE_BAD_FIELD, "a struct of no command");
}

static bool same(const struct nvmigrate_parts *a, const struct nvmigrate_parts *b) {
    return a->fed == b->fed && a->lanes == b->lanes && memcmp(a->bytes, b->bytes, sizeof a->bytes) == 0;
}

/* The bytes behind those that were fed aren't zeroes, so that it shows where one is written. */
static void images(void) {
    struct nvmigrate_pair pair = {{8, 7, 7}, {8, 2, 7, 0}}, got[8];
    struct nvmigrate_parts parts, before;
    uint8_t bytes[264], wrong_byte = 8;
    uint32_t length = 0, place = 0;
    is(nvmigrate_image_encode(&pair, 0, bytes, &length), NVMIGRATE_BAD_FIELD, "the image of no pair");
    is(nvmigrate_image_encode(&pair, 9, bytes, &length), NVMIGRATE_TOO_LONG, "the image of nine pairs");
    is(nvmigrate_image_encode(&pair, 1, bytes, &length), NVMIGRATE_OK, "the image of a pair");
    pair.sq.tail = 8;
    is(nvmigrate_image_encode(&pair, 1, bytes, &length), NVMIGRATE_BAD_RING, "of one whose tail is no place");
    is(nvmigrate_parts_new(9, &parts), NVMIGRATE_BAD_PARTS, "parts of an image of nine pairs");
    is(nvmigrate_parts_new(1, &parts), NVMIGRATE_OK, "parts of an image of a pair");
    is(nvmigrate_parts_feed(&parts, 0, bytes, 26, &place), NVMIGRATE_OK, "26 bytes are fed");
    memset(parts.bytes + 26, 0x5a, sizeof parts.bytes - 26);
    before = parts;
    is(nvmigrate_parts_feed(&parts, 27, bytes, 1, &place), NVMIGRATE_BAD_SEQUENCE, "a part that doesn't follow");
    holds(same(&parts, &before), "the struct is as it was");
    is(nvmigrate_parts_feed(&parts, 26, bytes + 26, 15, &place), NVMIGRATE_TOO_LONG, "a part that passes the end");
    holds(same(&parts, &before), "the struct is as it was");
    is(nvmigrate_parts_feed(&parts, 26, &wrong_byte, 1, &place), NVMIGRATE_BAD_IMAGE, "a byte that no image has there");
    holds(same(&parts, &before) && place == 26, "the struct is as it was, and byte 26 is told");
    is(nvmigrate_parts_whole(&parts, got), NVMIGRATE_NONE, "the state, before the image is whole");
    is(nvmigrate_parts_feed(&parts, 26, bytes + 26, 14, &place), NVMIGRATE_OK, "the rest is fed");
    is(nvmigrate_parts_whole(&parts, got), NVMIGRATE_OK, "the state");
    before = parts;
    before.fed = 0;
    is(nvmigrate_parts_feed(&parts, 0, bytes, 41, &place), NVMIGRATE_TOO_LONG, "a part from byte 0 that is too long");
    holds(same(&parts, &before), "no byte is fed, and the others are as they were");
    parts.fed = 265;
    is(nvmigrate_parts_whole(&parts, got), NVMIGRATE_BAD_PARTS, "more bytes are fed than an image has");
}

static void changes(void) {
    struct nvmigrate_change change = {60, 0};
    uint8_t bytes[32], phase = 9;
    is(nvmigrate_change_to_bytes(&change, 1, bytes), NVMIGRATE_BAD_FIELD, "a change of no blocks");
    change.count = 1;
    is(nvmigrate_change_to_bytes(&change, 2, bytes), NVMIGRATE_BAD_FIELD, "a change with the phase tag 2");
    is(nvmigrate_change_to_bytes(&change, 0, bytes), NVMIGRATE_OK, "a change with the phase tag 0");
    is(nvmigrate_change_from_bytes(bytes, &change, &phase), NVMIGRATE_OK, "its bytes");
    holds(phase == 0 && change.first == 60 && change.count == 1, "are those of the change, with its phase tag");
    bytes[15] = 1;
    is(nvmigrate_change_from_bytes(bytes, &change, &phase), NVMIGRATE_BAD_FIELD, "in the first block's high half a 1");
}

static void queues(void) {
    static struct nvmigrate_cell cells[8];
    struct nvmigrate_queue queue;
    struct nvmigrate_change change = {7, 1}, out = {0, 0};
    memset(&queue, 0xff, sizeof queue);
    nvmigrate_queue_init(&queue);
    is(nvmigrate_queue_take(&queue, cells, 8, &out), NVMIGRATE_NOT_LIVE, "a take from a queue that wasn't created");
    is(nvmigrate_queue_create(&queue, cells, 1), NVMIGRATE_BAD_QUEUE, "a queue of one cell");
    is(nvmigrate_queue_create(&queue, cells, 8), NVMIGRATE_OK, "a queue of eight cells");
    is(nvmigrate_queue_create(&queue, cells, 8), NVMIGRATE_LIVE, "it is created again");
    is(nvmigrate_queue_take(&queue, cells, 8, &out), NVMIGRATE_NONE, "a take from an empty queue");
    is(nvmigrate_queue_set_head(&queue, cells, 8, 1), NVMIGRATE_BAD_DOORBELL, "its head goes past the next place");
    for (int i = 0; i < 8; i++)
        is(nvmigrate_queue_post(&queue, cells, 8, &change), NVMIGRATE_OK, "a post");
    is(nvmigrate_queue_post(&queue, cells, 8, &change), NVMIGRATE_FULL, "a post with no cell free");
    holds(queue.marked == 1, "the mark is up");
    is(nvmigrate_queue_take(&queue, cells, 8, &out), NVMIGRATE_OK, "a take");
    holds(out.first == 7 && queue.waiting == 7, "of the change, and seven wait");
    is(nvmigrate_queue_delete(&queue), NVMIGRATE_OK, "the queue is deleted");
    is(nvmigrate_queue_delete(&queue), NVMIGRATE_NOT_LIVE, "and again");
    is(nvmigrate_queue_create(&queue, cells, 8), NVMIGRATE_OK, "it is created anew");
    holds(queue.marked == 0, "the mark is down");
    queue.head = 0, queue.next = 5, queue.waiting = 2;
    is(nvmigrate_queue_take(&queue, cells, 8, &out), NVMIGRATE_BAD_QUEUE, "head 0, next 5 and waiting 2: a take");
    is(nvmigrate_queue_post(&queue, cells, 8, &change), NVMIGRATE_BAD_QUEUE, "a post");
    is(nvmigrate_queue_set_head(&queue, cells, 8, 0), NVMIGRATE_BAD_QUEUE, "and a head");
    holds(queue.head == 0 && queue.next == 5 && queue.waiting == 2, "the struct is as it was");
}

#define HEAD "nvmigrate script 1\nblocks 32\nshelf 16\nlanes 1\nlane 1 sq 4 cq 4 pages 2\nburst 4\nmix 0\n"
#define KNOBS "change 4\nslice 4\nsmall 4\npages 4\npatience 8\n"
#define SCRIPT HEAD KNOBS "1 fill 0 5a\n1 submit 1 write 3 1 0 -\n1 wait\nend\n"
#define TITLE SCRIPT "nvmigrate transcript 1\nready\n"
#define ACTS TITLE "act 1 1\nact 1 2\nfetch 1 1 0 00 1\n"

static void judged(const char *text, uint32_t want, uint32_t line, uint32_t why, const char *situation) {
    struct nvmigrate_wrong_line at = {9, 9};
    char told[48];
    is(nvmigrate_judge((const uint8_t *)text, strlen(text), &at), want, situation);
    sprintf(told, "line %u, why %u", at.line, at.why);
    holds(at.line == line && at.why == why, told);
}

/* The line and why were 9 before, and stay so where none is told. */
static void texts(void) {
    struct nvmigrate_wrong_line at = {9, 9};
    judged(ACTS "piece 1 1 3 1 ok\npost 1 1 0 00\nreap 1 1 0 00 1 1\nact 1 3\nend\n", NVMIGRATE_OK, 9, 9,
           "a right transcript");
    judged("nvmigrate script 2\n", NVMIGRATE_BAD_SCRIPT, 1, NVMIGRATE_WHY_FORM, "a script's first line is another");
    judged("nvmigrate script 1\nblocks 0\n", NVMIGRATE_BAD_SCRIPT, 2, NVMIGRATE_WHY_RANGE, "a script of no blocks");
    judged("nvmigrate script 1\nblocks 32", NVMIGRATE_BAD_SCRIPT, 2, NVMIGRATE_WHY_CUT, "a script's line isn't ended");
    judged(TITLE "act 1\n", NVMIGRATE_WRONG_FORM, 3, 0, "a line that is no line of a transcript");
    judged(ACTS "post 1 1 0 00\n", NVMIGRATE_WRONG_LEGAL, 6, 0, "a completion before its piece");
    judged(ACTS "piece 1 1 3 1 ok\npost 1 1 0 00\nend\n", NVMIGRATE_WRONG_COMPLETE, 8, 0, "the end before the reap");
    is(nvmigrate_judge(&none, (size_t)67108864 + 1, &at), NVMIGRATE_TOO_LONG, "a text of 67,108,865 bytes");
    no_memory = true;
    judged(SCRIPT, NVMIGRATE_OUT_OF_MEMORY, 9, 9, "no memory is there");
}

int main(void) {
    entries();
    rings();
    commands();
    images();
    changes();
    queues();
    texts();
    return wrong;
}
