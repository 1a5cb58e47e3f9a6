/* Numbers, bytes, lengths and doorbell values of every kind: each call answers a code of the header, and leaves what it
 * refuses as it was. The numbers come from SplitMix64, half of them near the bounds. The judge's memory is this program's:
 * each allocation fails in turn, and all blocks are given back. */
#include <nvmigrate.h>
#include <stdbool.h>
#include <stdio.h>
#include <stdlib.h>
#include <string.h>

/* In place of nvmigrate_heap.c: of the allocations from here on the `fails_at`th fails, counted from 1. */
struct tried {
    bool ok;
    uint8_t *at;
};

static unsigned long allocations, fails_at, blocks;
static uint8_t none;

static struct tried answer(void *at) {
    return (struct tried){at != NULL, at != NULL ? at : &none};
}

struct tried rattle_alloc(size_t size, size_t align) {
    (void)align;
    if (++allocations == fails_at)
        return answer(NULL);
    blocks++;
    return answer(malloc(size > 0 ? size : 1));
}

struct tried rattle_realloc(uint8_t *at, size_t kept, size_t size, size_t align) {
    (void)kept, (void)align;
    return answer(++allocations == fails_at ? NULL : realloc(at, size > 0 ? size : 1));
}

void rattle_dealloc(uint8_t *at) {
    blocks--;
    free(at);
}

static uint64_t seed = 1;

static uint64_t word(void) {
    uint64_t z = seed += 0x9e3779b97f4a7c15u;
    z = (z ^ z >> 30) * 0xbf58476d1ce4e5b9u;
    z = (z ^ z >> 27) * 0x94d049bb133111ebu;
    return z ^ z >> 31;
}

static uint64_t number(void) {
    static const uint64_t near[] = {0,   1,   2,   3,   7,   8,    9,    63,    64,       65,
                                    255, 256, 257, 264, 265, 4095, 4096, 65535, UINT32_MAX};
    uint64_t w = word();
    return w & 1 ? w >> 8 : near[(w >> 8) % (sizeof near / sizeof *near)];
}

static void fill(void *at, size_t size) {
    unsigned char *bytes = at;
    for (size_t i = 0; i < size; i++)
        bytes[i] = (unsigned char)number();
}

static unsigned long codes[NVMIGRATE_LIVE + 1];

static void answered(uint32_t code, const char *what) {
    if (code > NVMIGRATE_LIVE) {
        printf("%s answered %u\n", what, code);
        exit(1);
    }
    codes[code]++;
}

static void kept(uint32_t code, const void *old, const void *new, size_t size, const char *what) {
    if (code != NVMIGRATE_OK && memcmp(old, new, size) != 0) {
        printf("%s wrote and answered %u\n", what, code);
        exit(1);
    }
}

#define CALL(name, state, ...)                                  \
    do {                                                        \
        memcpy(&old, &state, sizeof state);                     \
        uint32_t code = name(__VA_ARGS__);                      \
        answered(code, #name);                                  \
        kept(code, &old, &state, sizeof state, #name);          \
    } while (0)

static uint8_t page[4096], bytes[264];

static void rings(void) {
    union {
        struct nvmigrate_sq sq;
        struct nvmigrate_cq cq;
        struct nvmigrate_guest_sq guest_sq;
        struct nvmigrate_guest_cq guest_cq;
    } old;
    struct nvmigrate_sq sq;
    struct nvmigrate_guest_sq guest_sq;
    struct nvmigrate_cq cq;
    struct nvmigrate_guest_cq guest_cq;
    struct nvmigrate_sqe sqe;
    struct nvmigrate_cqe cqe;
    uint16_t count;
    fill(page, sizeof page);
    fill(&sq, sizeof sq);
    fill(&cq, sizeof cq);
    fill(&guest_sq, sizeof guest_sq);
    fill(&guest_cq, sizeof guest_cq);
    fill(&sqe, sizeof sqe);
    fill(&cqe, sizeof cqe);
    if (word() % 4) {
        sq.size = word() % 63 + 2, sq.head = word() % sq.size, sq.tail = word() % sq.size;
        cq.size = word() % 255 + 2, cq.head = word() % cq.size, cq.tail = word() % cq.size, cq.phase = word() % 2;
        guest_sq.size = word() % 63 + 2, guest_sq.head = word() % guest_sq.size, guest_sq.tail = word() % guest_sq.size;
        guest_cq.size = word() % 255 + 2, guest_cq.head = word() % guest_cq.size, guest_cq.phase = word() % 2;
    }
    CALL(nvmigrate_sq_set_tail, sq, &sq, number());
    CALL(nvmigrate_sq_fetch, sq, &sq, page, &sqe);
    CALL(nvmigrate_guest_sq_submit, guest_sq, &guest_sq, page, &sqe);
    CALL(nvmigrate_guest_sq_learn, guest_sq, &guest_sq, number());
    CALL(nvmigrate_cq_free, cq, &cq, &count);
    CALL(nvmigrate_cq_post, cq, &cq, page, &cqe);
    cqe.phase %= 2, cqe.sct %= 8, cqe.crd %= 4, cqe.more %= 2, cqe.dnr %= 2;
    CALL(nvmigrate_cq_post, cq, &cq, page, &cqe);
    CALL(nvmigrate_cq_set_head, cq, &cq, number());
    CALL(nvmigrate_guest_cq_reap, guest_cq, &guest_cq, page, &cqe);
    CALL(nvmigrate_sq_new, sq, number(), &sq);
    CALL(nvmigrate_cq_new, cq, number(), &cq);
    CALL(nvmigrate_guest_sq_new, guest_sq, number(), &guest_sq);
    CALL(nvmigrate_guest_cq_new, guest_cq, number(), &guest_cq);
}

/* 64 bytes are an entry and its bytes again; 16 are a completion; a command is read back. */
static void entries(void) {
    struct nvmigrate_sqe sqe;
    struct nvmigrate_cqe cqe;
    struct nvmigrate_admin admin, old;
    uint8_t in[64], out[64] = {0}, place;
    fill(in, sizeof in);
    fill(&admin, sizeof admin);
    admin.what %= 10, admin.max = number(), admin.length = number(), admin.cells = number();
    nvmigrate_sqe_from_bytes(in, &sqe);
    nvmigrate_sqe_to_bytes(&sqe, out);
    answered(memcmp(in, out, 64) != 0 ? 99 : NVMIGRATE_OK, "sqe_to_bytes");
    nvmigrate_cqe_from_bytes(in, &cqe);
    answered(nvmigrate_cqe_to_bytes(&cqe, out), "cqe_to_bytes");
    answered(memcmp(in, out, 16) != 0 ? 99 : NVMIGRATE_OK, "cqe_to_bytes");
    fill(&cqe, sizeof cqe);
    answered(nvmigrate_cqe_to_bytes(&cqe, out), "cqe_to_bytes");
    CALL(nvmigrate_admin_from_bytes, admin, in, &admin, &place);
    uint32_t code = nvmigrate_admin_to_bytes(&admin, out);
    answered(code, "admin_to_bytes");
    if (code == NVMIGRATE_OK)
        answered(nvmigrate_admin_from_bytes(out, &admin, &place) != NVMIGRATE_OK ? 99 : NVMIGRATE_OK, "read back");
    if (code == NVMIGRATE_OK) { /* and with one byte of it spoilt */
        out[word() % 64] ^= 1u << word() % 8;
        CALL(nvmigrate_admin_from_bytes, admin, out, &admin, &place);
    }
}

static void images(void) {
    struct nvmigrate_parts parts, old;
    struct nvmigrate_pair pairs[9];
    uint32_t length = 0, place;
    size_t used = word() % 9;
    for (size_t i = 0; i < 9; i++) {
        pairs[i] = (struct nvmigrate_pair){{word() % 63 + 2, 1, 0}, {word() % 255 + 2, 0, 1, word() % 2}};
        if (word() % 64 == 0)
            pairs[i].sq.tail = number();
    }
    answered(nvmigrate_image_encode(pairs, 9, bytes, &length), "image_encode");
    answered(nvmigrate_image_encode(pairs, SIZE_MAX, bytes, &length), "image_encode");
    answered(nvmigrate_image_encode(pairs, used, bytes, &length), "image_encode");
    memset(&parts, 0, sizeof parts);
    CALL(nvmigrate_parts_new, parts, used, &parts);
    if (word() % 4 == 0)
        bytes[word() % 264] = number();
    for (uint32_t at = 0; at < length && parts.fed == at;) {
        uint32_t count = word() % 40 + 1;
        count = length - at < count ? length - at : count;
        answered(nvmigrate_parts_feed(&parts, at, bytes + at, count, &place), "parts_feed");
        answered(nvmigrate_parts_whole(&parts, pairs), "parts_whole");
        at += count;
    }
    answered(nvmigrate_parts_feed(&parts, number(), bytes, number() % 265, &place), "parts_feed");
    answered(nvmigrate_parts_feed(&parts, parts.fed, bytes, SIZE_MAX, &place), "parts_feed");
    parts.fed = number(), parts.lanes = number();
    CALL(nvmigrate_parts_feed, parts, &parts, 0, bytes, 0, &place);
    fill(&parts, sizeof parts);
    answered(nvmigrate_parts_feed(&parts, number(), bytes, 264, &place), "parts_feed");
    answered(nvmigrate_parts_whole(&parts, pairs), "parts_whole");
}

static void queues(void) {
    static struct nvmigrate_cell cells[65537];
    struct nvmigrate_queue queue, old;
    struct nvmigrate_change change = {number(), number()};
    uint8_t phase = 0;
    size_t count = word() % 4 ? word() % 9 : number() & 0xffff;
    fill(&queue, sizeof queue);
    CALL(nvmigrate_queue_take, queue, &queue, cells, count, &change);
    CALL(nvmigrate_queue_delete, queue, &queue);
    nvmigrate_queue_init(&queue);
    answered(queue.live != 0 ? 99 : NVMIGRATE_OK, "queue_init");
    queue.live = word() % 2;
    CALL(nvmigrate_queue_create, queue, &queue, cells, SIZE_MAX);
    CALL(nvmigrate_queue_create, queue, &queue, cells, 65537);
    CALL(nvmigrate_queue_create, queue, &queue, cells, count);
    for (int i = 0; i < 12; i++) {
        change.first = word() % 8 ? word() % 131072 : number();
        change.count = word() % 8 ? word() % 64 + 1 : number();
        answered(nvmigrate_queue_post(&queue, cells, count, &change), "queue_post");
        if (word() % 2)
            CALL(nvmigrate_queue_take, queue, &queue, cells, count, &change);
        uint32_t head = word() % 2 ? word() % 9 : number();
        CALL(nvmigrate_queue_set_head, queue, &queue, cells, count, head);
    }
    CALL(nvmigrate_queue_set_head, queue, &queue, cells, SIZE_MAX, number());
    if (count > 0)
        CALL(nvmigrate_change_from_bytes, change, cells[word() % count].bytes, &change, &phase);
    CALL(nvmigrate_queue_delete, queue, &queue);
}

/* A change is read back from its bytes. With one bit of them turned they are no entry, or that of another change. */
static void changes(void) {
    struct nvmigrate_change change = {word() % 8 ? word() % 131072 : number(), word() % 8 ? word() % 64 + 1 : number()};
    struct nvmigrate_change old, again = {0, 0};
    uint8_t entry[32], other[32], phase = 0, tag = word() % 8 ? word() % 2 : number();
    uint32_t written = nvmigrate_change_to_bytes(&change, tag, entry);
    answered(written, "change_to_bytes");
    if (written != NVMIGRATE_OK)
        return;
    answered(nvmigrate_change_from_bytes(entry, &again, &phase) != NVMIGRATE_OK ? 99 : NVMIGRATE_OK, "read back");
    answered(memcmp(&change, &again, sizeof change) != 0 || phase != tag ? 99 : NVMIGRATE_OK, "read back");
    entry[word() % 32] ^= 1u << word() % 8;
    CALL(nvmigrate_change_from_bytes, again, entry, &again, &phase);
    if (nvmigrate_change_from_bytes(entry, &again, &phase) == NVMIGRATE_OK) {
        answered(nvmigrate_change_to_bytes(&again, phase, other), "change_to_bytes");
        answered(memcmp(entry, other, sizeof entry) != 0 ? 99 : NVMIGRATE_OK, "read back");
    }
}

#define SCRIPT                                                                                  \
    "nvmigrate script 1\nblocks 32\nshelf 16\nlanes 1\nlane 1 sq 4 cq 4 pages 2\nburst 4\nmix 0\n" \
    "change 4\nslice 4\nsmall 4\npages 4\npatience 8\n1 fill 0 5a\n1 submit 1 write 3 1 0 -\n"    \
    "1 wait\nend\n"
#define FRONT SCRIPT "nvmigrate transcript 1\nready\nact 1 1\nact 1 2\nfetch 1 1 0 00 1\npiece 1 1 3 1 ok\npost 1 1 0 00\n"

static const char right[] = FRONT "reap 1 1 0 00 1 1\nact 1 3\nend\n";
static const char unreaped[] = FRONT "end\n";

static uint32_t judged(const void *text, size_t count) {
    struct nvmigrate_wrong_line wrong = {0, 0};
    uint32_t code = nvmigrate_judge(text, count, &wrong);
    answered(code, "judge");
    answered(blocks != 0 ? 99 : NVMIGRATE_OK, "judge's memory");
    return code;
}

/* A right text with a byte spoilt, cut off, or of nothing but such bytes. */
static void texts(void) {
    uint8_t text[sizeof right - 1];
    size_t count = word() % 4 ? sizeof text : word() % sizeof text;
    memcpy(text, right, sizeof text);
    text[word() % sizeof text] = word() % 2 ? '0' + word() % 10 : number();
    judged(text, count);
    judged(text, SIZE_MAX);
    if (word() % 8 == 0)
        fill(text, sizeof text);
    judged(text, count);
}

/* The right text, one that ends too early, and the right one with each allocation failing in turn: then there is no memory,
 * or the judge does with less. */
static void memory(void) {
    answered(judged(right, sizeof right - 1) != NVMIGRATE_OK ? 99 : NVMIGRATE_OK, "judge");
    answered(judged(unreaped, sizeof unreaped - 1) != NVMIGRATE_WRONG_COMPLETE ? 99 : NVMIGRATE_OK, "judge");
    do {
        fails_at++;
        allocations = 0;
        uint32_t code = judged(right, sizeof right - 1);
        answered(code != NVMIGRATE_OK && code != NVMIGRATE_OUT_OF_MEMORY ? 99 : NVMIGRATE_OK, "judge's memory");
    } while (allocations >= fails_at);
    fails_at = 0;
}

int main(int argc, char **argv) {
    unsigned long times = argc > 1 ? strtoul(argv[1], 0, 10) : 4000;
    for (unsigned long i = 0; i < times; i++) {
        rings();
        entries();
        images();
        queues();
        changes();
        texts();
    }
    memory();
    for (int code = 0; code <= NVMIGRATE_LIVE; code++)
        printf("code %d %s\n", code, codes[code] ? "came" : "never came");
    return 0;
}
