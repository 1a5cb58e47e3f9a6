/* A submission entry, a queue pair of two places round its end, and a controller's state in parts. */
#include <nvmigrate.h>
#include <stdio.h>
#include <string.h>

static uint8_t sq_page[4096], cq_page[4096];

static void entries(void) {
    /* Write, 8 blocks from block 4,294,967,303 on. */
    struct nvmigrate_sqe write = {.opcode = 0x01, .cid = 7, .nsid = 1, .prp1 = 0x1002000}, again;
    write.cdw10 = 7, write.cdw11 = 1, write.cdw12 = 7;
    uint8_t bytes[64];
    nvmigrate_sqe_to_bytes(&write, bytes);
    nvmigrate_sqe_from_bytes(bytes, &again);
    printf("write cid %u from block %llu count %u\n", again.cid, (unsigned long long)nvmigrate_sqe_slba(&again),
           nvmigrate_sqe_count(&again));
    for (int i = 0; i < 64; i++)
        printf("%02x%s", bytes[i], i % 16 == 15 ? "\n" : " ");
}

/* Three commands go round queues of two places: each is submitted, fetched, completed and reaped. */
static void rounds(void) {
    struct nvmigrate_guest_sq guest_sq;
    struct nvmigrate_sq sq;
    struct nvmigrate_cq cq;
    struct nvmigrate_guest_cq guest_cq;
    nvmigrate_guest_sq_new(2, &guest_sq);
    nvmigrate_sq_new(2, &sq);
    nvmigrate_cq_new(2, &cq);
    nvmigrate_guest_cq_new(2, &guest_cq);
    for (uint16_t cid = 1; cid <= 3; cid++) {
        struct nvmigrate_sqe flush = {.cid = cid, .nsid = 1}, fetched;
        struct nvmigrate_cqe reaped;
        uint32_t first = nvmigrate_guest_sq_submit(&guest_sq, sq_page, &flush);
        uint32_t second = nvmigrate_guest_sq_submit(&guest_sq, sq_page, &flush);
        printf("submit %u, another %u, doorbell %u: %u\n", first, second, guest_sq.tail,
               nvmigrate_sq_set_tail(&sq, guest_sq.tail));
        first = nvmigrate_sq_fetch(&sq, sq_page, &fetched);
        second = nvmigrate_sq_fetch(&sq, sq_page, &flush);
        printf("fetch %u cid %u, another %u\n", first, fetched.cid, second);
        struct nvmigrate_cqe done = {.sqhd = sq.head, .sqid = 1, .cid = fetched.cid};
        first = nvmigrate_cq_post(&cq, cq_page, &done);
        second = nvmigrate_cq_post(&cq, cq_page, &done);
        printf("post %u, another %u\n", first, second);
        first = nvmigrate_guest_cq_reap(&guest_cq, cq_page, &reaped);
        second = nvmigrate_guest_cq_reap(&guest_cq, cq_page, &done);
        printf("reap %u cid %u phase %u, another %u\n", first, reaped.cid, reaped.phase, second);
        first = nvmigrate_cq_set_head(&cq, guest_cq.head);
        second = nvmigrate_guest_sq_learn(&guest_sq, reaped.sqhd);
        printf("doorbell %u: %u, learnt %u: %u\n", guest_cq.head, first, reaped.sqhd, second);
    }
    sq.tail = 2;
    printf("fetch from a ring that is none %u\n", nvmigrate_sq_fetch(&sq, sq_page, &(struct nvmigrate_sqe){0}));
}

/* The state of a pair goes as an image in parts of 7 bytes, one of them spoilt first. */
static void image(void) {
    struct nvmigrate_pair pair = {{8, 7, 7}, {8, 2, 7, 0}}, got[8];
    struct nvmigrate_parts parts;
    uint8_t bytes[264];
    uint32_t length, place = 0;
    printf("encode %u", nvmigrate_image_encode(&pair, 1, bytes, &length));
    printf(" length %u\n", length);
    nvmigrate_parts_new(1, &parts);
    printf("skip %u\n", nvmigrate_parts_feed(&parts, 7, bytes + 7, 7, &place));
    for (uint32_t at = 0; at < length; at += 7) {
        uint32_t count = length - at < 7 ? length - at : 7;
        if (at == 21) { /* byte 26 is the head's low byte: 8 is no place of 8 */
            bytes[26] = 8;
            uint32_t code = nvmigrate_parts_feed(&parts, at, bytes + at, count, &place);
            printf("spoilt %u at %u, fed %u\n", code, place, parts.fed);
            bytes[26] = 7;
        }
        uint32_t code = nvmigrate_parts_feed(&parts, at, bytes + at, count, &place);
        printf("feed %u, whole %u\n", code, nvmigrate_parts_whole(&parts, got));
    }
    printf("the same pair %d\n", got[0].sq.head == 7 && got[0].cq.head == 2 && got[0].cq.phase == 0);
    printf("past the end %u\n", nvmigrate_parts_feed(&parts, 40, bytes, 1, &place));
    printf("anew %u", nvmigrate_parts_feed(&parts, 0, bytes, 8, &place));
    printf(", fed %u\n", parts.fed);
}

int main(void) {
    entries();
    rounds();
    image();
    return 0;
}
