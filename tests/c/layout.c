/* Each struct as the C compiler sees it, against the library: the sizes, and for each field that the library reads
 * at the C compiler's offset what was put there, with a different byte at each place of the struct. */
#include <nvmigrate.h>
#include <stdio.h>
#include <string.h>

static int wrong;

static void check(const char *what, uint64_t got, uint64_t want) {
    if (got != want) {
        printf("%s: the library has %llu, and C %llu\n", what, (unsigned long long)got, (unsigned long long)want);
        wrong = 1;
    }
}

/* The number of `size` bytes at an offset, as the machine reads it. */
static uint64_t number(const void *at, size_t offset, size_t size) {
    const unsigned char *bytes = at;
    uint64_t n = 0;
    for (size_t i = size; i > 0; i--)
        n = n << 8 | bytes[offset + i - 1];
    return n;
}

static void fill(void *at, size_t size) {
    unsigned char *bytes = at;
    for (size_t i = 0; i < size; i++)
        bytes[i] = (unsigned char)(i * 7 + 1);
}

#define SIZE(place, type) check("size of " #type, nvmigrate_layout_size(place), sizeof(struct nvmigrate_##type))
#define FIELD(type, i, field) \
    check(#type "." #field, out[i], number(&x, offsetof(struct nvmigrate_##type, field), sizeof(x.field)))

static void sizes(void) {
    SIZE(0, sqe);
    SIZE(1, cqe);
    SIZE(2, sq);
    SIZE(3, cq);
    SIZE(4, guest_sq);
    SIZE(5, guest_cq);
    SIZE(6, admin);
    SIZE(7, pair);
    SIZE(8, parts);
    SIZE(9, wrong_line);
    SIZE(10, change);
    SIZE(11, queue);
    check("size of another", nvmigrate_layout_size(12), 0);
    check("size of another", nvmigrate_layout_size(UINT32_MAX), 0);
    check("size of a cell", 32, sizeof(struct nvmigrate_cell));
    check("version", nvmigrate_version(), NVMIGRATE_VERSION);
}

static void entries(void) {
    uint64_t out[15];
    {
        struct nvmigrate_sqe x;
        fill(&x, sizeof x);
        nvmigrate_layout_sqe(&x, out);
        FIELD(sqe, 0, opcode), FIELD(sqe, 1, flags), FIELD(sqe, 2, cid), FIELD(sqe, 3, nsid), FIELD(sqe, 4, cdw2);
        FIELD(sqe, 5, cdw3), FIELD(sqe, 6, mptr), FIELD(sqe, 7, prp1), FIELD(sqe, 8, prp2), FIELD(sqe, 9, cdw10);
        FIELD(sqe, 10, cdw11), FIELD(sqe, 11, cdw12), FIELD(sqe, 12, cdw13), FIELD(sqe, 13, cdw14), FIELD(sqe, 14, cdw15);
    }
    struct nvmigrate_cqe x;
    fill(&x, sizeof x);
    nvmigrate_layout_cqe(&x, out);
    FIELD(cqe, 0, dw0), FIELD(cqe, 1, dw1), FIELD(cqe, 2, sqhd), FIELD(cqe, 3, sqid), FIELD(cqe, 4, cid);
    FIELD(cqe, 5, phase), FIELD(cqe, 6, sc), FIELD(cqe, 7, sct), FIELD(cqe, 8, crd), FIELD(cqe, 9, more), FIELD(cqe, 10, dnr);
}

static void rings(void) {
    uint64_t out[7];
    {
        struct nvmigrate_pair x;
        fill(&x, sizeof x);
        nvmigrate_layout_pair(&x, out);
        FIELD(pair, 0, sq.size), FIELD(pair, 1, sq.head), FIELD(pair, 2, sq.tail);
        FIELD(pair, 3, cq.size), FIELD(pair, 4, cq.head), FIELD(pair, 5, cq.tail), FIELD(pair, 6, cq.phase);
    }
    {
        struct nvmigrate_guest_sq x;
        fill(&x, sizeof x);
        nvmigrate_layout_guest_sq(&x, out);
        FIELD(guest_sq, 0, size), FIELD(guest_sq, 1, head), FIELD(guest_sq, 2, tail);
    }
    struct nvmigrate_guest_cq x;
    fill(&x, sizeof x);
    nvmigrate_layout_guest_cq(&x, out);
    FIELD(guest_cq, 0, size), FIELD(guest_cq, 1, head), FIELD(guest_cq, 2, phase);
}

static void others(void) {
    uint64_t out[8];
    {
        struct nvmigrate_admin x;
        fill(&x, sizeof x);
        nvmigrate_layout_admin(&x, out);
        FIELD(admin, 0, cid), FIELD(admin, 1, what), FIELD(admin, 2, start), FIELD(admin, 3, queue), FIELD(admin, 4, max);
        FIELD(admin, 5, offset), FIELD(admin, 6, length), FIELD(admin, 7, cells);
    }
    struct nvmigrate_parts x;
    fill(&x, sizeof x);
    nvmigrate_layout_parts(&x, out);
    FIELD(parts, 0, fed), FIELD(parts, 1, lanes), FIELD(parts, 2, bytes[0]), FIELD(parts, 3, bytes[263]);
}

static void last(void) {
    uint64_t out[6];
    {
        struct nvmigrate_wrong_line x;
        fill(&x, sizeof x);
        nvmigrate_layout_wrong_line(&x, out);
        FIELD(wrong_line, 0, line), FIELD(wrong_line, 1, why);
    }
    {
        struct nvmigrate_change x;
        fill(&x, sizeof x);
        nvmigrate_layout_change(&x, out);
        FIELD(change, 0, first), FIELD(change, 1, count);
    }
    struct nvmigrate_queue x;
    fill(&x, sizeof x);
    nvmigrate_layout_queue(&x, out);
    FIELD(queue, 0, head), FIELD(queue, 1, next), FIELD(queue, 2, waiting), FIELD(queue, 3, phase);
    FIELD(queue, 4, marked), FIELD(queue, 5, live);
}

int main(void) {
    sizes();
    entries();
    rings();
    others();
    last();
    puts(wrong ? "the layouts differ" : "the layouts are the same");
    return wrong;
}
