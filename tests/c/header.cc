// The header in C++: it compiles, and its calls are C's.
#include <nvmigrate.h>

#include <cstdio>

int main() {
    nvmigrate_sqe write = {}, again = {};
    write.opcode = 1;
    write.cdw12 = 7;
    uint8_t bytes[64];
    nvmigrate_sqe_to_bytes(&write, bytes);
    nvmigrate_sqe_from_bytes(bytes, &again);

    nvmigrate_queue queue;
    nvmigrate_cell cells[2];
    const nvmigrate_change posted = {60, 4};
    nvmigrate_change taken = {};
    nvmigrate_queue_init(&queue);
    const uint32_t codes[] = {
        nvmigrate_queue_create(&queue, cells, 2),
        nvmigrate_queue_post(&queue, cells, 2, &posted),
        nvmigrate_queue_take(&queue, cells, 2, &taken),
    };

    std::printf("version %d, count %u\n", nvmigrate_version() == NVMIGRATE_VERSION, nvmigrate_sqe_count(&again));
    std::printf("codes %u %u %u, blocks %u from %u on\n", codes[0], codes[1], codes[2], taken.count, taken.first);
    return 0;
}
