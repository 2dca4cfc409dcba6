/* Funds a payment: example WALLET BLOCKS REQUEST. Prints the report; ends with the call's code. */
#include "ninelace.h"
#include <stdio.h>
#include <stdlib.h>

static uint8_t *read_file(const char *name, size_t *len) {
    FILE *file = fopen(name, "rb");
    if (!file || fseek(file, 0, SEEK_END)) {
        perror(name);
        exit(4);
    }
    *len = (size_t)ftell(file);
    rewind(file);
    uint8_t *bytes = malloc(*len + 1);
    if (!bytes || fread(bytes, 1, *len, file) != *len) exit(4);
    fclose(file);
    return bytes;
}

int main(int argc, char **argv) {
    if (argc != 4 || ninelace_abi_version() != NINELACE_ABI_VERSION) return NINELACE_USAGE;
    size_t wallet_len, blocks_len, request_len, room = 65536;
    uint8_t *wallet = read_file(argv[1], &wallet_len);
    uint8_t *blocks = read_file(argv[2], &blocks_len);
    uint8_t *request = read_file(argv[3], &request_len);
    uint8_t *into = malloc(room);
    ninelace_sizes sizes;
    uint8_t code;
    while (into && (code = ninelace_fund(wallet, wallet_len, blocks, blocks_len, request, request_len, into, room, &sizes)) == NINELACE_SHORT) {
        room = sizes.printed + sizes.log + sizes.job;
        free(into);
        into = malloc(room);
    }
    if (!into) return NINELACE_MEMORY;
    fwrite(into, 1, sizes.printed, stdout);
    free(into);
    free(wallet);
    free(blocks);
    free(request);
    return code;
}
