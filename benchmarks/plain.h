// The same calls twice: `plain_` in C, `cbench_` proved.
#include <stddef.h>
#include <stdint.h>

typedef struct {
    uint8_t bytes[16];
} block;

typedef struct {
    uint8_t bytes[80];
} message;

void plain_aes(const block *key, block *b, uint64_t turns);
void plain_cmac(const block *key, message *m, uint64_t turns);
uint64_t plain_sip(const block *key, const message *m);

void cbench_aes(const block *key, block *b, uint64_t turns);
void cbench_cmac(const block *key, message *m, uint64_t turns);
uint64_t cbench_sip(const block *key, const message *m);
