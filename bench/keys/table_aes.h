#include <stddef.h>
#include <stdint.h>

struct table_aes {
    uint32_t keys[44], inverse_keys[44];
};

void table_aes_begin(void);
void table_aes_keys(struct table_aes *t, const uint8_t key[16]);
void table_cbc_encrypt(const uint8_t key[16], const uint8_t iv[16], uint8_t *bytes, size_t len);
void table_cbc_decrypt(const uint8_t key[16], const uint8_t iv[16], uint8_t *bytes, size_t len);
void table_ocb(int decrypts, const uint8_t key[16], const uint8_t nonce[12], uint8_t *bytes, size_t len, uint8_t tag[16]);
