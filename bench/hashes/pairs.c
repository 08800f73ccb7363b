/* Hashes each password with each salt, and counts the pairs whose digest is that of the salt. */
#include <openssl/sha.h>
#include <stdio.h>
#include <stdlib.h>
#include <string.h>

enum { MOST = 1 << 20, LENGTH = 80 };

struct text { size_t size; char bytes[LENGTH]; };

static struct text passwords[MOST], salts[MOST];
static unsigned char digests[MOST][SHA256_DIGEST_LENGTH];

int main(void)
{
    char line[1024], name[64], salt[LENGTH], digits[65];
    size_t all = 0, lines = 0, found = 0;
    while (fgets(line, sizeof line, stdin)) {
        if (sscanf(line, "password:%79s", name) == 1 && all < MOST) {
            passwords[all].size = strlen(name);
            memcpy(passwords[all++].bytes, name, strlen(name));
        } else if (sscanf(line, "auth:SHA256-PW %79[^:]:%64s", salt, digits) == 2 && lines < MOST) {
            salts[lines].size = strlen(salt);
            memcpy(salts[lines].bytes, salt, strlen(salt));
            for (int at = 0; at < SHA256_DIGEST_LENGTH; at++)
                sscanf(digits + 2 * at, "%2hhx", &digests[lines][at]);
            lines++;
        }
    }
    for (size_t at = 0; at < lines; at++) {
        for (size_t secret = 0; secret < all; secret++) {
            unsigned char text[2 * LENGTH], digest[SHA256_DIGEST_LENGTH];
            memcpy(text, salts[at].bytes, salts[at].size);
            memcpy(text + salts[at].size, passwords[secret].bytes, passwords[secret].size);
            SHA256(text, salts[at].size + passwords[secret].size, digest);
            found += memcmp(digest, digests[at], sizeof digest) == 0;
        }
    }
    printf("%zu pairs, %zu found\n", all * lines, found);
    return 0;
}
