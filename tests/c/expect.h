/* What the C drivers share: expectations, counted. */
#include <stdbool.h>
#include <stddef.h>
#include <stdint.h>
#include <stdio.h>
#include <string.h>

static int passed, failed;

static void expect(const char *what, bool ok) {
    if (ok) passed++; else { failed++; printf("not as expected: %s\n", what); }
}

static int counted(void) {
    printf("%d passed, %d failed\n", passed, failed);
    return failed != 0;
}

static inline const uint8_t *octets(const char *text) { return (const uint8_t *)text; }
