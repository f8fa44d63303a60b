/* The map of the small key at the secret (3, 5). */
#include <stdio.h>
#include "canvasfox.h"
int main(void) {
    static const uint8_t small_key[] = {7, 2, 2, 1, 2, 3, 1, 0, 0, 1, 5, 0, 4}, s[] = {3, 5};
    uint8_t v[2];
    int refusal = canvasfox_evaluate(small_key, sizeof small_key, s, sizeof s, v, sizeof v);
    if (refusal == CANVASFOX_OK) printf("F(3, 5) = (%d, %d)\n", v[0], v[1]);
    return refusal;
}
