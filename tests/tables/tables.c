/* The field of 256 elements by ISA-L, whose field is that of the scope document (0x11D).
   tables: the powers of 2 from exponent 0 to 254, then the logarithms of 1 to 255, a number a line.
   tables products: the inverses of 1 to 255, and each byte's products with all bytes, two hexadecimal digits each. */
#include <isa-l/erasure_code.h>
#include <stdio.h>

static void print_tables(void) {
    int logarithm[256] = {0};
    unsigned char power = 1;
    for (int e = 0; e < 255; e++) {
        printf("%d\n", power);
        logarithm[power] = e;
        power = gf_mul(power, 2);
    }
    for (int a = 1; a < 256; a++) printf("%d\n", logarithm[a]);
}

static void print_products(void) {
    printf("inverses");
    for (int a = 1; a < 256; a++) printf(" %d", gf_inv((unsigned char)a));
    printf("\n");
    for (int a = 0; a < 256; a++) {
        printf("times %d ", a);
        for (int b = 0; b < 256; b++) printf("%02x", gf_mul((unsigned char)a, (unsigned char)b));
        printf("\n");
    }
}

int main(int count, char **words) {
    (void)words;
    if (count > 1) print_products();
    else print_tables();
    return 0;
}
