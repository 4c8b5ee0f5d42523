/* Reads lines "name bits bits bits" (function, two arguments, StrictMath's result)
   and compares fdlibm's result by bits; any NaN is equal to any other. */
#include <inttypes.h>
#include <stdio.h>
#include <string.h>

double fdlibm_sin(double), fdlibm_cos(double), fdlibm_sqrt(double), fdlibm_hypot(double, double);

static double of(uint64_t bits)
{
    double x;
    memcpy(&x, &bits, sizeof x);
    return x;
}

int main(void)
{
    char name[8];
    uint64_t a, b, expected, got;
    long differences = 0, count[4] = {0};
    while (scanf("%7s %" SCNx64 " %" SCNx64 " %" SCNx64, name, &a, &b, &expected) == 4) {
        int which = name[0] == 'h' ? 3 : name[0] == 'c' ? 1 : name[1] == 'q' ? 2 : 0;
        double r = which == 3   ? fdlibm_hypot(of(a), of(b))
                   : which == 2 ? fdlibm_sqrt(of(a))
                   : which == 1 ? fdlibm_cos(of(a))
                                : fdlibm_sin(of(a));
        memcpy(&got, &r, sizeof got);
        count[which]++;
        if (got != expected && !(r != r && of(expected) != of(expected))) {
            if (differences++ < 10)
                printf("%s %016" PRIx64 " %016" PRIx64 ": %016" PRIx64 ", StrictMath %016" PRIx64 "\n", name, a, b, got, expected);
        }
    }
    printf("sin %ld, cos %ld, sqrt %ld, hypot %ld arguments: %ld differences from StrictMath\n", count[0], count[1], count[2], count[3], differences);
    return differences || !count[0] || !count[1] || !count[2] || !count[3];
}
