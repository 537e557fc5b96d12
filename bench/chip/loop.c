/* The plain loop beside the dot product. It is compiled by the compiler of ours, clang -O2 -ffp-contract=off, which
 * comes without headers: n is peers.h's uint32_t. */
float plain_loop(const float *a, const float *b, unsigned long n);

float plain_loop(const float *a, const float *b, unsigned long n)
{
    float sum = 0;
    for (unsigned long i = 0; i < n; i++)
        sum += a[i] * b[i];
    return sum;
}
