// The sum of the primes below 400, by a sieve on the stack: loads and stores of octets.
unsigned long long program(void) {
    volatile unsigned char composite[400];
    for (int i = 0; i < 400; i++)
        composite[i] = 0;
    unsigned long long sum = 0;
    for (int i = 2; i < 400; i++) {
        if (composite[i])
            continue;
        sum += i;
        for (int j = i + i; j < 400; j += i)
            composite[j] = 1;
    }
    return sum;
}
