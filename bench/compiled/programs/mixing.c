// A mixing function over 2,000 rounds: 64-bit multiplication, shifts and additions that wrap.
unsigned long long program(void) {
    volatile unsigned long long seed = 1;
    unsigned long long x = seed, sum = 0;
    for (int i = 0; i < 2000; i++) {
        x += 0x9e3779b97f4a7c15ull;
        unsigned long long z = x;
        z = (z ^ (z >> 30)) * 0xbf58476d1ce4e5b9ull;
        z = (z ^ (z >> 27)) * 0x94d049bb133111ebull;
        sum += z ^ (z >> 31);
    }
    return sum;
}
