// uses the address of .rodata.str
unsigned long long program(unsigned long long w, unsigned long long n) {
    const char *s = "abcdefgh";
    return s[n & 7];
}
