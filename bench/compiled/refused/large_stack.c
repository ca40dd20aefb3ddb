// clang does not compile it
unsigned long long program(unsigned long long w, unsigned long long n) {
    volatile unsigned char a[600];
    a[n]=1;
    return a[3];
}
