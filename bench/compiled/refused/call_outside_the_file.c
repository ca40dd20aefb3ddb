// it uses what is not in the file: other
unsigned long long other(unsigned long long);
unsigned long long program(void) {
    return other(3);
}
