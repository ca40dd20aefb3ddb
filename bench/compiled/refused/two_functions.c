// it has more than one function: first program
unsigned long long first(void) {
    return 1;
}
unsigned long long program(void) {
    return 2;
}
