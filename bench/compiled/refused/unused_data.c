// it has data
const int table[3] = {1,2,3};
unsigned long long program(void) {
    return 1;
}
