int printf(const char *, ...);

int main(void) {
    printf("hello, world\n");
    return 0;
}
