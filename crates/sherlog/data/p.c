int printf(const char *, ...);
int ext(void);
int main(void) {
if (ext()) printf("hi\n"); return 0;
}
