int printf(const char *, ...);
int connects(void);
int is_cached(void);

int main(void) {
    printf("connecting\n");
    if (connects()) {
        printf("connected\n");
    } else {
        printf("retrying\n");
        if (connects()) {
            printf("connected\n");
        } else {
            printf("giving up\n");
            return 1;
        }
    }
    if (is_cached())
        printf("answer 42\n");
    else
        printf("answer 42\n");
    return 0;
}
