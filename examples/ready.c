int printf(const char *, ...);
int is_cached(void);
int connects(void);

int main(void) {
    if (is_cached())
        printf("ready\n");
    else if (connects())
        printf("ready\n");
    else
        printf("offline\n");
    return 0;
}
