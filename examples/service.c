int printf(const char *, ...);
int next_request(void);
int store(int id, int size);

static int limit = 100;
static int served;

static int handle(int id, int size)
{
    int code;
    if (size > limit) {
        printf("WARN request %d too large: %d\n", id, size);
        return -1;
    }
    code = store(id, size);
    if (code != 0) {
        printf("ERROR store of %d failed: %d\n", id, code);
        return code;
    }
    printf("INFO stored %d\n", id);
    served++;
    return 0;
}

int main(void)
{
    int id = 0;
    int faults = 0;
    int size;
    printf("INFO start\n");
    while ((size = next_request()) > 0) {
        id++;
        if (handle(id, size) != 0) {
            faults++;
            if (faults == 2) {
                printf("FATAL giving up after %d\n", id);
                return 2;
            }
        }
    }
    printf("INFO served %d\n", served);
    return 0;
}
