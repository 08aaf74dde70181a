int printf(const char *, ...);
int next_byte(void);

/* A frame: 2, a length of at most 4, so many bytes, and their sum modulo 16. */
enum state { START, LENGTH, BODY, SUM };

static int frames;

int main(void)
{
    enum state state = START;
    int left = 0;
    unsigned sum = 0;
    int byte;
    while ((byte = next_byte()) >= 0) {
        switch (state) {
        case START:
            if (byte == 2)
                state = LENGTH;
            else
                printf("skipped %d\n", byte);
            break;
        case LENGTH:
            if (byte > 4) {
                printf("bad length %d\n", byte);
                return 1;
            }
            left = byte;
            sum = 0;
            state = left ? BODY : SUM;
            break;
        case BODY:
            sum += byte;
            if (--left == 0)
                state = SUM;
            break;
        case SUM:
            if (byte != sum % 16)
                printf("bad sum %d\n", byte);
            else
                printf("frame %d\n", ++frames);
            state = START;
            break;
        }
    }
    printf("end %d\n", frames);
    return 0;
}
