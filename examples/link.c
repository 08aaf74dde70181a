/* Receives one frame over a line that loses bytes: '#', a digit for the length, that many bytes, and the low byte of a
   sum over them. Each frame is answered by '+' or '-', and after three tries the program gives up. */
int printf(const char *, ...);
int next_byte(void); /* the next byte of the line, or less than 0 where there is none */
int send_byte(int byte); /* 0 where it was sent */

enum { START = '#', MOST = 4, TRIES = 3 };

struct frame {
    int length;
    unsigned char data[MOST];
    unsigned sum;
};

static int lost;

/* 0 where a frame came, 1 where its sum is wrong, -1 where none came. */
static int read_frame(struct frame *f) {
    int i, byte = next_byte();
    if (byte != START) {
        printf("no frame: %d\n", byte);
        return -1;
    }
    f->length = next_byte() - '0';
    if (f->length < 1 || f->length > MOST) {
        printf("length %d refused\n", f->length);
        return -1;
    }
    f->sum = 0;
    for (i = 0; i < f->length; i++) {
        if ((byte = next_byte()) < 0) {
            printf("cut off behind %d of %d\n", i, f->length);
            return -1;
        }
        f->data[i] = byte;
        f->sum = f->sum * 31 + f->data[i];
    }
    return (next_byte() & 0xff) == (f->sum & 0xff) ? 0 : 1;
}

/* The number of the try at which a frame came, or 0. */
static int receive(struct frame *f) {
    int try;
    for (try = 1; try <= TRIES; try++) {
        switch (read_frame(f)) {
        case 0:
            if (send_byte('+') == 0)
                return try;
            printf("try %d: no answer sent\n", try);
            break;
        case 1:
            printf("try %d: wrong sum %u\n", try, f->sum & 0xff);
            break;
        default:
            lost++;
        }
        send_byte('-');
    }
    return 0;
}

int main(void) {
    struct frame f;
    int tries = receive(&f);
    if (!tries) {
        printf("gave up, %d lost\n", lost);
        return 1;
    }
    printf("%d bytes at try %d: %.*s\n", f.length, tries, f.length, (char *)f.data);
    return 0;
}
