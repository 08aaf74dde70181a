int printf(const char *, ...);
int start_job(int id);
int job_status(int id);

static int faults;

static int run_job(int id, int tries)
{
    int try;
    for (try = 1; try <= tries; try++) {
        int fault = start_job(id);
        if (fault == 0) {
            printf("job %d started at try %d\n", id, try);
            return job_status(id);
        }
        faults++;
        printf("job %d: fault %d\n", id, fault);
    }
    return -1;
}

int main(void)
{
    int id;
    for (id = 1; id <= 3; id++) {
        switch (run_job(id, 2)) {
        case 0:
            break;
        case -1:
            printf("job %d gave up\n", id);
            break;
        default:
            printf("job %d failed\n", id);
            return 2;
        }
    }
    if (faults > 2)
        printf("too many faults\n");
    printf("done, %d faults\n", faults);
    return faults != 0;
}
