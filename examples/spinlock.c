// A spinlock: three threads add to a count, three times each, and none of the nine is lost.
int lock, count, done;
void print(int r);

void acquire(void) {
    int old;
    do {
        old = atomic_xchg(&lock, 1);
    } while (old != 0);
}

// A plain write is enough: the writes before it reach memory first.
void release(void) {
    lock = 0;
}

void work(void *a) {
    int i;
    for (i = 0; i < 3; i++) {
        acquire();
        count = count + 1;
        release();
    }
    atomic_add(&done, 1);
}

int main(void) {
    int r;
    thread_create(work, 0);
    thread_create(work, 0);
    work(0);
    while (done < 3) ;
    r = count;
    print(r);
    return 0;
}
