// Store buffering with a fence between each thread's write and its read: one of the two reads 1.
int x, y;
void print(int r);

void f(void *a) {
    int r;
    y = 1;
    mfence();
    r = x;
    print(r);
    while (1) ;
}

int main(void) {
    int r;
    thread_create(f, 0);
    x = 1;
    mfence();
    r = y;
    print(r);
    return 0;
}
