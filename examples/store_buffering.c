// Store buffering: each of two threads writes one word and then prints the other one.
int x, y;
void print(int r);

void f(void *a) {
    int r;
    y = 1;
    r = x;
    print(r);
    while (1) ;
}

int main(void) {
    int r;
    thread_create(f, 0);
    x = 1;
    r = y;
    print(r);
    return 0;
}
