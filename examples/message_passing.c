// Message passing: one thread writes a message and then a flag, the other one waits for the flag.
int message, flag;
void print(int r);

void writer(void *a) {
    message = 42;
    flag = 1;
}

int main(void) {
    int r;
    thread_create(writer, 0);
    while (flag == 0) ;
    r = message;
    print(r);
    return 0;
}
