/* A program that uses a call of a newer library. */
int vtc_new(void);

int main(void) { return vtc_new(); }
