static unsigned turns[1024] = { 1 };
static volatile unsigned seen[4096];

static unsigned next(unsigned n) { return turns[n % 1024] + seen[n % 4096]; }

void _start(void)
{
    for (unsigned n = 0;; n++) {
        seen[n % 4096] = next(n);
        turns[n % 1024] = n;
    }
}
