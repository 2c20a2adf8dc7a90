/* Instead of libcrypto's random numbers: some that are the same in each run, so that what was recorded can be played
 * again. For tests alone, by LD_PRELOAD. */
int RAND_bytes(unsigned char *bytes, int count);

int RAND_bytes(unsigned char *bytes, int count)
{
    static unsigned long long state = 0x9e3779b97f4a7c15;
    for (int at = 0; at < count; at++) {
        state = state * 6364136223846793005ULL + 1442695040888963407ULL;
        bytes[at] = (unsigned char)(state >> 56);
    }
    return 1;
}
