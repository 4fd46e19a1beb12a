/* Starts and joins as many empty threads as the word says, one after the other: what a turn of a unit pays for its
   second thread, whatever it does. */
#include <pthread.h>
#include <stdlib.h>

static void *nothing(void *word)
{
    return word;
}

int main(int count, char **words)
{
    long left = count > 1 ? atol(words[1]) : 0;
    for (; left > 0; left--) {
        pthread_t thread;
        if (pthread_create(&thread, NULL, nothing, NULL) != 0)
            return 1;
        if (pthread_join(thread, NULL) != 0)
            return 1;
    }
    return 0;
}
