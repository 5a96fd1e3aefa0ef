/* The calls of written C from several threads, each with a connection and a prepared statement of its own. */
#include <ecpglib.h>
#include <sqlca.h>
#include <pthread.h>

enum { THREADS = 8, ROUNDS = 50 };

static void *work(void *argument)
{
    int number = *(int *)argument, sum = 0, one, found;
    char name[16], statement[16];
    long failed = 0;

    snprintf(name, sizeof name, "c%d", number);
    snprintf(statement, sizeof statement, "s%d", number);
    ECPGconnect(1, "db", NULL, NULL, name);
    ECPGprepare(2, name, statement, "SELECT $1::int + generate_series(1, 3)");
    for (one = 0; one < ROUNDS; one++) {
        ECPGdo(3, name, ECPGst_open, "DECLARE rows CURSOR FOR ", statement,
            ECPGt_int, &one, 0L, 1L, 4L, ECPGt_NO_INDICATOR, NULL, 0L, 0L, 0L, ECPGt_EOIT, ECPGt_EORT);
        failed += sqlca.sqlcode != 0;
        ECPGdo(4, name, ECPGst_normal, "FETCH FORWARD $1 FROM rows",
            ECPGt_int, &(int){1}, 0L, 1L, 4L, ECPGt_NO_INDICATOR, NULL, 0L, 0L, 0L, ECPGt_EOIT,
            ECPGt_int, &found, 0L, 1L, 4L, ECPGt_NO_INDICATOR, NULL, 0L, 0L, 0L, ECPGt_EORT);
        failed += sqlca.sqlcode != 0;
        sum += found;
        ECPGdo(5, name, ECPGst_normal, "CLOSE rows", ECPGt_EOIT, ECPGt_EORT);
        ECPGdo(6, name, ECPGst_normal, "SELECT nothing", ECPGt_EOIT, ECPGt_EORT);
        failed += sqlca.sqlcode != -400;
        ECPGtrans(7, name, "ROLLBACK");
    }
    ECPGdisconnect(8, name);
    return (void *)(sum + 1000000 * failed);
}

int main(void)
{
    pthread_t threads[THREADS];
    int numbers[THREADS];
    void *sum;

    for (int i = 0; i < THREADS; i++) {
        numbers[i] = i;
        pthread_create(&threads[i], NULL, work, &numbers[i]);
    }
    for (int i = 0; i < THREADS; i++) {
        pthread_join(threads[i], &sum);
        printf("%ld\n", (long)sum);
    }
    return 0;
}
