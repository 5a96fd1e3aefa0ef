#include <ecpglib.h>
#include <sqlca.h>
#line 5
int stock;
#line 6
char code[6];
#line 9
void note(int line)
{
#line 11
fprintf(stderr, "line %d: code %ld\012", line, sqlca.sqlcode);
}
#line 17
int main(void)
{
#line 19
{
#line 19
ECPGconnect(19, "shop", NULL, NULL, NULL);
#line 19
if (sqlca.sqlwarn[0] == 'W')
#line 19
sqlprint();
#line 19
if (sqlca.sqlcode < 0)
#line 19
goto failed;
}
#line 21
{
#line 21
ECPGdo(21, NULL, ECPGst_normal, "SELECT stock FROM item WHERE number = 17", ECPGt_EOIT, ECPGt_int, &stock, 0L, 1L, 4L, ECPGt_NO_INDICATOR, NULL, 0L, 0L, 0L, ECPGt_EORT);
#line 21
if (sqlca.sqlcode == 100)
#line 21
note(22);
#line 21
if (sqlca.sqlwarn[0] == 'W')
#line 21
sqlprint();
#line 21
if (sqlca.sqlcode < 0)
#line 21
goto failed;
}
#line 22
if (sqlca.sqlcode == 0)
#line 23
{
#line 23
ECPGdo(23, NULL, ECPGst_normal, "UPDATE item SET stock = $1 - 1 WHERE number = 17", ECPGt_int, &stock, 0L, 1L, 4L, ECPGt_NO_INDICATOR, NULL, 0L, 0L, 0L, ECPGt_EOIT, ECPGt_EORT);
#line 23
if (sqlca.sqlcode == 100)
#line 23
note(22);
#line 23
if (sqlca.sqlwarn[0] == 'W')
#line 23
sqlprint();
#line 23
if (sqlca.sqlcode < 0)
#line 23
goto failed;
}
#line 24
{
#line 24
ECPGtrans(24, NULL, "COMMIT");
#line 24
if (sqlca.sqlcode == 100)
#line 24
note(22);
#line 24
if (sqlca.sqlwarn[0] == 'W')
#line 24
sqlprint();
#line 24
if (sqlca.sqlcode < 0)
#line 24
goto failed;
}
#line 25
return 0;
#line 27
failed:
#line 27
;
#line 29
strncpy(code, sqlca.sqlstate, 5);
#line 30
printf("state %s: %s\012", code, sqlca.sqlerrm.sqlerrmc);
#line 31
{
#line 31
ECPGtrans(31, NULL, "ROLLBACK");
#line 31
if (sqlca.sqlcode == 100)
#line 31
note(22);
#line 31
if (sqlca.sqlwarn[0] == 'W')
#line 31
sqlprint();
}
#line 32
return 1;
}
