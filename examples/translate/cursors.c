#include <ecpglib.h>
#include <sqlca.h>
#include <stdio.h>
#line 5
char name[21];
#line 6
int price;
#line 7
short missing;
#line 8
int least;
#line 16
int main(void)
{
#line 18
{
#line 18
ECPGconnect(18, "shop", NULL, NULL, NULL);
#line 18
if (sqlca.sqlcode < 0)
#line 18
exit(1);
}
#line 19
least = 100;
#line 20
{
#line 20
ECPGdo(20, NULL, ECPGst_normal, "DECLARE dear CURSOR FOR SELECT name, price FROM item WHERE price > $1 ORDER BY name", ECPGt_int, &least, 0L, 1L, 4L, ECPGt_NO_INDICATOR, NULL, 0L, 0L, 0L, ECPGt_EOIT, ECPGt_EORT);
#line 20
if (sqlca.sqlcode < 0)
#line 20
exit(1);
}
#line 22
while (1)
#line 22
{
#line 23
{
#line 23
ECPGdo(23, NULL, ECPGst_normal, "FETCH NEXT FROM dear", ECPGt_EOIT, ECPGt_char, name, 21L, 1L, 21L, ECPGt_NO_INDICATOR, NULL, 0L, 0L, 0L, ECPGt_int, &price, 0L, 1L, 4L, ECPGt_short, &missing, 0L, 1L, 2L, ECPGt_EORT);
#line 23
if (sqlca.sqlcode == 100)
#line 23
break;
#line 23
if (sqlca.sqlcode < 0)
#line 23
exit(1);
}
#line 24
if (missing < 0)
#line 25
printf("%s has no price\012", name);
else
#line 27
printf("%s %d\012", name, price);
}
#line 30
{
#line 30
ECPGdo(30, NULL, ECPGst_normal, "CLOSE dear", ECPGt_EOIT, ECPGt_EORT);
#line 30
if (sqlca.sqlcode < 0)
#line 30
exit(1);
}
#line 31
{
#line 31
ECPGtrans(31, NULL, "COMMIT");
#line 31
if (sqlca.sqlcode < 0)
#line 31
exit(1);
}
#line 32
{
#line 32
ECPGdisconnect(32, "CURRENT");
#line 32
if (sqlca.sqlcode < 0)
#line 32
exit(1);
}
#line 33
return 0;
}
