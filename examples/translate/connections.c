#include <ecpglib.h>
#include <sqlca.h>
#line 3
char target[40];
#line 4
char here[20];
#line 5
int number;
#line 6
char *name;
#line 9
char room[50];
#line 11
int main(void)
{
#line 13
strcpy(target, "archive@localhost:5432");
#line 14
strcpy(here, "old");
#line 15
name = room;
#line 16
{
#line 16
ECPGconnect(16, "shop@localhost", "clerk", NULL, "new");
}
#line 17
{
#line 17
ECPGconnect(17, target, "keeper", "secret", here);
}
#line 18
{
#line 18
ECPGsetcommit(18, "on", "new");
}
#line 20
{
#line 20
ECPGdo(20, "new", ECPGst_normal, "SELECT number, name FROM item LIMIT 1", ECPGt_EOIT, ECPGt_int, &number, 0L, 1L, 4L, ECPGt_NO_INDICATOR, NULL, 0L, 0L, 0L, ECPGt_char, &name, 0L, 1L, 8L, ECPGt_NO_INDICATOR, NULL, 0L, 0L, 0L, ECPGt_EORT);
}
#line 21
{
#line 21
ECPGdo(21, here, ECPGst_normal, "INSERT INTO item VALUES ($1, $2)", ECPGt_int, &number, 0L, 1L, 4L, ECPGt_NO_INDICATOR, NULL, 0L, 0L, 0L, ECPGt_char, &name, 0L, 1L, 8L, ECPGt_NO_INDICATOR, NULL, 0L, 0L, 0L, ECPGt_EOIT, ECPGt_EORT);
}
#line 22
{
#line 22
ECPGtrans(22, here, "COMMIT");
}
#line 24
{
#line 24
ECPGsetconn(24, "new");
}
#line 25
{
#line 25
ECPGdo(25, NULL, ECPGst_normal, "DELETE FROM item WHERE number = $1", ECPGt_int, &number, 0L, 1L, 4L, ECPGt_NO_INDICATOR, NULL, 0L, 0L, 0L, ECPGt_EOIT, ECPGt_EORT);
}
#line 26
{
#line 26
ECPGdisconnect(26, here);
}
#line 27
{
#line 27
ECPGdisconnect(27, "new");
}
#line 28
return 0;
}
