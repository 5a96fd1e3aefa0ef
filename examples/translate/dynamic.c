#include <ecpglib.h>
#include <sqlca.h>
#line 3
char text[100];
#line 4
int number;
#line 5
char name[30];
#line 8
int main(void)
{
#line 10
{
#line 10
ECPGconnect(10, "shop", "clerk", "secret", NULL);
}
#line 11
{
#line 11
ECPGdo(11, NULL, ECPGst_exec_immediate, "CREATE TABLE item (number int, name text)", ECPGt_EOIT, ECPGt_EORT);
}
#line 13
strcpy(text, "INSERT INTO item VALUES (?, ?)");
#line 14
{
#line 14
ECPGprepare(14, NULL, "add_item", text);
}
#line 15
for (number = 1; number < 4; number++)
#line 15
{
#line 16
strcpy(name, "item");
#line 17
{
#line 17
ECPGdo(17, NULL, ECPGst_execute, "add_item", ECPGt_int, &number, 0L, 1L, 4L, ECPGt_NO_INDICATOR, NULL, 0L, 0L, 0L, ECPGt_char, name, 30L, 1L, 30L, ECPGt_NO_INDICATOR, NULL, 0L, 0L, 0L, ECPGt_EOIT, ECPGt_EORT);
}
}
#line 19
{
#line 19
ECPGdeallocate(19, NULL, "add_item");
}
#line 21
{
#line 21
ECPGprepare(21, NULL, "one_item", "SELECT name FROM item WHERE number = ?");
}
#line 22
{
#line 22
ECPGdo(22, NULL, ECPGst_execute, "one_item", ECPGt_const, "2", 0L, 1L, 0L, ECPGt_NO_INDICATOR, NULL, 0L, 0L, 0L, ECPGt_EOIT, ECPGt_char, name, 30L, 1L, 30L, ECPGt_NO_INDICATOR, NULL, 0L, 0L, 0L, ECPGt_EORT);
}
#line 24
{
#line 24
ECPGprepare(24, NULL, "all_items", "SELECT name FROM item WHERE number > ?");
}
#line 26
number = 1;
#line 27
{
#line 27
ECPGdo(27, NULL, ECPGst_open, "DECLARE items CURSOR FOR ", "all_items", ECPGt_int, &number, 0L, 1L, 4L, ECPGt_NO_INDICATOR, NULL, 0L, 0L, 0L, ECPGt_EOIT, ECPGt_EORT);
}
#line 28
{
#line 28
ECPGdo(28, NULL, ECPGst_normal, "FETCH items", ECPGt_EOIT, ECPGt_char, name, 30L, 1L, 30L, ECPGt_NO_INDICATOR, NULL, 0L, 0L, 0L, ECPGt_EORT);
}
#line 29
{
#line 29
ECPGdo(29, NULL, ECPGst_normal, "CLOSE items", ECPGt_EOIT, ECPGt_EORT);
}
#line 30
{
#line 30
ECPGtrans(30, NULL, "COMMIT");
}
#line 31
{
#line 31
ECPGdisconnect(31, "ALL");
}
#line 32
return 0;
}
