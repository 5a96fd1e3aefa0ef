#include <ecpglib.h>
#include <sqlca.h>
#line 3
struct varchar_name { int len; char arr[40]; } name;
#line 3
struct varchar_street { int len; char arr[60]; } street;
#line 4
struct varchar_notes { int len; char arr[80]; } notes[3];
#line 5
short missing[3];
#line 6
int number;
#line 9
int main(void)
{
#line 11
int i;
#line 12
{
#line 12
ECPGconnect(12, "shop", NULL, NULL, NULL);
}
#line 13
strcpy(name.arr, "O'Neill");
#line 14
name.len = strlen(name.arr);
#line 15
{
#line 15
ECPGdo(15, NULL, ECPGst_normal, "SELECT number, street FROM customer WHERE name = $1 AND town = 'Cork'", ECPGt_varchar, &name, 40L, 1L, 44L, ECPGt_NO_INDICATOR, NULL, 0L, 0L, 0L, ECPGt_EOIT, ECPGt_int, &number, 0L, 1L, 4L, ECPGt_NO_INDICATOR, NULL, 0L, 0L, 0L, ECPGt_varchar, &street, 60L, 1L, 64L, ECPGt_NO_INDICATOR, NULL, 0L, 0L, 0L, ECPGt_EORT);
}
#line 17
{
#line 17
ECPGdo(17, NULL, ECPGst_normal, "SELECT text FROM note WHERE customer = $1 LIMIT 3", ECPGt_int, &number, 0L, 1L, 4L, ECPGt_NO_INDICATOR, NULL, 0L, 0L, 0L, ECPGt_EOIT, ECPGt_varchar, notes, 80L, 3L, 84L, ECPGt_short, missing, 0L, 3L, 2L, ECPGt_EORT);
}
#line 18
for (i = 0; i < sqlca.sqlerrd[2]; i++)
#line 19
if (missing[i] >= 0)
#line 20
printf("%d bytes: %.*s\012", notes[i].len, notes[i].len, notes[i].arr);
#line 21
{
#line 21
ECPGdisconnect(21, "CURRENT");
}
#line 22
return 0;
}
