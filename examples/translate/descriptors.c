#include <ecpglib.h>
#include <sqlca.h>
#line 3
int columns;
#line 4
int column;
#line 5
char name[64];
#line 6
char content[200];
#line 7
short missing;
#line 8
int type;
#line 9
int length;
#line 12
int main(void)
{
#line 14
{
#line 14
ECPGconnect(14, "DEFAULT", NULL, NULL, NULL);
}
#line 15
{
#line 15
ECPGallocate_desc(15, "answer");
}
#line 16
{
#line 16
ECPGprepare(16, NULL, "question", "SELECT * FROM item WHERE number = 1");
}
#line 17
{
#line 17
ECPGdo(17, NULL, ECPGst_execute, "question", ECPGt_EOIT, ECPGt_descriptor, "answer", 1L, 1L, 1L, ECPGt_NO_INDICATOR, NULL, 0L, 0L, 0L, ECPGt_EORT);
}
#line 18
{
#line 18
ECPGget_desc_header(18, "answer", ECPGt_int, &columns, 0L, 1L, 4L, ECPGt_NO_INDICATOR, NULL, 0L, 0L, 0L);
}
#line 19
for (column = 1; column <= columns; column++)
#line 19
{
#line 20
{
#line 20
ECPGget_desc(20, "answer", ECPGt_int, &column, 0L, 1L, 4L, ECPGt_NO_INDICATOR, NULL, 0L, 0L, 0L, ECPGd_name, ECPGt_char, name, 64L, 1L, 64L, ECPGt_NO_INDICATOR, NULL, 0L, 0L, 0L, ECPGd_type, ECPGt_int, &type, 0L, 1L, 4L, ECPGt_NO_INDICATOR, NULL, 0L, 0L, 0L, ECPGd_ret_octet, ECPGt_int, &length, 0L, 1L, 4L, ECPGt_NO_INDICATOR, NULL, 0L, 0L, 0L, ECPGd_indicator, ECPGt_short, &missing, 0L, 1L, 2L, ECPGt_NO_INDICATOR, NULL, 0L, 0L, 0L, ECPGd_data, ECPGt_char, content, 200L, 1L, 200L, ECPGt_NO_INDICATOR, NULL, 0L, 0L, 0L, ECPGd_EODT);
}
#line 23
if (missing < 0)
#line 24
printf("%s (%d): none\012", name, type);
else
#line 26
printf("%s (%d): %s, %d bytes\012", name, type, content, length);
}
#line 28
{
#line 28
ECPGset_desc_header(28, "answer", ECPGt_const, "1", 0L, 1L, 0L, ECPGt_NO_INDICATOR, NULL, 0L, 0L, 0L);
}
#line 29
{
#line 29
ECPGset_desc(29, "answer", ECPGt_const, "1", 0L, 1L, 0L, ECPGt_NO_INDICATOR, NULL, 0L, 0L, 0L, ECPGd_data, ECPGt_char, content, 200L, 1L, 200L, ECPGt_NO_INDICATOR, NULL, 0L, 0L, 0L, ECPGd_indicator, ECPGt_short, &missing, 0L, 1L, 2L, ECPGt_NO_INDICATOR, NULL, 0L, 0L, 0L, ECPGd_EODT);
}
#line 30
{
#line 30
ECPGdo(30, NULL, ECPGst_execute, "question", ECPGt_descriptor, "answer", 1L, 1L, 1L, ECPGt_NO_INDICATOR, NULL, 0L, 0L, 0L, ECPGt_EOIT, ECPGt_EORT);
}
#line 31
{
#line 31
ECPGdeallocate_desc(31, "answer");
}
#line 32
{
#line 32
ECPGdisconnect(32, "CURRENT");
}
#line 33
return 0;
}
