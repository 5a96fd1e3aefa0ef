#include <ecpglib.h>
#include <sqlca.h>
#line 3
struct item { int number; char name[20]; struct { long price; bool listed; } offer; };
#line 8
struct item_missing { short number, name, price, listed; };
#line 11
struct item items[10];
#line 12
struct item_missing missing[10];
#line 13
struct item one;
#line 16
int main(void)
{
#line 18
int i;
#line 19
{
#line 19
ECPGconnect(19, "shop", NULL, NULL, NULL);
}
#line 20
{
#line 20
ECPGdo(20, NULL, ECPGst_normal, "SELECT number, name, price, listed FROM item ORDER BY number LIMIT 10", ECPGt_EOIT, ECPGt_int, &items[0].number, 0L, 10L, 40L, ECPGt_short, &missing[0].number, 0L, 10L, 8L, ECPGt_char, items[0].name, 20L, 10L, 40L, ECPGt_short, &missing[0].name, 0L, 10L, 8L, ECPGt_long, &items[0].offer.price, 0L, 10L, 40L, ECPGt_short, &missing[0].price, 0L, 10L, 8L, ECPGt_bool, &items[0].offer.listed, 0L, 10L, 40L, ECPGt_short, &missing[0].listed, 0L, 10L, 8L, ECPGt_EORT);
}
#line 22
for (i = 0; i < sqlca.sqlerrd[2]; i++)
#line 23
if (missing[i].price < 0)
#line 24
printf("%d %s has no price\012", items[i].number, items[i].name);
#line 25
one = items[0];
#line 26
one.number = 100;
#line 27
{
#line 27
ECPGdo(27, NULL, ECPGst_normal, "INSERT INTO item (number, name, price, listed) VALUES ($1, $2, $3, $4)", ECPGt_int, &one.number, 0L, 1L, 4L, ECPGt_NO_INDICATOR, NULL, 0L, 0L, 0L, ECPGt_char, one.name, 20L, 1L, 20L, ECPGt_NO_INDICATOR, NULL, 0L, 0L, 0L, ECPGt_long, &one.offer.price, 0L, 1L, 8L, ECPGt_NO_INDICATOR, NULL, 0L, 0L, 0L, ECPGt_bool, &one.offer.listed, 0L, 1L, 1L, ECPGt_NO_INDICATOR, NULL, 0L, 0L, 0L, ECPGt_EOIT, ECPGt_EORT);
}
#line 28
{
#line 28
ECPGdo(28, NULL, ECPGst_normal, "UPDATE item SET price = $1 WHERE number = $2", ECPGt_long, &items[1].offer.price, 0L, 1L, 8L, ECPGt_NO_INDICATOR, NULL, 0L, 0L, 0L, ECPGt_int, &one.number, 0L, 1L, 4L, ECPGt_NO_INDICATOR, NULL, 0L, 0L, 0L, ECPGt_EOIT, ECPGt_EORT);
}
#line 29
{
#line 29
ECPGtrans(29, NULL, "COMMIT");
}
#line 30
{
#line 30
ECPGdisconnect(30, "CURRENT");
}
#line 31
return 0;
}
