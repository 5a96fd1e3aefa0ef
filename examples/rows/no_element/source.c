int x;
int main(void)
{
ECPGdo(1, NULL, ECPGst_normal, "SELECT 1", ECPGt_EOIT, ECPGt_int, &x, 0L, 0L, 4L, ECPGt_NO_INDICATOR, NULL, 0L, 0L, 0L, ECPGt_EORT);
return 0;
}
