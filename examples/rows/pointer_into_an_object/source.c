int x;
int main(void)
{
ECPGdo(1, NULL, ECPGst_normal, "SELECT 1", ECPGt_EOIT, ECPGt_int, (int *)8589934594L, 0L, 1L, 4L, ECPGt_NO_INDICATOR, NULL, 0L, 0L, 0L, ECPGt_EORT);
return 0;
}
