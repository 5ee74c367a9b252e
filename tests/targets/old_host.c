/* A host that was compiled with the header of layout 2, which must not link. */
unsigned forth83_load(void);

int main(void)
{
    return (int)forth83_load();
}
