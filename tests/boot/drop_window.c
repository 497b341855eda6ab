/* Control: a stub that leaves the window in the page tables. */
void __wrap_drop_window(void);

void __wrap_drop_window(void)
{
}
