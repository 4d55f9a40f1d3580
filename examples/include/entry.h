int ENTRY (void);
#undef ENTRY
