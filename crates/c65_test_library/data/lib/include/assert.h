/* Diagnostics (C90 7.2): each inclusion looks at NDEBUG anew. */
#undef assert

#ifdef NDEBUG
#define assert(test) ((void)0)
#else
void _assert_failed(const char *test, const char *file, int line);
#define assert(test) ((test) ? (void)0 : _assert_failed(#test, __FILE__, __LINE__))
#endif
