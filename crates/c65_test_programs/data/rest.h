/* The further arguments of a function with `...`, for the programs beside it. */
typedef unsigned char *va_list;
#define va_start(ap,last) ((void)((ap)=__va_rest))
#define va_arg(ap,t) (*(t*)((ap)-=sizeof(t)))
#define va_end(ap) ((void)0)
